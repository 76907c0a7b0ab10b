/*
 * Hostile input over the C boundary: fuzz COUNT SEED SLIP FILE..
 *
 * COUNT is a number of cases, a number of seconds with an `s` behind it, or one case by its number with an `=` before.
 * Case i of a seed is the same at every run with the same files. A case takes a real file or makes an image, changes some of
 * its numbers, lends memory of some length that is full of rubbish, opens, and calls: every function that the archive has,
 * with starts, offsets and lengths of all kinds, on the state and tables that the opening gave, or on changed ones. Each
 * answer, and what every lent buffer holds then, is compared with judge.h, to the last byte. lend.h has the memory.
 *
 * SLIP is 0. Any other is a mistake that this program makes itself after a call, to see that it is noticed: see slip_open
 * and slip_call. With `slips` for COUNT it says how many there are.
 */
#include "lend.h"

#include "food.h"

#include <signal.h>
#include <time.h>
#include <unistd.h>

static uint64_t seed, cases, calls;
static unsigned slip;
static uint64_t met_open[32], met_call[5][32];
static uint64_t changes, with_difat, fat_grown, difat_grown; /* accepted changes, and what they met and made */
static uint64_t digest = 0xcbf29ce484222325u;

static void where(void)
{
    printf("fuzz: case %llu of seed %llu\n", (unsigned long long)cases, (unsigned long long)seed);
    fflush(stdout);
}

static void no_end(int signal_number)
{
    static const char text[] = "fuzz: a call does not come to an end\n";
    (void)signal_number;
    if (write(1, text, sizeof text - 1) > 0) where();
    _exit(1);
}

/* What a sanitizer has against this program is told with its case too. */
const char *__ubsan_default_options(void);
const char *__ubsan_default_options(void)
{
    return "abort_on_error=1:print_stacktrace=1";
}

static void aborted(int signal_number)
{
    (void)signal_number;
    where();
    _exit(1);
}

#define CHECK(condition, ...)                                                                                          \
    do {                                                                                                               \
        if (!(condition)) {                                                                                            \
            printf("fuzz: not so: %s\n", #condition);                                                                  \
            printf(__VA_ARGS__);                                                                                       \
            printf("\n");                                                                                              \
            where();                                                                                                   \
            exit(1);                                                                                                   \
        }                                                                                                              \
    } while (0)

static void noted(uint64_t number)
{
    size_t i;
    for (i = 0; i < 8; i++) {
        digest = (digest ^ (number >> 8 * i & 0xff)) * 0x100000001b3u;
    }
    calls++;
}

/* -------------------------------------------------------------------------------------------------------------- lent */

enum { IMAGE, FAT, FATS, DIFATS, FREES, MARKS, IDS, STATE, ANSWER, BUF, HEADER, ITEM, TEXT, LIST, ZONES };

static zone zones[ZONES];

static const size_t IMAGE_ROOM = (size_t)(MOST + 200) * 512;

static void make_zones(void)
{
    static const char *const names[ZONES] = {"image", "fat", "fats", "difats", "frees", "marks", "ids",
                                             "state", "answer", "buf", "header", "item", "text", "list"};
    size_t i;
    for (i = 0; i < ZONES; i++) {
        size_t room = i == IMAGE ? IMAGE_ROOM : i <= IDS ? 4 * (MOST + 300) : i == BUF ? 256 * 1024 : 2 * PAGE;
        zone_make(&zones[i], names[i], room);
    }
}

static void rubbish(zone *z)
{
    static const uint8_t bytes[] = {0, 0x5a, 0xff, 1};
    memset(z->at, bytes[below(sizeof bytes)], z->len);
}

/* Lends anew, with rubbish. */
static void lend(size_t which, size_t len)
{
    zone_lend(&zones[which], len, !once_in(3));
    rubbish(&zones[which]);
}

static lent all_lent(void)
{
    lent l;
    l.state = (rasuvelk_state *)(void *)zones[STATE].at;
    l.image = zones[IMAGE].at;
    l.image_len = zones[IMAGE].len;
    l.fat = (uint32_t *)(void *)zones[FAT].at;
    l.fats = (uint32_t *)(void *)zones[FATS].at;
    l.difats = (uint32_t *)(void *)zones[DIFATS].at;
    l.frees = (uint32_t *)(void *)zones[FREES].at;
    l.ids = (uint32_t *)(void *)zones[IDS].at;
    l.marks = zones[MARKS].at;
    l.fat_len = zones[FAT].len / 4;
    l.fats_len = zones[FATS].len / 4;
    l.difats_len = zones[DIFATS].len / 4;
    l.frees_len = zones[FREES].len / 4;
    l.ids_len = zones[IDS].len / 4;
    l.marks_len = zones[MARKS].len;
    return l;
}

/* ------------------------------------------------------------------------------------------------------------- slips */

enum {
    NO_SLIP,
    PAST_THE_IDS,
    BEFORE_THE_FAT,
    BEHIND_THE_IMAGE,
    OPENING_STORES,
    REFUSED_TOUCHES,
    REFUSED_LEAVES,
    OTHER_NUMBER,
    REFUSED_STORES,
    REFUSED_STATE,
    OTHER_SECTOR,
    OTHER_ORDER,
    PAST_THE_READ,
    IDS_LEFT,
    ANSWER_LEFT,
    CONST_STORED,
    STATE_KEPT,
    ZERO_TAIL,
    NO_END,
    SLIPS
};

/* A mistake after an opening. */
static void slip_open(uint32_t *number, lent *l)
{
    switch (slip) {
    case BEFORE_THE_FAT: ((volatile uint32_t *)l->fat)[-1] = 3; break;
    case BEHIND_THE_IMAGE: calls += ((volatile uint8_t *)l->image)[l->image_len] & 1; break;
    case OPENING_STORES: l->image[0] ^= l->image_len > 0; break;
    case REFUSED_TOUCHES:
        if (*number > 0 && *number < 12 && l->fats_len > 0) l->fats[l->fats_len - 1]++;
        break;
    case REFUSED_LEAVES:
        if (*number >= 12 && l->marks_len > 0) l->marks[l->marks_len - 1] = 1;
        break;
    case OTHER_NUMBER:
        if (*number == 16) *number = 15;
        break;
    case NO_END:
        for (;;) {
            calls++;
        }
    default: break;
    }
}

/* A mistake after a call on a chain. */
static void slip_call(uint32_t number, const call *c, lent *l, uint8_t *buf, rasuvelk_answer *answer)
{
    int change = c->what >= WRITE_CHAIN;
    switch (slip) {
    case PAST_THE_IDS: ((volatile uint32_t *)l->ids)[l->ids_len] = 0; break;
    case REFUSED_STORES:
        if (change && number != 0 && l->image_len > 0) l->image[l->image_len - 1]++;
        break;
    case REFUSED_STATE:
        if (change && number == 24) l->state->free_sectors++;
        break;
    case OTHER_SECTOR: /* a byte of the last sector, which is the chain's own at times: then it is noticed the next time */
        if (change && number == 0 && l->state->num_sectors > 3) l->image[l->state->used - 1] ^= 1;
        break;
    case OTHER_ORDER:
        if (change && number == 0 && l->state->free_sectors > 1) {
            uint32_t id = l->frees[0];
            l->frees[0] = l->frees[1];
            l->frees[1] = id;
        }
        break;
    case PAST_THE_READ:
        if (c->what == READ_CHAIN && number == 0 && answer->bytes < c->buf_len) buf[answer->bytes]++;
        break;
    case IDS_LEFT:
        if (number >= 20 && l->ids_len > 0) l->ids[0] = 1;
        break;
    case ANSWER_LEFT:
        if (number >= 20) answer->start = END;
        break;
    case CONST_STORED: /* no more than a store of what is there */
        if (!change && l->fat_len > 0) *(volatile uint32_t *)l->fat = l->fat[0];
        break;
    case STATE_KEPT:
        if (change && number == 0) memcpy(l->state, zones[STATE].before, sizeof *l->state);
        break;
    case ZERO_TAIL:
        if (c->what == RESIZE_CHAIN && number == 0 && c->offset % 512 != 0 && answer->ids > 0) {
            size_t S = sector_len(l->state->version);
            l->image[(l->ids[answer->ids - 1] + 2) * S - 1] = 9;
        }
        break;
    default: break;
    }
}

/* ----------------------------------------------------------------------------------------------------------- opening */

static opened judged_open;

/* What nothing but the call's own memory may have had: edges everywhere. */
static void check_edges(const char *after)
{
    size_t i;
    for (i = 0; i < ZONES; i++) {
        CHECK(zone_edges(&zones[i]), "around %s after %s", zones[i].name, after);
    }
}

/* rasuvelk_open, compared. */
static uint32_t try_open(size_t used, uint32_t mode)
{
    static const size_t tables[] = {FAT, FATS, DIFATS, FREES, MARKS};
    lent l = all_lent();
    opened *o = &judged_open;
    int protect = once_in(4) || slip == CONST_STORED;
    uint32_t number;
    size_t i;
    for (i = IMAGE; i <= MARKS; i++) {
        zone_keep(&zones[i]);
    }
    if (protect) zone_protect(&zones[IMAGE], 1);
    number = rasuvelk_open(l.image, l.image_len, used, mode, l.fat, l.fat_len, l.fats, l.fats_len, l.difats, l.difats_len,
                           l.frees, l.frees_len, l.marks, l.marks_len, l.state);
    if (protect) zone_protect(&zones[IMAGE], 0);
    slip_open(&number, &l);
    judge_open(l.image, l.image_len, used, mode, shortest_table(&l), o);
    CHECK(number == o->number, "an opening answers %u, and must %u", number, o->number);
    CHECK(zone_same(&zones[IMAGE]), "an opening answers %u, and the image is another", number);
    CHECK(memcmp(l.state, &o->state, sizeof o->state) == 0, "the state beside %u", number);
    for (i = 0; i < 5; i++) {
        const zone *z = &zones[tables[i]];
        CHECK(number == 0 || (number < 12 ? zone_same(z) : all_are(z->at, z->len, 0)), "%s after %u", z->name, number);
    }
    CHECK(number != 0 || (tables_are(&l, o) && memcmp(l.frees, o->frees, 4 * o->free) == 0), "the tables of an opening");
    check_edges("an opening");
    met_open[number]++;
    noted(number);
    return number;
}

/* rasuvelk_read_header on the first `len` bytes of the image, compared. */
static void try_header(size_t len, uint32_t mode)
{
    rasuvelk_header must, *header;
    uint32_t number, expected = judge_header(zones[IMAGE].at, len, mode, &must);
    zone_keep(&zones[IMAGE]);
    lend(HEADER, sizeof must);
    header = (rasuvelk_header *)(void *)zones[HEADER].at;
    number = rasuvelk_read_header(zones[IMAGE].at, len, mode, header);
    CHECK(number == expected, "the header's reader answers %u, and must %u", number, expected);
    CHECK(memcmp(header, &must, sizeof must) == 0, "the header beside %u", number);
    CHECK(zone_same(&zones[IMAGE]), "the header's reader stored");
    check_edges("the header's reader");
    noted(number);
}

/* rasuvelk_write_header of the header that was read last, changed at times, compared; and read again. */
static void try_writing(void)
{
    rasuvelk_header *header = (rasuvelk_header *)(void *)zones[HEADER].at, again;
    uint8_t must[512];
    uint32_t number, expected, *words = (uint32_t *)(void *)header;
    size_t len = once_in(4) ? below(520) : 512 + below(20);
    while (once_in(2)) {
        uint32_t *word = words + (once_in(2) ? below(12) : below(sizeof *header / 4));
        *word = once_in(2) ? (uint32_t)below(6) : bad_number(20);
    }
    lend(BUF, len);
    zone_keep(&zones[BUF]);
    zone_keep(&zones[HEADER]);
    number = rasuvelk_write_header(header, zones[BUF].at, len);
    expected = judge_writing(header, len);
    CHECK(number == expected, "the header's writer answers %u, and must %u", number, expected);
    CHECK(zone_same(&zones[HEADER]), "the header's writer changed the header");
    if (number == 0) {
        written_header(header, must);
        CHECK(memcmp(zones[BUF].at, must, 512) == 0, "the header that was written");
        CHECK(memcmp(zones[BUF].at + 512, zones[BUF].before + 512, len - 512) == 0, "behind the header");
        CHECK(rasuvelk_read_header(zones[BUF].at, len, (uint32_t)next(), &again) == 0, "a written header is read");
        CHECK(memcmp(&again, header, sizeof again) == 0, "a written header comes back");
    } else {
        CHECK(zone_same(&zones[BUF]), "a refused writing stored");
    }
    check_edges("the header's writer");
    noted(number);
}

/* rasuvelk_prettify, rasuvelk_sector_text and rasuvelk_kind_of over a list of entries, compared. */
static void try_items(void)
{
    static const uint32_t kinds[] = {0, RASUVELK_ITEM_DIFAT, RASUVELK_ITEM_FAT, RASUVELK_ITEM_END, RASUVELK_ITEM_FREE};
    static const char *const names[] = {"", "FREE", "EOC", "FAT", "DIFAT"};
    size_t len = below(40), at = below(len + 3), past, i;
    uint32_t *list, kind, expected = RASUVELK_ITEM_NONE;
    rasuvelk_item *item, must = {0, 0, 0};
    char text[64] = "";
    uint64_t a, b;
    lend(LIST, 4 * len);
    lend(ITEM, sizeof *item);
    lend(TEXT, 32);
    list = (uint32_t *)(void *)zones[LIST].at;
    item = (rasuvelk_item *)(void *)zones[ITEM].at;
    for (i = 0; i < len; i++) {
        list[i] = i > 0 && once_in(2) ? list[i - 1] + (uint32_t)once_in(2) : bad_number(len);
        CHECK(rasuvelk_kind_of(list[i]) == judge_kind(list[i]), "the kind of %u", list[i]);
    }
    zone_keep(&zones[LIST]);
    kind = rasuvelk_prettify(list, len, at, item);
    if (at < len) {
        expected = list[at] > RASUVELK_INVALID_SECTOR ? kinds[list[at] - RASUVELK_INVALID_SECTOR] : RASUVELK_ITEM_RANGE;
        for (past = at + 1; past < len && expected != RASUVELK_ITEM_END; past++) {
            if (expected == RASUVELK_ITEM_RANGE
                    ? list[past] > RASUVELK_INVALID_SECTOR || list[past] != list[past - 1] + 1
                    : list[past] != list[at]) {
                break;
            }
        }
        must.a = expected == RASUVELK_ITEM_RANGE ? list[at] : past - at;
        must.b = expected == RASUVELK_ITEM_RANGE ? list[past - 1] : 0;
        must.next = past;
    }
    CHECK(kind == expected && memcmp(item, &must, sizeof must) == 0, "the item at %zu of %zu", at, len);
    CHECK(zone_same(&zones[LIST]), "the list of entries");
    if (once_in(3)) kind = once_in(2) ? (uint32_t)below(8) : (uint32_t)next();
    a = once_in(2) ? item->a : bad_long(1u << 30);
    b = once_in(2) ? item->b : once_in(2) ? a : bad_long(1u << 30);
    if (kind == RASUVELK_ITEM_END) {
        strcpy(text, "EOC");
    } else if (kind >= RASUVELK_ITEM_FREE && kind <= RASUVELK_ITEM_DIFAT) {
        if (a == 1) {
            strcpy(text, names[kind]);
        } else {
            snprintf(text, sizeof text, "%llu %s", (unsigned long long)a, names[kind]);
        }
    } else if (kind == RASUVELK_ITEM_RANGE && a <= UINT32_MAX && b <= UINT32_MAX) {
        snprintf(text, sizeof text, "%llu", (unsigned long long)a);
        if (a != b) snprintf(text + strlen(text), sizeof text - strlen(text), "..=%llu", (unsigned long long)b);
    }
    CHECK(rasuvelk_sector_text(kind, a, b, (rasuvelk_text *)(void *)zones[TEXT].at) == strlen(text), "text %s", text);
    CHECK(memcmp(zones[TEXT].at, text, 32) == 0, "text %s", text);
    check_edges("the calls on items");
    noted(kind);
}

/* ------------------------------------------------------------------------------------------------------------ chains */

static judged must_call;
static opened fresh;

/* Whether a case is about an image that is full, with room behind it, so that the next sectors need a FAT sector. */
static int at_an_edge;

/* A byte of a chain before the call. */
static uint8_t old_byte(const judged *j, uint64_t at)
{
    return zones[IMAGE].before[(j->old_ids[at / j->S] + 1) * j->S + at % j->S];
}

/* The byte that a chain must have after a change. */
static uint8_t new_byte(const judged *j, const call *c, uint64_t at)
{
    uint64_t length = (uint64_t)j->was * j->S;
    if (c->what == WRITE_CHAIN) {
        if (at >= c->offset && at - c->offset < c->buf_len) return zones[BUF].at[at - c->offset];
    } else if (c->offset < length) {
        length = c->offset;
    }
    return at < length ? old_byte(j, at) : 0;
}

/* The image after an accepted change: the chain's bytes, and those that had to stay. */
static void check_image(const lent *l, const judged *j, const call *c)
{
    static uint8_t role[MOST];
    const uint8_t *now = l->image, *was = zones[IMAGE].before;
    size_t S = j->S, used = (j->n + 1) * S, i, t;
    memset(role, 0, j->n);
    for (i = 0; i < j->now; i++) {
        role[j->ids[i]] = 1;
        for (t = 0; t < S; t++) {
            uint8_t byte = now[(j->ids[i] + 1) * S + t], expected = new_byte(j, c, (uint64_t)i * S + t);
            CHECK(byte == expected, "byte %zu of the chain is %u, and must be %u", i * S + t, byte, expected);
        }
    }
    for (i = 0; i < fresh.k; i++) {
        role[fresh.fats[i]] = 2;
    }
    for (i = 0; i < fresh.d; i++) {
        role[fresh.difats[i]] = 2;
    }
    for (i = 0; i < j->n; i++) {
        CHECK(role[i] != 0 || memcmp(now + (i + 1) * S, was + (i + 1) * S, S) == 0, "sector %zu is no part of this", i);
    }
    CHECK(memcmp(now, was, 44) == 0 && memcmp(now + 48, was + 48, 20) == 0, "the header's other fields");
    CHECK(S == 512 || memcmp(now + 512, was + 512, S - 512) == 0, "behind the header's fields");
    CHECK(memcmp(now + used, was + used, l->image_len - used) == 0, "past the used length");
}

/* Everything after an accepted call. */
static void check_accepted(const lent *l, const judged *j, const call *c, const rasuvelk_answer *answer)
{
    uint64_t left = (uint64_t)j->was * j->S - c->offset, bytes = 0;
    size_t i, count;
    static uint32_t ids[MOST];
    if (c->what == WRITE_CHAIN) bytes = c->buf_len;
    if (c->what == READ_CHAIN) bytes = left < c->buf_len ? left : c->buf_len;
    CHECK(answer->ids == j->now && answer->bytes == bytes, "%llu ids and %llu bytes", (unsigned long long)answer->ids,
          (unsigned long long)answer->bytes);
    CHECK(answer->start == (j->now > 0 ? j->ids[0] : END), "start %llu", (unsigned long long)answer->start);
    CHECK(memcmp(l->ids, j->ids, 4 * j->now) == 0 && zeros_from(l->ids, j->now, l->ids_len), "the ids");
    if (c->what == READ_CHAIN) {
        for (i = 0; i < c->buf_len; i++) {
            uint8_t expected = i < bytes ? old_byte(j, c->offset + i) : zones[BUF].before[i];
            CHECK(zones[BUF].at[i] == expected, "byte %zu of what is read", i);
        }
    }
    if (c->what < WRITE_CHAIN) return;
    judge_open(l->image, l->image_len, l->state->used, 1, shortest_table(l), &fresh);
    CHECK(fresh.number == 0, "a fresh opening after a change answers %u", fresh.number);
    CHECK(memcmp(l->state, &fresh.state, sizeof fresh.state) == 0, "the state is not that of a fresh opening");
    CHECK(fresh.n == j->n && fresh.free == j->free, "%zu sectors and %zu FREE ones, and not %zu and %zu", fresh.n,
          fresh.free, j->n, j->free);
    CHECK(tables_are(l, &fresh), "the tables are not those of a fresh opening");
    CHECK(memcmp(l->frees, j->frees, 4 * j->free) == 0, "the free list");
    CHECK(walk(&fresh, (uint32_t)answer->start, ids, &count) == 0 && count == j->now &&
              memcmp(ids, j->ids, 4 * count) == 0,
          "the walk after a change");
    check_image(l, j, c);
    changes++;
    with_difat += fresh.d > 0;
    fat_grown += fresh.k > judged_open.k;
    difat_grown += fresh.d > judged_open.d;
}

/* One call on a chain, compared. `l` may have shorter lengths than what is lent. */
static uint32_t try_call(lent l, const call *c)
{
    static const size_t held[] = {STATE, IMAGE, FAT, FATS, DIFATS, FREES, MARKS};
    rasuvelk_answer *answer;
    judged *j = &must_call;
    uint8_t *buf;
    int change = c->what >= WRITE_CHAIN, protect = once_in(4) || slip == CONST_STORED;
    uint32_t number = 0;
    size_t i;
    lend(BUF, c->buf_len);
    lend(ANSWER, sizeof *answer);
    buf = zones[BUF].at;
    answer = (rasuvelk_answer *)(void *)zones[ANSWER].at;
    for (i = 0; i < c->buf_len; i++) {
        buf[i] = (uint8_t)(i * 7 + cases);
    }
    rubbish(&zones[IDS]);
    for (i = IMAGE; i <= BUF; i++) {
        zone_keep(&zones[i]);
    }
    judge_call(&l, c, &judged_open, j);
    for (i = 0; protect && !change && i < 7; i++) {
        zone_protect(&zones[held[i]], 1);
    }
    if (protect && c->what == WRITE_CHAIN) zone_protect(&zones[BUF], 1);
    switch (c->what) {
    case OPEN_CHAIN:
        number = rasuvelk_open_chain(l.state, l.image, l.image_len, l.fat, l.fat_len, l.fats, l.fats_len, l.difats,
                                     l.difats_len, l.frees, l.frees_len, l.marks, l.marks_len, l.ids, l.ids_len, c->start,
                                     answer);
        break;
    case READ_CHAIN:
        number = rasuvelk_read_chain(l.state, l.image, l.image_len, l.fat, l.fat_len, l.fats, l.fats_len, l.difats,
                                     l.difats_len, l.frees, l.frees_len, l.marks, l.marks_len, l.ids, l.ids_len, c->start,
                                     c->offset, buf, c->buf_len, answer);
        break;
    case WRITE_CHAIN:
        number = rasuvelk_write_chain(l.state, l.image, l.image_len, l.fat, l.fat_len, l.fats, l.fats_len, l.difats,
                                      l.difats_len, l.frees, l.frees_len, l.marks, l.marks_len, l.ids, l.ids_len,
                                      c->start, c->offset, buf, c->buf_len, answer);
        break;
    case RESIZE_CHAIN:
        number = rasuvelk_resize_chain(l.state, l.image, l.image_len, l.fat, l.fat_len, l.fats, l.fats_len, l.difats,
                                       l.difats_len, l.frees, l.frees_len, l.marks, l.marks_len, l.ids, l.ids_len,
                                       c->start, c->offset, answer);
        break;
    case FREE_CHAIN:
        number = rasuvelk_free_chain(l.state, l.image, l.image_len, l.fat, l.fat_len, l.fats, l.fats_len, l.difats,
                                     l.difats_len, l.frees, l.frees_len, l.marks, l.marks_len, l.ids, l.ids_len, c->start,
                                     answer);
        break;
    }
    if (slip == CONST_STORED) slip_call(number, c, &l, buf, answer);
    for (i = 0; protect && !change && i < 7; i++) {
        zone_protect(&zones[held[i]], 0);
    }
    if (protect && c->what == WRITE_CHAIN) zone_protect(&zones[BUF], 0);
    if (slip != CONST_STORED) slip_call(number, c, &l, buf, answer);

    CHECK(number == j->number, "call %d of %u answers %u, and must %u", (int)c->what, c->start, number, j->number);
    for (i = 0; (number != 0 || !change) && i < 7; i++) {
        CHECK(zone_same(&zones[held[i]]), "%s after call %d, which answers %u", zones[held[i]].name, (int)c->what, number);
    }
    CHECK((number == 0 && c->what == READ_CHAIN) || zone_same(&zones[BUF]), "the buffer after %u", number);
    if (number == 0) {
        check_accepted(&l, j, c, answer);
    } else {
        CHECK(all_are((const uint8_t *)answer, sizeof *answer, 0), "the answer beside %u", number);
        CHECK(number == 11 ? zone_same(&zones[IDS]) : zeros_from(l.ids, 0, l.ids_len), "the ids after %u", number);
    }
    /* what is lent behind the length that the call was told stays too */
    CHECK(memcmp(l.ids + l.ids_len, zones[IDS].before + 4 * l.ids_len, zones[IDS].len - 4 * l.ids_len) == 0,
          "behind the ids");
    CHECK(memcmp(l.fat + l.fat_len, zones[FAT].before + 4 * l.fat_len, zones[FAT].len - 4 * l.fat_len) == 0,
          "behind the fat");
    CHECK(memcmp(l.image + l.image_len, zones[IMAGE].before + l.image_len, zones[IMAGE].len - l.image_len) == 0,
          "behind the image");
    check_edges("a call on a chain");
    met_call[c->what][number]++;
    noted(number);
    noted(answer->ids ^ answer->start << 20 ^ answer->bytes << 40);
    return number;
}

/* A start: a chain's first sector, one inside, END, or none. */
static uint32_t some_start(const lent *l)
{
    size_t n = (size_t)l->state->num_sectors, from, i;
    if (once_in(8) || n == 0 || n > l->fat_len || n > l->marks_len) return once_in(3) ? END : bad_number(n);
    from = below(n);
    if (once_in(8)) return (uint32_t)from;
    for (i = 0; i < n; i++) {
        size_t id = (from + i) % n;
        if (!l->marks[id] && (l->fat[id] <= RASUVELK_MAX_REGULAR_SECTOR || l->fat[id] == END)) return (uint32_t)id;
    }
    return (uint32_t)from;
}

static call some_call(const lent *l)
{
    call c;
    size_t S = sector_len(l->state->version == 4 ? 4 : 3), count = 0;
    uint64_t length;
    uint32_t id;
    c.what = (enum what)below(5);
    c.start = some_start(l);
    /* the chain's length, so that offsets are near it; tables that were tampered with may lead in a circle */
    for (id = c.start; id < l->fat_len && id < l->state->num_sectors && count < l->fat_len; id = l->fat[id]) {
        count++;
    }
    length = (uint64_t)count * S;
    switch (below(5)) {
    case 0: c.offset = length; break;
    case 1: c.offset = bad_long(length); break;
    case 2: c.offset = length + below(3 * S); break;
    default: c.offset = length == 0 ? 0 : next() % length; break;
    }
    c.buf_len = once_in(6) ? 0 : once_in(20) ? below(200 * 512) : below(3 * S);
    if (at_an_edge && once_in(2)) {
        c.what = WRITE_CHAIN;
        c.offset = length;
        c.buf_len = 1 + below(4 * S);
    }
    if (c.what != READ_CHAIN && c.what != WRITE_CHAIN) c.buf_len = 0;
    if (c.what == OPEN_CHAIN || c.what == FREE_CHAIN) c.offset = 0;
    return c;
}

/* Changes one number of what is in hand: a word of the state, an element of a table, a byte of the image. */
static void tamper(const lent *l)
{
    uint64_t *words = (uint64_t *)(void *)l->state;
    size_t n = (size_t)l->state->num_sectors, place;
    uint32_t *tables[4] = {l->fat, l->fats, l->difats, l->frees}, *table;
    size_t lens[4] = {l->fat_len, l->fats_len, l->difats_len, l->frees_len}, which = below(4);
    switch (below(6)) {
    case 0:
        place = once_in(2) ? below(12) : below(121);
        words[place] = bad_long(l->state->used);
        return;
    case 1:
        place = below(12);
        words[place] += (uint64_t)1 << (once_in(2) ? 0 : 32 + below(32));
        return;
    case 2:
    case 3:
        table = tables[which];
        if (lens[which] == 0) return;
        place = once_in(3) ? below(lens[which]) : below(n < lens[which] && n > 0 ? n : lens[which]);
        table[place] = bad_number(n);
        return;
    case 4:
        if (l->marks_len == 0) return;
        place = below(l->marks_len);
        l->marks[place] ^= (uint8_t)(1 + below(3));
        return;
    default:
        if (l->image_len >= 512 && l->state->used >= 512 && l->state->used <= l->image_len) {
            mutate(l->image, (size_t)l->state->used);
        }
    }
}

/* Calls on what is in hand, tampered with at times; what a refused or a tampered call was given is put back. */
static void try_calls(size_t count)
{
    static rasuvelk_state state;
    while (count-- > 0) {
        lent l = all_lent();
        call c;
        if (l.state->free_sectors > 1 && l.state->free_sectors <= l.frees_len && once_in(6)) {
            shuffle(l.frees, (size_t)l.state->free_sectors);
        }
        if (once_in(5)) {
            size_t *lens[] = {&l.fat_len, &l.fats_len, &l.difats_len, &l.frees_len, &l.marks_len, &l.ids_len}, *len;
            if (once_in(2)) {
                len = lens[below(6)];
                *len -= *len > 0 ? below(once_in(2) ? 2 : *len + 1) : 0;
            } else if (l.image_len > 0) {
                l.image_len -= below(once_in(2) ? 2 : l.image_len);
            }
        }
        if (!once_in(6)) {
            c = some_call(&l);
            try_call(l, &c);
            continue;
        }
        /* tampered: what was in hand is kept aside, since zone_keep keeps what the call is given */
        if (zones[IMAGE].len > 300000) continue;
        {
            static uint8_t *aside[MARKS + 1];
            size_t i;
            for (i = IMAGE; i <= MARKS; i++) {
                if (aside[i] == NULL && (aside[i] = malloc(300000)) == NULL) exit(2);
                memcpy(aside[i], zones[i].at, zones[i].len);
            }
            memcpy(&state, l.state, sizeof state);
            do {
                tamper(&l);
            } while (once_in(4));
            c = some_call(&l);
            try_call(l, &c);
            for (i = IMAGE; i <= MARKS; i++) {
                memcpy(zones[i].at, aside[i], zones[i].len);
            }
            memcpy(l.state, &state, sizeof state);
        }
    }
}

/* ------------------------------------------------------------------------------------------------------------- cases */

enum { FILES = 64 };

static struct {
    uint8_t *bytes;
    size_t len;
} files[FILES];
static size_t file_count, small_files;

static void load_file(const char *path)
{
    FILE *in = fopen(path, "rb");
    uint8_t *bytes = malloc(IMAGE_ROOM);
    size_t len;
    if (in == NULL || bytes == NULL || file_count == FILES) {
        printf("fuzz: cannot take %s\n", path);
        exit(2);
    }
    len = fread(bytes, 1, IMAGE_ROOM, in);
    fclose(in);
    if (len < 512) {
        printf("fuzz: %s is no compound file\n", path);
        exit(2);
    }
    files[file_count].bytes = realloc(bytes, len);
    files[file_count].len = len;
    file_count++;
}

/* Small files first: they are taken more often. */
static int by_length(const void *a, const void *b)
{
    size_t one = ((const size_t *)a)[1], other = ((const size_t *)b)[1];
    return (one > other) - (one < other);
}

/* An image, in the lent memory: how many of its bytes are used. */
static size_t some_image(void)
{
    static uint8_t *made;
    const uint8_t *bytes;
    size_t used, spare;
    uint32_t version = once_in(4) ? 4 : 3;
    if (made == NULL && (made = malloc(IMAGE_ROOM)) == NULL) exit(2);
    at_an_edge = once_in(60);
    if (at_an_edge) {
        /* once in a while so many that it needs a DIFAT sector too */
        size_t E = version == 3 ? 128 : 1024, n = version == 4 ? E : once_in(12) ? LISTED * E : E * (1 + below(3));
        used = make_image(made, version, n - below(3), 1);
        bytes = made;
    } else if (once_in(2)) {
        size_t which = once_in(150) ? below(file_count) : below(small_files);
        bytes = files[which].bytes;
        used = files[which].len;
    } else {
        size_t n = some_sectors(version);
        used = make_image(made, version, n, once_in(2));
        bytes = made;
    }
    spare = once_in(3) ? 0 : once_in(3) ? below(600) : once_in(6) ? below(150 * 512) : 512 * below(8);
    if (at_an_edge) spare = sector_len(version) * (4 + below(4));
    if (used + spare > IMAGE_ROOM) spare = IMAGE_ROOM - used;
    lend(IMAGE, used + spare);
    memcpy(zones[IMAGE].at, bytes, used);
    return used;
}

/* Tables of some lengths: mostly enough. */
static void some_tables(void)
{
    size_t R = room_of(zones[IMAGE].len, 512), which = once_in(8) ? FAT + below(IDS - FAT + 1) : ZONES, i;
    if (once_in(2)) R = room_of(zones[IMAGE].len, sector_len(le16(zones[IMAGE].at + 26) == 4 ? 4 : 3));
    for (i = FAT; i <= IDS; i++) {
        size_t len = R + (once_in(2) ? 0 : below(10));
        if (i == which) len = len == 0 ? 0 : once_in(2) ? len - 1 : below(len);
        lend(i, i == MARKS ? len : 4 * len);
    }
    lend(STATE, sizeof(rasuvelk_state));
}

static void one_case(uint64_t number)
{
    static const uint32_t modes[] = {1, 1, 1, 0, 0, 2, UINT32_MAX};
    uint32_t mode;
    size_t used, len;
    random_word = seed * 0x2545f4914f6cdd1du + number * 0x9e3779b97f4a7c15u;
    next();
    used = some_image();
    some_tables();
    mode = modes[below(sizeof modes / sizeof modes[0])];
    if (!at_an_edge && !once_in(3)) {
        do {
            mutate(zones[IMAGE].at, used);
        } while (once_in(3));
    }
    if (once_in(8)) {
        used = once_in(2)   ? used - 512 + 256 * below(5)
               : once_in(2) ? below(zones[IMAGE].len + 600)
                            : (size_t)bad_long(used);
    }
    len = once_in(3) ? below(513) : zones[IMAGE].len;
    try_header(len < zones[IMAGE].len ? len : zones[IMAGE].len, mode);
    try_writing();
    try_items();
    if (try_open(used, mode) == 0) {
        try_calls(1 + below(zones[IMAGE].len > 1000000 ? 4 : 12));
    } else if (once_in(3)) {
        /* the state beside a refusal is none of an image */
        try_calls(1);
    }
}

/* Every number that can be met was met. */
static void check_met(void)
{
    size_t number, what;
    for (number = 0; number <= 18; number++) {
        CHECK(met_open[number] > 0, "no opening was refused by %zu", number);
    }
    CHECK(fat_grown > 0, "no change made a FAT sector");
    CHECK(difat_grown > 0 || cases < 100000, "no change made a DIFAT sector");
    for (what = OPEN_CHAIN; what <= FREE_CHAIN; what++) {
        for (number = 0; number <= 26; number++) {
            int can = number == 0 || number == 11 || (number >= 19 && number <= 22) ||
                      (number == 23 && (what == READ_CHAIN || what == WRITE_CHAIN)) ||
                      (number == 24 && (what == WRITE_CHAIN || what == RESIZE_CHAIN)) ||
                      (number >= 25 && what >= WRITE_CHAIN);
            CHECK((met_call[what][number] > 0) == can, "call %zu was answered by %zu %llu times", what, number,
                  (unsigned long long)met_call[what][number]);
        }
    }
}

int main(int argc, char **argv)
{
    uint64_t count = 0, first = 0;
    double seconds = 0, taken;
    struct timespec start, now;
    size_t i, what;
    char *rest;
    if (argc < 5) {
        puts("fuzz: fuzz COUNT SEED SLIP FILE..");
        return 2;
    }
    if (strcmp(argv[1], "slips") == 0) {
        printf("%d\n", SLIPS - 1);
        return 0;
    }
    if (argv[1][0] == '=') {
        first = strtoull(argv[1] + 1, &rest, 10);
        count = first + 1;
    } else {
        count = strtoull(argv[1], &rest, 10);
        if (*rest == 's') {
            seconds = (double)count;
            count = UINT64_MAX;
            rest++;
        }
    }
    seed = strtoull(argv[2], NULL, 10);
    slip = (unsigned)strtoul(argv[3], NULL, 10);
    if (*rest != '\0' || count == 0 || slip >= SLIPS) {
        puts("fuzz: COUNT is a number of cases, seconds as in 10s, or one case as in =7");
        return 2;
    }
    for (i = 4; i < (size_t)argc; i++) {
        load_file(argv[i]);
    }
    qsort(files, file_count, sizeof files[0], by_length);
    while (small_files < file_count && files[small_files].len < 200000) {
        small_files++;
    }
    if (small_files == 0) small_files = file_count;
    make_zones();
    setvbuf(stdout, NULL, _IOLBF, 0);
    __sanitizer_set_death_callback(where);
    signal(SIGALRM, no_end);
    signal(SIGABRT, aborted);
    clock_gettime(CLOCK_MONOTONIC, &start);
    for (cases = first; cases < count; cases++) {
        if (cases % 64 == 0 || first > 0) {
            alarm(slip == NO_END ? 2 : 60);
            clock_gettime(CLOCK_MONOTONIC, &now);
            taken = (double)(now.tv_sec - start.tv_sec) + (double)(now.tv_nsec - start.tv_nsec) / 1e9;
            if (seconds > 0 && taken >= seconds) break;
        }
        one_case(cases);
    }
    alarm(0);
    clock_gettime(CLOCK_MONOTONIC, &now);
    taken = (double)(now.tv_sec - start.tv_sec) + (double)(now.tv_nsec - start.tv_nsec) / 1e9;
    printf("openings:");
    for (i = 0; i <= 18; i++) {
        printf(" %zu: %llu", i, (unsigned long long)met_open[i]);
    }
    for (what = OPEN_CHAIN; what <= FREE_CHAIN; what++) {
        static const char *const names[] = {"open_chain", "read_chain", "write_chain", "resize_chain", "free_chain"};
        printf("\n%s:", names[what]);
        for (i = 0; i <= 26; i++) {
            if (met_call[what][i] > 0) printf(" %zu: %llu", i, (unsigned long long)met_call[what][i]);
        }
    }
    printf("\n%llu changes accepted; %llu of them made a FAT sector, %llu a DIFAT sector; %llu left an image with one\n",
           (unsigned long long)changes, (unsigned long long)fat_grown, (unsigned long long)difat_grown,
           (unsigned long long)with_difat);
    if (cases - first >= 20000) check_met();
    printf("seed %llu, %zu files: %llu cases, %llu answers in %.1f s, each as documented; digest %016llx\n",
           (unsigned long long)seed, file_count, (unsigned long long)(cases - first), (unsigned long long)calls, taken,
           (unsigned long long)digest);
    return 0;
}
