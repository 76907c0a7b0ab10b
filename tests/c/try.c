/*
 * Calls every function of include/rasuvelk.h on image Q of the specification and on a real file, and compares each
 * answer and each buffer with what it must be. Prints what differs; the exit status is 0 where nothing does.
 *
 *     try FILE        FILE is examples/sample.xls
 */
#include "rasuvelk.h"

#include <stdio.h>
#include <stdlib.h>
#include <string.h>

static unsigned long checks;
static unsigned long wrong;

#define CHECK(condition)                                                       \
    do {                                                                       \
        checks++;                                                              \
        if (!(condition)) {                                                    \
            wrong++;                                                           \
            printf("try.c:%d: not so: %s\n", __LINE__, #condition);            \
        }                                                                      \
    } while (0)

/* That a number is the one that it must be; says both where it is not. */
static void gives(int line, uint32_t number, uint32_t must)
{
    checks++;
    if (number != must) {
        wrong++;
        printf("try.c:%d: gives %u, must give %u\n", line, (unsigned)number, (unsigned)must);
    }
}
#define GIVES(call, must) gives(__LINE__, (call), (must))

#define S 512u
#define END RASUVELK_END_OF_CHAIN
#define FREE RASUVELK_FREE_SECTOR

static void put32(uint8_t *bytes, uint32_t number)
{
    bytes[0] = (uint8_t)number;
    bytes[1] = (uint8_t)(number >> 8);
    bytes[2] = (uint8_t)(number >> 16);
    bytes[3] = (uint8_t)(number >> 24);
}

static uint32_t get32(const uint8_t *bytes)
{
    return bytes[0] | (uint32_t)bytes[1] << 8 | (uint32_t)bytes[2] << 16 | (uint32_t)bytes[3] << 24;
}

/* Whether so many bytes all have one value. */
static int all(const void *memory, size_t len, uint8_t value)
{
    const uint8_t *bytes = (const uint8_t *)memory;
    size_t i;
    for (i = 0; i < len; i++) {
        if (bytes[i] != value) {
            return 0;
        }
    }
    return 1;
}

/* Whether a list is these ids and then zeros. */
static int lists(const uint32_t *list, size_t len, const uint32_t *ids, size_t count)
{
    return count <= len && memcmp(list, ids, 4 * count) == 0 && all(list + count, 4 * (len - count), 0);
}
#define LISTS(lent, list, ...)                                                                         \
    lists((list), (lent)->room, (const uint32_t[]){__VA_ARGS__}, sizeof(uint32_t[]){__VA_ARGS__} / 4)

/* ------------------------------------------------------------------------------------------------------------ image Q */

enum { Q_SECTORS = 6, Q_ROOM = 7, Q_LENT = (Q_ROOM + 1) * 512, Q_USED = (Q_SECTORS + 1) * 512 };

static uint8_t q_bytes[Q_LENT];
static uint32_t q_memory[21 * Q_ROOM / 4 + 1];
static rasuvelk_lent q;

/* Version 3, six sectors: FAT, 2, 3, END, FREE, FREE, and room for a seventh. Sector i is full of 0xa0 + i. */
static void make_q(void)
{
    static const uint32_t entries[Q_SECTORS] = {RASUVELK_FAT_SECTOR, 2, 3, END, FREE, FREE};
    rasuvelk_header header;
    size_t i;
    memset(&header, 0, sizeof header);
    header.version = 3;
    header.num_fat_sectors = 1;
    header.first_dir_sector = 1;
    header.first_minifat_sector = END;
    header.first_difat_sector = END;
    for (i = 0; i < 109; i++) {
        header.initial_difat_entries[i] = i == 0 ? 0 : FREE;
    }
    memset(q_bytes, 0xee, sizeof q_bytes);
    GIVES(rasuvelk_write_header(&header, q_bytes, sizeof q_bytes), 0);
    CHECK(all(q_bytes + 512, sizeof q_bytes - 512, 0xee));
    memset(q_bytes + S, 0xff, S);
    for (i = 0; i < Q_SECTORS; i++) {
        put32(q_bytes + S + 4 * i, entries[i]);
        if (i > 0) {
            memset(q_bytes + (i + 1) * S, (int)(0xa0 + i), S);
        }
    }
}

/* Image Q, opened strictly into memory that held something else. */
static void open_q(void)
{
    make_q();
    memset(q_memory, 0x77, sizeof q_memory);
    CHECK(rasuvelk_memory(sizeof q_bytes) == 21 * Q_ROOM);
    GIVES(rasuvelk_lend(&q, q_bytes, sizeof q_bytes, q_memory, sizeof q_memory), 0);
    CHECK(q.room == Q_ROOM);
    GIVES(rasuvelk_lent_open(&q, Q_USED, RASUVELK_STRICT), 0);
}

/* What is in hand, to be compared with later. */
typedef struct copy {
    uint8_t bytes[Q_LENT];
    uint32_t tables[4 * Q_ROOM];
    uint8_t marks[Q_ROOM];
    rasuvelk_state state;
} copy;

static copy kept(void)
{
    copy now;
    memset(&now, 0, sizeof now);
    memcpy(now.bytes, q.image, sizeof now.bytes);
    memcpy(now.tables, q.fat, sizeof now.tables);
    memcpy(now.marks, q.marks, sizeof now.marks);
    now.state = q.state;
    return now;
}

/* That a refused change left all as it was, the answer and the list of ids zero. */
static void left(int line, const copy *before, const rasuvelk_answer *answer)
{
    copy now = kept();
    checks++;
    if (memcmp(&now, before, sizeof now) != 0 || !all(q.ids, 4 * q.room, 0) || !all(answer, sizeof *answer, 0)) {
        wrong++;
        printf("try.c:%d: a refused change left something else\n", line);
    }
}
#define REFUSED(call, must)                \
    do {                                   \
        copy before = kept();              \
        memset(&answer, 0x33, sizeof answer); \
        GIVES((call), (must));             \
        left(__LINE__, &before, &answer);  \
    } while (0)

/* That a fresh strict opening of the used bytes gives the state and the tables in hand, the free list but for its order. */
static void opens_the_same(int line, const rasuvelk_lent *lent)
{
    void *memory = malloc(rasuvelk_memory(lent->image_len));
    rasuvelk_lent again;
    size_t i, j, found = 0;
    int same;
    if (memory == NULL) {
        puts("try.c: no memory");
        exit(2);
    }
    GIVES(rasuvelk_lend(&again, lent->image, lent->image_len, memory, rasuvelk_memory(lent->image_len)), 0);
    GIVES(rasuvelk_lent_open(&again, (size_t)lent->state.used, RASUVELK_STRICT), 0);
    same = memcmp(&again.state, &lent->state, sizeof again.state) == 0 &&
           memcmp(again.fat, lent->fat, 4 * lent->room) == 0 && memcmp(again.fats, lent->fats, 4 * lent->room) == 0 &&
           memcmp(again.difats, lent->difats, 4 * lent->room) == 0 && memcmp(again.marks, lent->marks, lent->room) == 0;
    for (i = 0; i < again.state.free_sectors; i++) {
        for (j = 0; j < lent->state.free_sectors; j++) {
            found += again.frees[i] == lent->frees[j];
        }
    }
    checks++;
    if (!same || found != again.state.free_sectors) {
        wrong++;
        printf("try.c:%d: a fresh opening gives something else\n", line);
    }
    free(memory);
}
#define OPENS_THE_SAME(lent) opens_the_same(__LINE__, (lent))

static void opening_of_q(void)
{
    open_q();
    CHECK(q.state.mode == 1 && q.state.used == Q_USED && q.state.num_sectors == 6 && q.state.free_sectors == 2);
    CHECK(q.state.version == 3 && q.state.num_fat_sectors == 1 && q.state.first_dir_sector == 1);
    CHECK(q.state.initial_difat_entries[0] == 0 && q.state.initial_difat_entries[108] == FREE);
    CHECK(LISTS(&q, q.fat, RASUVELK_FAT_SECTOR, 2, 3, END, FREE, FREE));
    CHECK(all(q.fats, 4 * q.room, 0) && all(q.difats, 4 * q.room, 0));
    CHECK(LISTS(&q, q.frees, 4, 5));
    CHECK(memcmp(q.marks, "\0\0\1\1\0\0\0", 7) == 0);
}

static void chains_of_q(void)
{
    rasuvelk_answer answer;
    uint8_t buf[2000];
    open_q();
    GIVES(rasuvelk_lent_chain(&q, 1, &answer), 0);
    CHECK(answer.ids == 3 && answer.start == 1 && answer.bytes == 0 && LISTS(&q, q.ids, 1, 2, 3));
    GIVES(rasuvelk_lent_chain(&q, 2, &answer), 0);
    CHECK(answer.ids == 2 && answer.start == 2 && LISTS(&q, q.ids, 2, 3));
    GIVES(rasuvelk_lent_chain(&q, END, &answer), 0);
    CHECK(answer.ids == 0 && answer.start == END && all(q.ids, 4 * q.room, 0));
    REFUSED(rasuvelk_lent_chain(&q, 4, &answer), RASUVELK_REFUSED_BROKEN_CHAIN);
    REFUSED(rasuvelk_lent_chain(&q, 0, &answer), RASUVELK_REFUSED_BROKEN_CHAIN);
    REFUSED(rasuvelk_lent_chain(&q, 6, &answer), RASUVELK_REFUSED_BAD_START);
    REFUSED(rasuvelk_lent_chain(&q, FREE, &answer), RASUVELK_REFUSED_BAD_START);

    memset(buf, 0x55, sizeof buf);
    GIVES(rasuvelk_lent_read(&q, 1, 0, buf, sizeof buf, &answer), 0);
    CHECK(answer.ids == 3 && answer.start == 1 && answer.bytes == 1536);
    CHECK(all(buf, 512, 0xa1) && all(buf + 512, 512, 0xa2) && all(buf + 1024, 512, 0xa3) && all(buf + 1536, 464, 0x55));
    memset(buf, 0x55, sizeof buf);
    GIVES(rasuvelk_lent_read(&q, 1, 500, buf, 20, &answer), 0);
    CHECK(answer.bytes == 20 && all(buf, 12, 0xa1) && all(buf + 12, 8, 0xa2) && all(buf + 20, 1980, 0x55));
    GIVES(rasuvelk_lent_read(&q, 1, 1536, buf, 20, &answer), 0);
    CHECK(answer.bytes == 0 && answer.ids == 3);
    memset(buf, 0x55, sizeof buf);
    REFUSED(rasuvelk_lent_read(&q, 1, 1537, buf, 20, &answer), RASUVELK_REFUSED_OFFSET);
    REFUSED(rasuvelk_lent_read(&q, END, UINT64_MAX, buf, 20, &answer), RASUVELK_REFUSED_OFFSET);
    CHECK(all(buf, sizeof buf, 0x55));
}

static void changes_of_q(void)
{
    rasuvelk_answer answer;
    uint8_t buf[2560];

    open_q();
    memset(buf, 9, 600);
    GIVES(rasuvelk_lent_write(&q, 1, 1536, buf, 600, &answer), 0);
    CHECK(answer.ids == 5 && answer.start == 1 && answer.bytes == 600 && LISTS(&q, q.ids, 1, 2, 3, 5, 4));
    GIVES(rasuvelk_lent_read(&q, 1, 0, buf, sizeof buf, &answer), 0);
    CHECK(answer.bytes == 2560 && all(buf + 1024, 512, 0xa3) && all(buf + 1536, 600, 9) && all(buf + 2136, 424, 0));
    CHECK(q.state.free_sectors == 0 && all(q.frees, 4 * q.room, 0));
    CHECK(all(q_bytes + Q_USED, Q_LENT - Q_USED, 0xee));
    OPENS_THE_SAME(&q);

    open_q();
    REFUSED(rasuvelk_lent_write(&q, 1, 1537, buf, 1, &answer), RASUVELK_REFUSED_OFFSET);
    REFUSED(rasuvelk_lent_write(&q, 2, 0, buf, 1, &answer), RASUVELK_REFUSED_MID_CHAIN);
    REFUSED(rasuvelk_lent_write(&q, 2, 0, buf, 0, &answer), RASUVELK_REFUSED_MID_CHAIN);
    REFUSED(rasuvelk_lent_resize(&q, 4, 0, &answer), RASUVELK_REFUSED_BROKEN_CHAIN);
    REFUSED(rasuvelk_lent_resize(&q, 6, 0, &answer), RASUVELK_REFUSED_BAD_START);
    REFUSED(rasuvelk_lent_resize(&q, 1, 3584, &answer), RASUVELK_REFUSED_NO_ROOM);
    REFUSED(rasuvelk_lent_resize(&q, 1, UINT64_MAX, &answer), RASUVELK_REFUSED_NO_ROOM);
    REFUSED(rasuvelk_lent_free(&q, 3, &answer), RASUVELK_REFUSED_MID_CHAIN);
    {
        copy before = kept(), after;
        GIVES(rasuvelk_lent_write(&q, 1, 1536, buf, 0, &answer), 0);
        CHECK(answer.ids == 3 && answer.start == 1 && answer.bytes == 0);
        GIVES(rasuvelk_lent_resize(&q, 1, 1536, &answer), 0);
        GIVES(rasuvelk_lent_free(&q, END, &answer), 0);
        after = kept();
        CHECK(memcmp(&before, &after, sizeof after) == 0);
    }

    GIVES(rasuvelk_lent_resize(&q, 1, 1300, &answer), 0);
    GIVES(rasuvelk_lent_read(&q, 1, 1024, buf, 512, &answer), 0);
    CHECK(all(buf, 276, 0xa3) && all(buf + 276, 236, 0));
    GIVES(rasuvelk_lent_resize(&q, 1, 513, &answer), 0);
    CHECK(answer.ids == 2 && answer.start == 1 && LISTS(&q, q.ids, 1, 2) && LISTS(&q, q.frees, 4, 5, 3));
    GIVES(rasuvelk_lent_read(&q, 1, 512, buf, 512, &answer), 0);
    CHECK(buf[0] == 0xa2 && all(buf + 1, 511, 0));
    OPENS_THE_SAME(&q);
    GIVES(rasuvelk_lent_resize(&q, 1, 3072, &answer), 0);
    CHECK(answer.ids == 6 && LISTS(&q, q.ids, 1, 2, 3, 5, 4, 6) && q.state.num_sectors == 7);
    CHECK(q.state.used == Q_LENT);
    OPENS_THE_SAME(&q);
    GIVES(rasuvelk_lent_free(&q, 1, &answer), 0);
    CHECK(answer.ids == 0 && answer.start == END && LISTS(&q, q.frees, 1, 2, 3, 5, 4, 6));
    OPENS_THE_SAME(&q);
}

/* 11 at each of the five calls, with one of the tables (the last is the list of ids) an element short. */
static void short_for_calls(size_t which)
{
    copy before = kept(), after;
    rasuvelk_answer answer;
    uint8_t buf[10];
    size_t lens[6], call;
    for (call = 0; call < 6; call++) {
        lens[call] = Q_ROOM - (call == which);
    }
#define LENT_SHORT                                                                                                 \
    &q.state, q.image, q.image_len, q.fat, lens[0], q.fats, lens[1], q.difats, lens[2], q.frees, lens[3], q.marks, \
        lens[4], q.ids, lens[5]
    for (call = 0; call < 5; call++) {
        uint32_t number = 0;
        memset(q.ids, 0x66, 4 * q.room);
        memset(&answer, 0x33, sizeof answer);
        memset(buf, 0x55, sizeof buf);
        switch (call) {
        case 0: number = rasuvelk_open_chain(LENT_SHORT, 1, &answer); break;
        case 1: number = rasuvelk_read_chain(LENT_SHORT, 1, 0, buf, sizeof buf, &answer); break;
        case 2: number = rasuvelk_write_chain(LENT_SHORT, 1, 0, buf, sizeof buf, &answer); break;
        case 3: number = rasuvelk_resize_chain(LENT_SHORT, 1, 0, &answer); break;
        default: number = rasuvelk_free_chain(LENT_SHORT, 1, &answer); break;
        }
        GIVES(number, RASUVELK_REFUSED_SHORT_TABLE);
        after = kept();
        CHECK(all(q.ids, 4 * q.room, 0x66) && all(&answer, sizeof answer, 0) && all(buf, sizeof buf, 0x55));
        CHECK(memcmp(&before, &after, sizeof after) == 0);
    }
#undef LENT_SHORT
}

/* 11 and 19: tables of another length, a state and tables that no opening gave. */
static void lent_wrongly(void)
{
    rasuvelk_answer answer;
    rasuvelk_state state;
    uint32_t tables[5][Q_ROOM];
    uint8_t marks[Q_ROOM];
    size_t lens[5], which;
    make_q();
    for (which = 0; which < 5; which++) {
        size_t i;
        for (i = 0; i < 5; i++) {
            lens[i] = Q_ROOM - (i == which);
        }
        memset(tables, 0x66, sizeof tables);
        memset(marks, 0x66, sizeof marks);
        GIVES(rasuvelk_open(q_bytes, Q_LENT, Q_USED, 1, tables[0], lens[0], tables[1], lens[1], tables[2], lens[2],
                            tables[3], lens[3], marks, lens[4], &state),
              RASUVELK_REFUSED_SHORT_TABLE);
        CHECK(all(tables, sizeof tables, 0x66) && all(marks, sizeof marks, 0x66));
        CHECK(state.mode == 1 && state.version == 3 && state.used == 0 && all(state.initial_difat_entries, 872, 0));
    }
    open_q();
    for (which = 0; which < 6; which++) {
        short_for_calls(which);
    }
    q.state.num_sectors++;
    REFUSED(rasuvelk_lent_chain(&q, 1, &answer), RASUVELK_REFUSED_DISAGREES);
    open_q();
    q.marks[1] = 1;
    REFUSED(rasuvelk_lent_free(&q, 1, &answer), RASUVELK_REFUSED_DISAGREES);
    open_q();
    q.image[0]++;
    REFUSED(rasuvelk_lent_write(&q, 1, 0, marks, sizeof marks, &answer), RASUVELK_REFUSED_DISAGREES);
    open_q();
    memset(&q.state, 0xff, sizeof q.state);
    REFUSED(rasuvelk_lent_resize(&q, 1, 0, &answer), RASUVELK_REFUSED_DISAGREES);
    open_q();
    q.frees[0] = 5;
    q.frees[1] = 4;
    GIVES(rasuvelk_lent_resize(&q, 1, 2048, &answer), 0);
    CHECK(LISTS(&q, q.ids, 1, 2, 3, 4));
    CHECK(rasuvelk_lend(&q, q_bytes, sizeof q_bytes, q_memory, 21 * Q_ROOM - 1) == RASUVELK_REFUSED_SHORT_TABLE);
    CHECK(rasuvelk_lend(&q, q_bytes, sizeof q_bytes, NULL, 21 * Q_ROOM) == RASUVELK_REFUSED_SHORT_TABLE);
}

/* Version 4: a header alone, and a chain that is begun, with room for the FAT, two sectors and no more. */
static void version_4(void)
{
    enum { LONG = 4096 };
    static uint8_t bytes[4 * LONG], buf[LONG + 1];
    static uint32_t memory[21 * 31 / 4 + 1];
    rasuvelk_header header;
    rasuvelk_lent lent;
    rasuvelk_answer answer;
    memset(&header, 0xff, sizeof header);
    header.version = 4;
    header.num_dir_sectors = header.num_fat_sectors = header.num_minifat_sectors = header.num_difat_sectors = 0;
    header.first_dir_sector = header.first_minifat_sector = header.first_difat_sector = END;
    GIVES(rasuvelk_write_header(&header, bytes, sizeof bytes), 0);
    GIVES(rasuvelk_lend(&lent, bytes, sizeof bytes, memory, sizeof memory), 0);
    GIVES(rasuvelk_lent_open(&lent, 512, RASUVELK_STRICT), RASUVELK_REFUSED_WHOLE_SECTORS);
    GIVES(rasuvelk_lent_open(&lent, LONG, RASUVELK_STRICT), 0);
    CHECK(lent.state.version == 4 && lent.state.num_sectors == 0);
    memset(buf, 6, sizeof buf);
    GIVES(rasuvelk_lent_resize(&lent, END, 2 * LONG + 1, &answer), RASUVELK_REFUSED_NO_ROOM);
    GIVES(rasuvelk_lent_write(&lent, END, 0, buf, sizeof buf, &answer), 0);
    CHECK(answer.ids == 2 && answer.start == 1 && answer.bytes == LONG + 1 && LISTS(&lent, lent.ids, 1, 2));
    CHECK(lent.state.used == sizeof bytes && lent.state.num_fat_sectors == 1 && get32(bytes + 44) == 1);
    CHECK(get32(bytes + 76) == 0 && lent.fat[0] == RASUVELK_FAT_SECTOR && get32(bytes + LONG) == RASUVELK_FAT_SECTOR);
    CHECK(all(bytes + 2 * LONG, LONG + 1, 6) && all(bytes + 3 * LONG + 1, LONG - 1, 0));
    OPENS_THE_SAME(&lent);
}

/* Modes, and a loop. */
static void modes(void)
{
    rasuvelk_answer answer;
    open_q();
    put32(q_bytes + S + 12, RASUVELK_MAX_REGULAR_SECTOR);
    memset(q.fat, 0x66, 4 * q.room);
    GIVES(rasuvelk_lent_open(&q, Q_USED, RASUVELK_STRICT), RASUVELK_REFUSED_PAST_END);
    CHECK(all(q.fat, 16 * q.room, 0) && all(q.marks, q.room, 0));
    GIVES(rasuvelk_lent_open(&q, Q_USED, RASUVELK_PERMISSIVE), 0);
    CHECK(q.state.mode == 0 && q.fat[3] == END && get32(q_bytes + S + 12) == RASUVELK_MAX_REGULAR_SECTOR);
    GIVES(rasuvelk_lent_chain(&q, 1, &answer), 0);
    CHECK(answer.ids == 3);
    REFUSED(rasuvelk_lent_free(&q, 1, &answer), RASUVELK_REFUSED_PERMISSIVE_CHANGE);
    REFUSED(rasuvelk_lent_free(&q, 6, &answer), RASUVELK_REFUSED_PERMISSIVE_CHANGE);
    put32(q_bytes + S + 12, RASUVELK_INVALID_SECTOR);
    GIVES(rasuvelk_lent_open(&q, Q_USED, RASUVELK_PERMISSIVE), RASUVELK_REFUSED_INVALID_ENTRY);
    put32(q_bytes + S + 12, 4);
    GIVES(rasuvelk_lent_open(&q, Q_USED, RASUVELK_STRICT), RASUVELK_REFUSED_FREE_POINTEE);
    put32(q_bytes + S + 12, 2);
    GIVES(rasuvelk_lent_open(&q, Q_USED, RASUVELK_STRICT), RASUVELK_REFUSED_POINTED_TWICE);
    put32(q_bytes + S + 12, 1);
    GIVES(rasuvelk_lent_open(&q, Q_USED, RASUVELK_STRICT), 0);
    REFUSED(rasuvelk_lent_chain(&q, 2, &answer), RASUVELK_REFUSED_LOOP);
    put32(q_bytes + S, END);
    GIVES(rasuvelk_lent_open(&q, Q_USED, RASUVELK_STRICT), RASUVELK_REFUSED_UNMARKED);
    open_q();
    put32(q_bytes + S + 24, END);
    GIVES(rasuvelk_lent_open(&q, Q_USED, RASUVELK_PERMISSIVE), RASUVELK_REFUSED_FAT_TAIL);
    GIVES(rasuvelk_lent_open(&q, Q_LENT, RASUVELK_STRICT), 0);
    GIVES(rasuvelk_lent_open(&q, Q_LENT + 1, RASUVELK_STRICT), RASUVELK_REFUSED_TOO_SHORT);
    GIVES(rasuvelk_lent_open(&q, Q_USED - 1, RASUVELK_STRICT), RASUVELK_REFUSED_WHOLE_SECTORS);
    put32(q_bytes + 44, 2);
    GIVES(rasuvelk_lent_open(&q, Q_LENT, RASUVELK_STRICT), RASUVELK_REFUSED_FAT_LISTS);
}

/* Refusals of the header, each at its field; and the three small functions. */
static void headers_and_items(void)
{
    static const struct {
        size_t at;
        uint8_t value;
        uint32_t number;
    } fields[] = {{0, 0, 2}, {28, 0, 3}, {26, 5, 4}, {30, 12, 5}, {32, 7, 6}, {40, 1, 7}, {57, 0, 8}, {84, 0, 9}};
    static const uint32_t fat[] = {RASUVELK_FAT_SECTOR, 2, 3, END, FREE, FREE};
    static const char *const texts[] = {"FAT", "2..=3", "EOC", "2 FREE"};
    static const uint32_t kinds[] = {RASUVELK_ITEM_FAT, RASUVELK_ITEM_RANGE, RASUVELK_ITEM_END, RASUVELK_ITEM_FREE};
    rasuvelk_header header, again;
    rasuvelk_item item;
    rasuvelk_text text;
    uint8_t bytes[512];
    size_t i, at = 0;
    make_q();
    GIVES(rasuvelk_read_header(q_bytes, 511, 1, &header), 1);
    for (i = 0; i < sizeof fields / sizeof fields[0]; i++) {
        memcpy(bytes, q_bytes, 512);
        bytes[fields[i].at] = fields[i].value;
        GIVES(rasuvelk_read_header(bytes, 512, RASUVELK_STRICT, &header), fields[i].number);
        CHECK(header.version == 3 && all((uint8_t *)&header + 4, sizeof header - 4, 0));
        GIVES(rasuvelk_read_header(bytes, 512, RASUVELK_PERMISSIVE, &header), i == 5 ? 0 : fields[i].number);
    }
    GIVES(rasuvelk_read_header(q_bytes, 512, 7, &header), 0);
    CHECK(header.version == 3 && header.num_fat_sectors == 1 && header.first_dir_sector == 1);
    memset(bytes, 0x44, sizeof bytes);
    GIVES(rasuvelk_write_header(&header, bytes, 511), RASUVELK_REFUSED_TOO_SHORT);
    header.num_dir_sectors = 1;
    GIVES(rasuvelk_write_header(&header, bytes, 512), RASUVELK_REFUSED_DIR_SECTORS);
    header.num_dir_sectors = 0;
    header.first_difat_sector = FREE;
    GIVES(rasuvelk_write_header(&header, bytes, 512), RASUVELK_REFUSED_HEADER_LIST);
    header.first_difat_sector = END;
    header.version = 5;
    GIVES(rasuvelk_write_header(&header, bytes, 1), RASUVELK_REFUSED_VERSION);
    header.version = 3;
    CHECK(all(bytes, sizeof bytes, 0x44));
    GIVES(rasuvelk_write_header(&header, bytes, 512), 0);
    CHECK(memcmp(bytes, q_bytes, 512) == 0);
    GIVES(rasuvelk_read_header(bytes, 512, RASUVELK_STRICT, &again), 0);
    CHECK(memcmp(&again, &header, sizeof again) == 0);

    for (i = 0; i < 4; i++) {
        GIVES(rasuvelk_prettify(fat, 6, at, &item), kinds[i]);
        CHECK(rasuvelk_sector_text(kinds[i], item.a, item.b, &text) == strlen(texts[i]));
        CHECK(strcmp((const char *)text.bytes, texts[i]) == 0);
        at = (size_t)item.next;
    }
    CHECK(at == 6);
    GIVES(rasuvelk_prettify(fat, 6, 6, &item), RASUVELK_ITEM_NONE);
    CHECK(all(&item, sizeof item, 0));
    CHECK(rasuvelk_sector_text(6, 1, 1, &text) == 0 && all(&text, sizeof text, 0));
    GIVES(rasuvelk_kind_of(RASUVELK_MAX_REGULAR_SECTOR), RASUVELK_KIND_REGULAR);
    GIVES(rasuvelk_kind_of(RASUVELK_INVALID_SECTOR), RASUVELK_KIND_INVALID);
    GIVES(rasuvelk_kind_of(RASUVELK_DIFAT_SECTOR), RASUVELK_KIND_DIFAT);
    GIVES(rasuvelk_kind_of(RASUVELK_FAT_SECTOR), RASUVELK_KIND_FAT);
    GIVES(rasuvelk_kind_of(END), RASUVELK_KIND_END);
    GIVES(rasuvelk_kind_of(FREE), RASUVELK_KIND_FREE);
}

/* --------------------------------------------------------------------------------------------------------- a real file */

enum { FILE_USED = 5632, FILE_LENT = FILE_USED + 3 * 512 };

static uint8_t file_bytes[FILE_LENT];

static void read_file(const char *path)
{
    FILE *file = fopen(path, "rb");
    size_t got;
    if (file == NULL) {
        printf("try.c: cannot open %s\n", path);
        exit(2);
    }
    memset(file_bytes, 0, sizeof file_bytes);
    got = fread(file_bytes, 1, sizeof file_bytes, file);
    fclose(file);
    CHECK(got == FILE_USED);
}

/* Opens, lists, reads, overwrites, grows, cuts and frees: after each change a fresh opening gives the same. */
static void real_file(const char *path)
{
    static uint8_t before[4096], after[4096 + 512], directory[512], now[512];
    static uint32_t memory[21 * 13 / 4 + 1];
    rasuvelk_lent lent;
    rasuvelk_answer answer;
    read_file(path);
    GIVES(rasuvelk_lend(&lent, file_bytes, sizeof file_bytes, memory, sizeof memory), 0);
    GIVES(rasuvelk_lent_open(&lent, FILE_USED, RASUVELK_STRICT), 0);
    CHECK(lent.state.num_sectors == 10 && lent.state.free_sectors == 0 && lent.state.first_dir_sector == 9);
    GIVES(rasuvelk_lent_chain(&lent, 0, &answer), 0);
    CHECK(answer.ids == 8 && LISTS(&lent, lent.ids, 0, 1, 2, 3, 4, 5, 6, 7));
    GIVES(rasuvelk_lent_read(&lent, 0, 0, before, sizeof before, &answer), 0);
    CHECK(answer.bytes == 4096 && memcmp(before, file_bytes + 512, 4096) == 0);
    GIVES(rasuvelk_lent_read(&lent, (uint32_t)lent.state.first_dir_sector, 0, directory, sizeof directory, &answer), 0);
    CHECK(answer.bytes == 512 && memcmp(directory, "R\0o\0o\0t\0 \0E\0n\0t\0r\0y\0", 20) == 0);

    GIVES(rasuvelk_lent_write(&lent, 0, 4000, (const uint8_t *)"in place", 8, &answer), 0);
    CHECK(answer.ids == 8 && answer.bytes == 8 && lent.state.used == FILE_USED);
    OPENS_THE_SAME(&lent);
    GIVES(rasuvelk_lent_write(&lent, 0, 4096, (const uint8_t *)"by growth", 9, &answer), 0);
    CHECK(answer.ids == 9 && LISTS(&lent, lent.ids, 0, 1, 2, 3, 4, 5, 6, 7, 10) && lent.state.used == FILE_USED + 512);
    OPENS_THE_SAME(&lent);
    GIVES(rasuvelk_lent_read(&lent, 0, 0, after, sizeof after, &answer), 0);
    CHECK(answer.bytes == 4608 && memcmp(after, before, 4000) == 0 && memcmp(after + 4000, "in place", 8) == 0);
    CHECK(memcmp(after + 4008, before + 4008, 88) == 0 && memcmp(after + 4096, "by growth", 9) == 0);
    CHECK(all(after + 4105, 503, 0));
    GIVES(rasuvelk_lent_read(&lent, 9, 0, now, sizeof now, &answer), 0);
    CHECK(memcmp(now, directory, 512) == 0);

    GIVES(rasuvelk_lent_resize(&lent, 0, 512 * 12, &answer), RASUVELK_REFUSED_NO_ROOM);
    GIVES(rasuvelk_lent_resize(&lent, 0, 4096, &answer), 0);
    CHECK(answer.ids == 8 && LISTS(&lent, lent.frees, 10));
    OPENS_THE_SAME(&lent);
    GIVES(rasuvelk_lent_free(&lent, 0, &answer), 0);
    CHECK(answer.start == END && lent.state.free_sectors == 9 && LISTS(&lent, lent.frees, 10, 0, 1, 2, 3, 4, 5, 6, 7));
    OPENS_THE_SAME(&lent);
    GIVES(rasuvelk_lent_read(&lent, 9, 0, now, sizeof now, &answer), 0);
    CHECK(memcmp(now, directory, 512) == 0);
}

/* Every byte of the file's header and FAT changed to some values: an opening answers, and leaves what it says. */
static void damaged_file(const char *path)
{
    static const uint8_t values[] = {0, 1, 0x80, 0xfb, 0xff};
    static uint32_t memory[21 * 13 / 4 + 1];
    unsigned long numbers[19] = {0};
    rasuvelk_lent lent;
    size_t at, i;
    read_file(path);
    GIVES(rasuvelk_lend(&lent, file_bytes, sizeof file_bytes, memory, sizeof memory), 0);
    for (at = 0; at < 1024; at++) {
        uint8_t *byte = file_bytes + (at < 512 ? at : 9 * 512 + at - 512);
        uint8_t old = *byte;
        for (i = 0; i < sizeof values; i++) {
            uint32_t number;
            *byte = values[i];
            memset(memory, 0x66, sizeof memory);
            number = rasuvelk_lent_open(&lent, FILE_USED, RASUVELK_STRICT);
            CHECK(number <= 18 && number != 11);
            CHECK(number == 0 || all(lent.fat, 16 * lent.room, number < 12 ? 0x66 : 0));
            CHECK(*byte == values[i]);
            numbers[number <= 18 ? number : 11]++;
        }
        *byte = old;
    }
    for (i = 0; i < 19; i++) {
        /* 1, 10 and 11 are about lengths; all others are met. */
        CHECK((numbers[i] > 0) == (i != 1 && i != 10 && i != 11));
    }
}

int main(int argc, char **argv)
{
    if (argc != 2) {
        puts("try.c: say which file: try examples/sample.xls");
        return 2;
    }
    opening_of_q();
    chains_of_q();
    changes_of_q();
    lent_wrongly();
    version_4();
    modes();
    headers_and_items();
    real_file(argv[1]);
    damaged_file(argv[1]);
    printf("%lu checks, %lu wrong\n", checks, wrong);
    return wrong == 0 ? 0 : 1;
}
