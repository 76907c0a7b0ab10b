/*
 * What the calls are fed: real files and images that are made here, whole or with a few of their numbers changed.
 */
#ifndef FOOD_H
#define FOOD_H

#include "judge.h"

/* ---------------------------------------------------------------------------------------------------- numbers at random */

static uint64_t random_word;

static uint64_t next(void)
{
    uint64_t z = random_word += 0x9e3779b97f4a7c15u;
    z = (z ^ z >> 30) * 0xbf58476d1ce4e5b9u;
    z = (z ^ z >> 27) * 0x94d049bb133111ebu;
    return z ^ z >> 31;
}

/* Below `most`, which is not 0. */
static size_t below(size_t most)
{
    return (size_t)(next() % most);
}

static int once_in(size_t odds)
{
    return below(odds) == 0;
}

/* A number that somebody may have put where it hurts: an id around n, a kind, a power of two, or any. */
static uint32_t bad_number(size_t n)
{
    static const uint32_t kinds[] = {0, 1, 2, 0x7fffffff, 0x80000000, 0xfffffff9, RASUVELK_MAX_REGULAR_SECTOR,
                                     RASUVELK_INVALID_SECTOR, RASUVELK_DIFAT_SECTOR, RASUVELK_FAT_SECTOR, END, FREE};
    switch (below(4)) {
    case 0: return kinds[below(sizeof kinds / sizeof kinds[0])];
    case 1: return (uint32_t)(n - 2 + below(5));
    case 2: return (uint32_t)below(n < MOST ? n + 1 : MOST);
    default: return once_in(2) ? (uint32_t)1 << below(32) : (uint32_t)next();
    }
}

static uint64_t bad_long(uint64_t near)
{
    static const uint64_t edges[] = {0, 1, 511, 512, 513, 4095, 4096, 4097, 1u << 31, UINT32_MAX, (uint64_t)1 << 32,
                                     (uint64_t)1 << 63, UINT64_MAX - 4095, UINT64_MAX - 511, UINT64_MAX};
    uint64_t any = next();
    switch (below(4)) {
    case 0: return edges[below(sizeof edges / sizeof edges[0])];
    case 1: return near - 2 + below(5);
    case 2: return any >> below(64);
    default: return near == 0 ? 0 : next() % near;
    }
}

/* ---------------------------------------------------------------------------------------------------------- made images */

static void shuffle(uint32_t *list, size_t count)
{
    size_t i;
    for (i = count; i > 1; i--) {
        size_t other = below(i);
        uint32_t id = list[other];
        list[other] = list[i - 1];
        list[i - 1] = id;
    }
}

/* How many sectors: few, around a FAT sector's entries, or so many that a DIFAT sector is needed. */
static size_t some_sectors(uint32_t version)
{
    size_t E = version == 3 ? 128 : 1024;
    switch (below(version == 3 ? 200 : 20)) {
    case 0: return E - 3 + below(8);
    case 1: return 2 * E - 3 + below(8);
    case 2:
        if (version == 4 || !once_in(3)) return below(20);
        return once_in(3) ? MOST - below(3) : LISTED * E - 4 + below(10);
    case 3:
    case 4:
    case 5:
    case 6: return below(300);
    case 7: return below(2);
    default: return below(20);
    }
}

/*
 * Makes an image of n sectors that opens strictly, in `image`; gives its bytes. In a full one no sector is FREE, so that
 * what grows has to add some.
 */
static size_t make_image(uint8_t *image, uint32_t version, size_t n, int full)
{
    static uint32_t ids[MOST], fat[MOST + 1024];
    size_t S = sector_len(version), E = S / 4, k = (n + E - 1) / E, i, at;
    size_t d = k <= LISTED ? 0 : (k - LISTED + E - 2) / (E - 1);
    rasuvelk_header h;
    for (i = 0; i < n; i++) {
        ids[i] = (uint32_t)i;
    }
    if (once_in(2)) {
        shuffle(ids, n);
    }
    memset(image, 0, S);
    for (i = 0; i < n; i++) {
        memset(image + (i + 1) * S, (int)(next() & 0xff), S);
    }
    for (i = 0; i < k * E; i++) {
        fat[i] = FREE;
    }
    memset(&h, 0, sizeof h);
    h.version = version;
    h.num_dir_sectors = version == 3 ? 0 : (uint32_t)below(9);
    h.num_fat_sectors = (uint32_t)k;
    h.first_dir_sector = (uint32_t)below(n + 1);
    h.first_minifat_sector = once_in(2) ? END : (uint32_t)below(n + 1);
    h.first_difat_sector = d > 0 ? ids[k] : END;
    h.num_difat_sectors = (uint32_t)d;
    for (i = 0; i < LISTED; i++) {
        h.initial_difat_entries[i] = i < k ? ids[i] : FREE;
    }
    written_header(&h, image);
    for (i = 0; i < d; i++) {
        uint8_t *sector = image + (ids[k + i] + 1) * S;
        for (at = 0; at + 1 < E; at++) {
            size_t place = LISTED + i * (E - 1) + at;
            put32(sector + 4 * at, place < k ? ids[place] : FREE);
        }
        put32(sector + 4 * at, i + 1 < d ? ids[k + i + 1] : END);
        fat[ids[k + i]] = RASUVELK_DIFAT_SECTOR;
    }
    for (i = 0; i < k; i++) {
        fat[ids[i]] = RASUVELK_FAT_SECTOR;
    }
    for (at = k + d; at < n;) {
        size_t left = n - at, run = 1 + below(once_in(3) ? left : (left < 6 ? left : 6));
        int is_free = !full && once_in(4);
        for (i = 0; i < run; i++, at++) {
            fat[ids[at]] = is_free ? FREE : i + 1 < run ? ids[at + 1] : once_in(40) ? RASUVELK_DIFAT_SECTOR : END;
        }
        if (!is_free && once_in(30)) {
            fat[ids[at - 1]] = ids[at - run]; /* a loop: it opens, and a walk comes back to its start */
        }
    }
    for (i = 0; i < k * E; i++) {
        put32(image + (ids[i / E] + 1) * S + 4 * (i % E), fat[i]);
    }
    return (n + 1) * S;
}

/* ------------------------------------------------------------------------------------------------------------ mutations */

/* Where entry i of the FAT stands, as far as the header's list leads there; NULL where it does not. */
static uint8_t *entry_at(uint8_t *image, size_t used, size_t S, size_t i)
{
    size_t place = i / (S / 4);
    uint32_t id;
    if (place >= LISTED) return NULL;
    id = le32(image + 76 + 4 * place);
    if (id >= used / S || (id + 2) * S > used) return NULL;
    return image + (id + 1) * S + 4 * (i % (S / 4));
}

/* Changes one number of an image of `used` bytes, at least 512 of them. */
static void mutate(uint8_t *image, size_t used)
{
    static const uint8_t shorts[] = {24, 26, 28, 30, 32}, longs[] = {40, 44, 48, 52, 56, 60, 64, 68, 72};
    size_t S = le16(image + 26) == 4 && used >= 4096 ? 4096 : 512, n = used / S - 1;
    uint8_t *at, *from;
    /* a place and what is put there are had in two steps, so that every compiler has them in one order */
    switch (below(12)) {
    case 0:
        at = image + shorts[below(sizeof shorts)];
        put16(at, once_in(2) ? (uint32_t)below(16) : (uint32_t)next());
        return;
    case 1:
        at = image + longs[below(sizeof longs)];
        put32(at, bad_number(n));
        return;
    case 2:
        at = image + longs[below(sizeof longs)];
        put32(at, le32(at) - 1 + 2 * (uint32_t)below(2));
        return;
    case 3:
    case 4:
        at = image + 76 + 4 * below(once_in(2) ? 4 : LISTED);
        put32(at, bad_number(n));
        return;
    case 5:
        at = image + below(once_in(2) ? 80 : 512);
        *at ^= (uint8_t)(1u << below(8));
        return;
    case 6: /* the DIFAT's first sector, where there is one */
        if (le32(image + 68) < n) {
            at = image + (le32(image + 68) + 1) * S;
            at += 4 * (once_in(3) ? S / 4 - 1 : below(once_in(2) ? 24 : S / 4));
            put32(at, bad_number(n));
        }
        return;
    case 7: /* two entries name one sector */
        at = entry_at(image, used, S, below(n + 1));
        from = entry_at(image, used, S, below(n + 1));
        if (at != NULL && from != NULL) put32(at, le32(from));
        return;
    case 8: /* past the last sector */
        at = entry_at(image, used, S, n + below(S / 4));
        if (at != NULL) put32(at, bad_number(n));
        return;
    case 9:
        at = image + below(used);
        *at = (uint8_t)next();
        return;
    default:
        at = entry_at(image, used, S, below(n + 1));
        if (at != NULL) put32(at, bad_number(n));
    }
}

#endif
