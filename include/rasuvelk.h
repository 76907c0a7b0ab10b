/*
 * rasuvelk: header, FAT, DIFAT and sector chains of compound files (OLE, MS-CFB).
 *
 * `scripts/host-archive export` proves the functions below and makes the archive to link, target/host/libexport.a. It
 * needs nothing but a C library's memcpy and memset. No function allocates, keeps anything or has a state of its own: all memory is the
 * caller's, so two threads may call at once on memory of their own.
 *
 * What every call takes for granted, and only the caller can see to:
 *   - a pointer is not null, not even with a length of 0, and is aligned for its type;
 *   - it points to as many elements as the length after it says, or to one whole struct;
 *   - what a pointer without `const` points to overlaps nothing else that the call is given.
 * Nothing else is asked: all bytes, all numbers and all lengths have an answer.
 *
 * Words used below
 *   END      RASUVELK_END_OF_CHAIN; FREE is RASUVELK_FREE_SECTOR
 *   S        bytes of a sector: 512 in version 3, 4096 in version 4
 *   n        sectors of the image besides the header's: used / S - 1
 *   R        the room: whole sectors of the lent image less one, at most 16384, and 0 where there are none
 *   tables   fat: an entry for each sector. fats: the ids of the FAT's sectors. difats: those of the DIFAT's. frees: the
 *            FREE sectors, ascending after an opening. marks: a byte for each sector, 1 where some entry points at it.
 *            Past its count each holds zeros, to the end of what is lent. Each needs R elements or more.
 *   ids      the list in which a call leaves the ids of its chain, then zeros. It needs R elements or more too.
 *
 * The second half of this file, rasuvelk_lent, keeps image, tables, ids and state together, so that one pointer and a
 * block of memory do. Begin there.
 */
#ifndef RASUVELK_H
#define RASUVELK_H

#include <stddef.h>
#include <stdint.h>

#ifdef __cplusplus
extern "C" {
#endif

/* Modes. Where a call asks for a mode, 0 is permissive and every other number is strict. */
#define RASUVELK_PERMISSIVE 0u
#define RASUVELK_STRICT 1u

/* The most sectors that an image may have besides the header's. */
#define RASUVELK_MAX_SECTORS 16384u

/* Bytes of a header, and entries of its list. */
#define RASUVELK_HEADER_LEN 512u
#define RASUVELK_NUM_DIFAT_ENTRIES_IN_HEADER 109u

/* Values of a FAT entry; whatever is not above the first of them is a sector's id. */
#define RASUVELK_MAX_REGULAR_SECTOR 0xfffffffau
#define RASUVELK_INVALID_SECTOR 0xfffffffbu
#define RASUVELK_DIFAT_SECTOR 0xfffffffcu
#define RASUVELK_FAT_SECTOR 0xfffffffdu
#define RASUVELK_END_OF_CHAIN 0xfffffffeu
#define RASUVELK_FREE_SECTOR 0xffffffffu

/* Refusals, by number. Of the causes that hold, the first in a call's order gives the number. */
enum rasuvelk_refusal {
    RASUVELK_ACCEPTED = 0,
    RASUVELK_REFUSED_TOO_SHORT = 1,         /* under 512 bytes; of an opening: fewer used, or more used than lent */
    RASUVELK_REFUSED_SIGNATURE = 2,         /* the first eight bytes are not the signature */
    RASUVELK_REFUSED_BYTE_ORDER = 3,        /* the byte order mark is not 0xfffe */
    RASUVELK_REFUSED_VERSION = 4,           /* the major version is neither 3 nor 4 */
    RASUVELK_REFUSED_SECTOR_SHIFT = 5,      /* the sector shift is not 9 in version 3, not 12 in version 4 */
    RASUVELK_REFUSED_MINI_SECTOR_SHIFT = 6, /* the mini sector shift is not 6 */
    RASUVELK_REFUSED_DIR_SECTORS = 7,       /* strict: version 3 counts directory sectors */
    RASUVELK_REFUSED_CUTOFF = 8,            /* the mini stream cutoff is not 4096 */
    RASUVELK_REFUSED_HEADER_LIST = 9,       /* the list of 109 is not ids and then FREE to its end */
    RASUVELK_REFUSED_WHOLE_SECTORS = 10,    /* the used bytes are no whole sectors, or more than 16384 besides the header's */
    RASUVELK_REFUSED_SHORT_TABLE = 11,      /* a lent table or the id list is shorter than R */
    RASUVELK_REFUSED_FAT_LISTS = 12,        /* counts or lists of FAT and DIFAT sectors are not those that n asks for */
    RASUVELK_REFUSED_FAT_TAIL = 13,         /* a FAT entry past the last sector is not FREE */
    RASUVELK_REFUSED_UNMARKED = 14,         /* strict: a FAT or DIFAT sector is not marked as one */
    RASUVELK_REFUSED_PAST_END = 15,         /* strict: an entry names a sector that is not there */
    RASUVELK_REFUSED_POINTED_TWICE = 16,    /* two entries name one sector */
    RASUVELK_REFUSED_INVALID_ENTRY = 17,    /* an entry is 0xfffffffb */
    RASUVELK_REFUSED_FREE_POINTEE = 18,     /* an entry names a sector that is FREE */
    RASUVELK_REFUSED_DISAGREES = 19,        /* state and tables are not what an opening of the image gives */
    RASUVELK_REFUSED_BAD_START = 20,        /* the start is neither END nor a sector */
    RASUVELK_REFUSED_BROKEN_CHAIN = 21,     /* the walk meets an entry that is neither END nor a sector */
    RASUVELK_REFUSED_LOOP = 22,             /* the walk comes back to its start */
    RASUVELK_REFUSED_OFFSET = 23,           /* the offset lies past the chain's end */
    RASUVELK_REFUSED_NO_ROOM = 24,          /* a change would end with more than R sectors */
    RASUVELK_REFUSED_MID_CHAIN = 25,        /* a change, and some entry names its start */
    RASUVELK_REFUSED_PERMISSIVE_CHANGE = 26 /* a change of a state that was opened permissively */
};

/* Kinds of an entry, as rasuvelk_kind_of gives them. */
enum rasuvelk_kind {
    RASUVELK_KIND_REGULAR = 0,
    RASUVELK_KIND_INVALID = 1,
    RASUVELK_KIND_DIFAT = 2,
    RASUVELK_KIND_FAT = 3,
    RASUVELK_KIND_END = 4,
    RASUVELK_KIND_FREE = 5
};

/* Kinds of an item, as rasuvelk_prettify gives them. */
enum rasuvelk_item_kind {
    RASUVELK_ITEM_NONE = 0,
    RASUVELK_ITEM_FREE = 1,
    RASUVELK_ITEM_END = 2,
    RASUVELK_ITEM_FAT = 3,
    RASUVELK_ITEM_DIFAT = 4,
    RASUVELK_ITEM_RANGE = 5
};

/* A header: 117 words of 32 bits. Beside a refusal: version 3, and all else 0. */
typedef struct rasuvelk_header {
    uint32_t version; /* 3 or 4 */
    uint32_t num_dir_sectors;
    uint32_t num_fat_sectors;
    uint32_t first_dir_sector;
    uint32_t first_minifat_sector;
    uint32_t num_minifat_sectors;
    uint32_t first_difat_sector;
    uint32_t num_difat_sectors;
    uint32_t initial_difat_entries[109];
} rasuvelk_header;

/*
 * The state of an opened image: 121 words of 64 bits. An opening gives it, every later call is handed it, and a change
 * gives the next one in its place. It is plain data: copy it, keep it, compare it; but do not make one up, since a state
 * that no opening of the image gives is refused by 19. Beside a refused opening: mode 1, version 3, and all else 0.
 */
typedef struct rasuvelk_state {
    uint64_t mode;         /* 0 permissive, 1 strict */
    uint64_t used;         /* used bytes of the image */
    uint64_t num_sectors;  /* n */
    uint64_t free_sectors; /* how many of them are FREE */
    uint64_t version;      /* from here on the header's words */
    uint64_t num_dir_sectors;
    uint64_t num_fat_sectors;
    uint64_t first_dir_sector;
    uint64_t first_minifat_sector;
    uint64_t num_minifat_sectors;
    uint64_t first_difat_sector;
    uint64_t num_difat_sectors;
    uint64_t initial_difat_entries[109];
} rasuvelk_state;

/* What a call on a chain answers; three zeros beside a refusal. */
typedef struct rasuvelk_answer {
    uint64_t ids;   /* how many sectors the chain has after the call; its length is S times that */
    uint64_t start; /* its first sector after the call, RASUVELK_END_OF_CHAIN where it has none */
    uint64_t bytes; /* bytes read or written; 0 where a call does neither */
} rasuvelk_answer;

/* An item of rasuvelk_prettify: its two numbers (a count and 0, or the first and last id of a range), the place after it. */
typedef struct rasuvelk_item {
    uint64_t a;
    uint64_t b;
    uint64_t next;
} rasuvelk_item;

/* An item's text, with zeros after it. No text is longer than 26 bytes, so it is a C string. */
typedef struct rasuvelk_text {
    uint8_t bytes[32];
} rasuvelk_text;

/* The archive knows these as plain arrays of words. A compiler that lays them out in another way is refused here. */
#ifdef __cplusplus
#define RASUVELK_WORDS(type, length) static_assert(sizeof(type) == (length), "the words of " #type " lie close together")
#else
#define RASUVELK_WORDS(type, length) _Static_assert(sizeof(type) == (length), "the words of " #type " lie close together")
#endif
RASUVELK_WORDS(rasuvelk_header, 117 * 4);
RASUVELK_WORDS(rasuvelk_state, 121 * 8);
RASUVELK_WORDS(rasuvelk_answer, 3 * 8);
RASUVELK_WORDS(rasuvelk_item, 3 * 8);
RASUVELK_WORDS(rasuvelk_text, 32);
RASUVELK_WORDS(size_t, 8);
#undef RASUVELK_WORDS

/* ------------------------------------------------------------------------------------------------ the header alone */

/*
 * Reads the header in the first 512 of `len` bytes.
 * Gives 0 or, in this order, 1 (len under 512), 2, 3, 4, 5, 6, 7 (strict only; permissive reads the count as 0), 8, 9.
 * After: *header is the header, or beside a refusal version 3 and zeros. `bytes` stay. A first DIFAT sector of FREE is
 * read as END.
 */
uint32_t rasuvelk_read_header(const uint8_t *bytes, size_t len, uint32_t mode, rasuvelk_header *header);

/*
 * Writes a header over the first 512 of `len` bytes: reserved bytes and transaction zero, minor version 0x3e.
 * Gives 0 or, in this order, 4 (version is neither 3 nor 4), 1 (len under 512), 7 (version 3 with directory sectors),
 * 9 (a list that is not ids and then FREE, or a first DIFAT sector of FREE).
 * After: `buf` past 512 stays; all of it stays at a refusal.
 */
uint32_t rasuvelk_write_header(const rasuvelk_header *header, uint8_t *buf, size_t len);

/* ---------------------------------------------------------------------------------------------------- opening, chains */

/*
 * Opens the first `used` bytes of an image and loads its tables.
 * Gives 0 or, in this order, 1 (used under 512 or above image_len), 2 to 9 as rasuvelk_read_header, 10, 11, 12, 13,
 * 14, then 15, 16 and 17 sector by sector upward, and 18. Permissive never gives 7, 14 and 15: it reads 7's count as 0,
 * marks 14's sectors in `fat`, and makes 15's entries END in `fat`.
 * After: the image is never written. At 0 the tables hold what the image has and then zeros, and *state the state. At 1
 * to 11 the tables stay as they were; at 12 to 18 they are zero to their ends; *state is then the one beside a refusal.
 */
uint32_t rasuvelk_open(const uint8_t *image, size_t image_len, size_t used, uint32_t mode,
                       uint32_t *fat, size_t fat_len, uint32_t *fats, size_t fats_len,
                       uint32_t *difats, size_t difats_len, uint32_t *frees, size_t frees_len,
                       uint8_t *marks, size_t marks_len, rasuvelk_state *state);

/*
 * Lists the chain that begins at `start`. A start inside a chain is allowed, and lists the chain from there on; END is a
 * chain of no sectors.
 * Gives 0 or, in this order, 19 (words that are no state), 11, 19, 20, 21, 22.
 * After: state, image and tables stay. At 0 `ids` holds the chain's ids and then zeros, *answer their number, the start
 * and 0. At a refusal *answer is zeros, and `ids` is zeros; only at 11 it stays.
 */
uint32_t rasuvelk_open_chain(const rasuvelk_state *state, const uint8_t *image, size_t image_len,
                             const uint32_t *fat, size_t fat_len, const uint32_t *fats, size_t fats_len,
                             const uint32_t *difats, size_t difats_len, const uint32_t *frees, size_t frees_len,
                             const uint8_t *marks, size_t marks_len, uint32_t *ids, size_t ids_len,
                             uint32_t start, rasuvelk_answer *answer);

/*
 * Reads the chain from byte `offset` on: as many bytes as `buf` has room for, or as the chain still has.
 * Gives 0 or, in this order, 19 (words that are no state), 11, 19, 20, 21, 22, 23 (offset above the chain's length; for
 * an empty buffer too).
 * After: as rasuvelk_open_chain, with the number of bytes that were read in *answer. They stand at the front of `buf`,
 * whose rest stays; at a refusal all of it stays.
 */
uint32_t rasuvelk_read_chain(const rasuvelk_state *state, const uint8_t *image, size_t image_len,
                             const uint32_t *fat, size_t fat_len, const uint32_t *fats, size_t fats_len,
                             const uint32_t *difats, size_t difats_len, const uint32_t *frees, size_t frees_len,
                             const uint8_t *marks, size_t marks_len, uint32_t *ids, size_t ids_len,
                             uint32_t start, uint64_t offset, uint8_t *buf, size_t buf_len, rasuvelk_answer *answer);

/*
 * The three calls that change a chain have one order of refusals, for changes of no effect too: 19 (words that are no
 * state), 11, 19, 26, 20, 21, 22, 25, 23 (a write only), 24. Room for all that a change needs, FAT and DIFAT sectors
 * among it, is known before the first byte is stored: a refused change leaves state, image and tables as they were,
 * *answer zeros, and `ids` zeros (only at 11 `ids` stays).
 *
 * After an accepted one: *state, the image, each table to its end and `ids` are those after the change, *answer has the
 * chain's ids and start. The image past the used length of the new state stays. Sectors are taken from the end of
 * `frees`; when it is empty, the next id past the last. Freed sectors are put to the end of `frees` and keep their bytes.
 */

/*
 * Writes all of `buf` over the chain's bytes from byte `offset` on. The chain grows to hold it; new bytes past the
 * written ones are zero. `start` END begins a chain. An empty buffer changes nothing. *answer has buf_len as its bytes.
 */
uint32_t rasuvelk_write_chain(rasuvelk_state *state, uint8_t *image, size_t image_len,
                              uint32_t *fat, size_t fat_len, uint32_t *fats, size_t fats_len,
                              uint32_t *difats, size_t difats_len, uint32_t *frees, size_t frees_len,
                              uint8_t *marks, size_t marks_len, uint32_t *ids, size_t ids_len,
                              uint32_t start, uint64_t offset, const uint8_t *buf, size_t buf_len,
                              rasuvelk_answer *answer);

/*
 * Makes the chain as many sectors long as `length` bytes ask for; any 64-bit number will do. New sectors are zero. Where
 * there are no more than before, the tail is freed and the bytes from `length` to the end of its sector become zero.
 * 0 frees the whole chain: its start is then END.
 */
uint32_t rasuvelk_resize_chain(rasuvelk_state *state, uint8_t *image, size_t image_len,
                               uint32_t *fat, size_t fat_len, uint32_t *fats, size_t fats_len,
                               uint32_t *difats, size_t difats_len, uint32_t *frees, size_t frees_len,
                               uint8_t *marks, size_t marks_len, uint32_t *ids, size_t ids_len,
                               uint32_t start, uint64_t length, rasuvelk_answer *answer);

/* Frees the whole chain: rasuvelk_resize_chain to 0. */
uint32_t rasuvelk_free_chain(rasuvelk_state *state, uint8_t *image, size_t image_len,
                             uint32_t *fat, size_t fat_len, uint32_t *fats, size_t fats_len,
                             uint32_t *difats, size_t difats_len, uint32_t *frees, size_t frees_len,
                             uint8_t *marks, size_t marks_len, uint32_t *ids, size_t ids_len,
                             uint32_t start, rasuvelk_answer *answer);

/* ------------------------------------------------------------------------------------------- a FAT in words and in short */

/* The kind of an entry, one of enum rasuvelk_kind. It refuses nothing. */
uint32_t rasuvelk_kind_of(uint32_t entry);

/*
 * The item that begins at place `at` of a list of entries: one of enum rasuvelk_item_kind, RASUVELK_ITEM_NONE where `at`
 * is no place of the list. It refuses nothing.
 * After: *item has its two numbers and the place after it, zeros where there is none.
 */
uint32_t rasuvelk_prettify(const uint32_t *sectors, size_t len, size_t at, rasuvelk_item *item);

/*
 * The text of an item by its kind and two numbers, such as `2..=3` or `2 FREE`: its length, 0 for no item, for an
 * unknown kind and for a range above 32 bits. It refuses nothing.
 * After: *out has the text and then zeros.
 */
size_t rasuvelk_sector_text(uint32_t kind, uint64_t a, uint64_t b, rasuvelk_text *out);

/* -------------------------------------------------------------------------------------------- everything behind one pointer */

/*
 * What a caller lends, together: rasuvelk_lend fills it in, rasuvelk_lent_open opens the image, and the calls after it
 * need nothing but this pointer. Read what you like. Pointers and lengths in it are taken for granted; a state, a table,
 * a header or a FAT that you change by hand is refused by 19 at the next call, unless they still are what an opening gives.
 * It is made of the functions above, and each call gives their numbers and leaves what they leave.
 */
typedef struct rasuvelk_lent {
    uint8_t *image;
    size_t image_len;
    size_t room; /* elements of each table and of ids */
    uint32_t *fat;
    uint32_t *fats;
    uint32_t *difats;
    uint32_t *frees;
    uint32_t *ids;
    uint8_t *marks;
    rasuvelk_state state;
} rasuvelk_lent;

/* Elements that are enough for each table and for the id list, whichever version the image has; at least 1. */
static inline size_t rasuvelk_room(size_t image_len)
{
    size_t sectors = image_len / 512u;
    if (sectors < 2u) {
        return 1u;
    }
    return sectors - 1u < RASUVELK_MAX_SECTORS ? sectors - 1u : RASUVELK_MAX_SECTORS;
}

/* Bytes of memory that rasuvelk_lend needs for an image of so many lent bytes: at most 344064. */
static inline size_t rasuvelk_memory(size_t image_len)
{
    return 21u * rasuvelk_room(image_len);
}

/*
 * Lays the tables and the id list out in `memory`, which has to be aligned for uint32_t, as malloc's is, and zeroes them
 * and the state.
 * The image is `image_len` bytes long, the spare ones behind its used bytes among them: they are what changes can grow
 * into. Gives 0, or 11 where `memory` is null or shorter than rasuvelk_memory(image_len); *lent is untouched then.
 */
static inline uint32_t rasuvelk_lend(rasuvelk_lent *lent, uint8_t *image, size_t image_len, void *memory,
                                     size_t memory_len)
{
    size_t room = rasuvelk_room(image_len);
    uint8_t *bytes = (uint8_t *)memory;
    uint32_t *words = (uint32_t *)memory;
    rasuvelk_lent laid;
    size_t i;
    if (memory == NULL || memory_len < rasuvelk_memory(image_len)) {
        return RASUVELK_REFUSED_SHORT_TABLE;
    }
    for (i = 0; i < 5u * room; i++) {
        words[i] = 0u;
    }
    for (i = 0; i < sizeof laid; i++) {
        ((uint8_t *)&laid)[i] = 0u;
    }
    laid.image = image;
    laid.image_len = image_len;
    laid.room = room;
    laid.fat = words;
    laid.fats = words + room;
    laid.difats = words + 2u * room;
    laid.frees = words + 3u * room;
    laid.ids = words + 4u * room;
    laid.marks = bytes + 20u * room;
    for (i = 0; i < room; i++) {
        laid.marks[i] = 0u;
    }
    *lent = laid;
    return RASUVELK_ACCEPTED;
}

/* rasuvelk_open of the first `used` bytes: 0 or 1 to 10 and 12 to 18. There is always room enough, so 11 is never met. */
static inline uint32_t rasuvelk_lent_open(rasuvelk_lent *lent, size_t used, uint32_t mode)
{
    return rasuvelk_open(lent->image, lent->image_len, used, mode, lent->fat, lent->room, lent->fats, lent->room,
                         lent->difats, lent->room, lent->frees, lent->room, lent->marks, lent->room, &lent->state);
}

/* rasuvelk_open_chain: the ids are then in lent->ids, and answer->ids says how many. 0, 19 to 22. */
static inline uint32_t rasuvelk_lent_chain(rasuvelk_lent *lent, uint32_t start, rasuvelk_answer *answer)
{
    return rasuvelk_open_chain(&lent->state, lent->image, lent->image_len, lent->fat, lent->room, lent->fats,
                               lent->room, lent->difats, lent->room, lent->frees, lent->room, lent->marks,
                               lent->room, lent->ids, lent->room, start, answer);
}

/* rasuvelk_read_chain. 0, 19 to 23. `buf` must not overlap what is lent. */
static inline uint32_t rasuvelk_lent_read(rasuvelk_lent *lent, uint32_t start, uint64_t offset, uint8_t *buf,
                                          size_t buf_len, rasuvelk_answer *answer)
{
    return rasuvelk_read_chain(&lent->state, lent->image, lent->image_len, lent->fat, lent->room, lent->fats,
                               lent->room, lent->difats, lent->room, lent->frees, lent->room, lent->marks,
                               lent->room, lent->ids, lent->room, start, offset, buf, buf_len, answer);
}

/* rasuvelk_write_chain. 0, 19, 26, 20 to 22, 25, 23, 24. `buf` must not overlap what is lent. */
static inline uint32_t rasuvelk_lent_write(rasuvelk_lent *lent, uint32_t start, uint64_t offset, const uint8_t *buf,
                                           size_t buf_len, rasuvelk_answer *answer)
{
    return rasuvelk_write_chain(&lent->state, lent->image, lent->image_len, lent->fat, lent->room, lent->fats,
                                lent->room, lent->difats, lent->room, lent->frees, lent->room, lent->marks,
                                lent->room, lent->ids, lent->room, start, offset, buf, buf_len, answer);
}

/* rasuvelk_resize_chain. 0, 19, 26, 20 to 22, 25, 24. */
static inline uint32_t rasuvelk_lent_resize(rasuvelk_lent *lent, uint32_t start, uint64_t length,
                                            rasuvelk_answer *answer)
{
    return rasuvelk_resize_chain(&lent->state, lent->image, lent->image_len, lent->fat, lent->room, lent->fats,
                                 lent->room, lent->difats, lent->room, lent->frees, lent->room, lent->marks,
                                 lent->room, lent->ids, lent->room, start, length, answer);
}

/* rasuvelk_free_chain. 0, 19, 26, 20 to 22, 25. */
static inline uint32_t rasuvelk_lent_free(rasuvelk_lent *lent, uint32_t start, rasuvelk_answer *answer)
{
    return rasuvelk_free_chain(&lent->state, lent->image, lent->image_len, lent->fat, lent->room, lent->fats,
                               lent->room, lent->difats, lent->room, lent->frees, lent->room, lent->marks,
                               lent->room, lent->ids, lent->room, start, answer);
}

#ifdef __cplusplus
}
#endif

#endif
