/*
 * Memory to lend. Every buffer lies between two pages that nobody may touch, and ends right before the second or begins
 * right behind the first, so that a step outside is a fault, whoever takes it. On its other side stand EDGE bytes that must
 * stay, which AddressSanitizer knows as poisoned too. What is lent to be read alone can be made so for the processor.
 */
#ifndef LEND_H
#define LEND_H

#define _GNU_SOURCE
#include <stdint.h>
#include <stdio.h>
#include <stdlib.h>
#include <string.h>
#include <sys/mman.h>

#if defined(__SANITIZE_ADDRESS__)
#define SANITIZED 1
#elif defined(__has_feature)
#if __has_feature(address_sanitizer)
#define SANITIZED 1
#endif
#endif

#ifdef SANITIZED
void __asan_poison_memory_region(void const volatile *at, size_t length);
void __asan_unpoison_memory_region(void const volatile *at, size_t length);
void __sanitizer_set_death_callback(void (*callback)(void));
#else
#error "compile it with -fsanitize=address,undefined"
#endif

enum { PAGE = 4096, EDGE = 64, EDGE_BYTE = 0xa5 };

typedef struct zone {
    const char *name;
    uint8_t *pages; /* between the two pages that nobody may touch */
    size_t room;    /* bytes of them */
    uint8_t *at;    /* what is lent */
    size_t len;
    uint8_t *before; /* what it held at the last zone_keep */
} zone;

static void zone_make(zone *z, const char *name, size_t room)
{
    uint8_t *all;
    z->name = name;
    z->room = (room + PAGE - 1) / PAGE * PAGE;
    all = mmap(NULL, z->room + 2 * PAGE, PROT_NONE, MAP_PRIVATE | MAP_ANONYMOUS, -1, 0);
    z->before = malloc(z->room);
    if (all == MAP_FAILED || z->before == NULL || mprotect(all + PAGE, z->room, PROT_READ | PROT_WRITE) != 0) {
        perror("fuzz: no memory");
        exit(2);
    }
    z->pages = all + PAGE;
    z->at = z->pages;
    z->len = z->room;
}

/* The bytes that must stay: before what is lent, and behind it. One of the two is always empty. */
static size_t front_edge(const zone *z)
{
    size_t there = (size_t)(z->at - z->pages);
    return there < EDGE ? there : EDGE;
}

static size_t back_edge(const zone *z)
{
    size_t there = z->room - (size_t)(z->at - z->pages) - z->len;
    return there < EDGE ? there : EDGE;
}

static void edges_open(const zone *z)
{
    __asan_unpoison_memory_region(z->at - front_edge(z), front_edge(z));
    __asan_unpoison_memory_region(z->at + z->len, back_edge(z));
}

static void edges_close(const zone *z)
{
    __asan_poison_memory_region(z->at - front_edge(z), front_edge(z));
    __asan_poison_memory_region(z->at + z->len, back_edge(z));
}

/* Lends `len` bytes, at the end of the pages or at their front. What they hold is left as it is. */
static void zone_lend(zone *z, size_t len, int at_end)
{
    edges_open(z);
    if (len > z->room) {
        printf("fuzz: %s has no room for %zu bytes\n", z->name, len);
        exit(2);
    }
    z->at = at_end ? z->pages + z->room - len : z->pages;
    z->len = len;
    memset(z->at - front_edge(z), EDGE_BYTE, front_edge(z));
    memset(z->at + len, EDGE_BYTE, back_edge(z));
    edges_close(z);
}

static void zone_keep(zone *z)
{
    memcpy(z->before, z->at, z->len);
}

static int zone_same(const zone *z)
{
    return memcmp(z->before, z->at, z->len) == 0;
}

static int all_are(const uint8_t *bytes, size_t length, uint8_t byte)
{
    return length == 0 || (bytes[0] == byte && memcmp(bytes, bytes + 1, length - 1) == 0);
}

static int zone_edges(const zone *z)
{
    int stayed;
    edges_open(z);
    stayed = all_are(z->at - front_edge(z), front_edge(z), EDGE_BYTE) && all_are(z->at + z->len, back_edge(z), EDGE_BYTE);
    edges_close(z);
    return stayed;
}

/* Makes what is lent readable alone, for the processor; or writable again. */
static void zone_protect(const zone *z, int readable_alone)
{
    size_t front = (size_t)(z->at - z->pages), from = front / PAGE * PAGE;
    size_t pages = (front + z->len + PAGE - 1) / PAGE * PAGE - from;
    if (pages > 0 && mprotect(z->pages + from, pages, readable_alone ? PROT_READ : PROT_READ | PROT_WRITE) != 0) {
        perror("fuzz: mprotect");
        exit(2);
    }
}

#endif
