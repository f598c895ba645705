#define _GNU_SOURCE
#include "lend.h"

#include <stdio.h>
#include <stdlib.h>
#include <string.h>
#include <sys/mman.h>
#include <unistd.h>

#define PAGE 4096
#define ZONE 512
#define GUARD (16 * PAGE)
// A list that fits one page has one, so that what is around it is near; another has room for the longest.
#define LARGE (((size_t)MOST_ENTRIES * 8 + PAGE - 1) / PAGE * PAGE)
#define SLOTS (SIDES * MOST_LISTS)
#define LARGE_SLOTS (SLOTS * (LARGE + GUARD))
#define MAPPED (LARGE_SLOTS + SLOTS * (PAGE + GUARD) + GUARD)

// One memory, seen twice: as it is written here, and as lists that are only read are lent.
static unsigned char *writable, *readable;

// What zones are filled with; it has no period that a zone could have.
static unsigned char pattern[2 * PAGE];

static void stop(const char *what)
{
    perror(what);
    exit(2);
}

static size_t slot_offset(size_t slot, bool large)
{
    return GUARD + (large ? slot * (LARGE + GUARD) : LARGE_SLOTS + slot * (PAGE + GUARD));
}

static unsigned char *map_slots(int memory, int protection)
{
    unsigned char *mapped = mmap(NULL, MAPPED, PROT_NONE, MAP_SHARED, memory, 0);
    if (mapped == MAP_FAILED)
        stop("mmap");
    for (size_t slot = 0; slot < SLOTS; slot++)
        if (mprotect(mapped + slot_offset(slot, true), LARGE, protection) != 0
            || mprotect(mapped + slot_offset(slot, false), PAGE, protection) != 0)
            stop("mprotect");
    return mapped;
}

void prepare_lending(enum manner manner)
{
    struct random random = {1};
    fill(&random, pattern, sizeof pattern);
    if (manner != PAGES)
        return;
    int memory = memfd_create("lists", 0);
    if (memory < 0 || ftruncate(memory, MAPPED) != 0)
        stop("memfd_create");
    writable = map_slots(memory, PROT_READ | PROT_WRITE);
    readable = map_slots(memory, PROT_READ);
}

static size_t bytes_in(const struct list *list)
{
    return list->length * list->width;
}

static void place_in_pages(const struct list *list, struct lent *lent, size_t i)
{
    size_t bytes = bytes_in(list), size = bytes > PAGE ? LARGE : PAGE, rest = size - bytes;
    size_t offset = slot_offset(MOST_LISTS * lent->side + i, bytes > PAGE) + (lent->side == END ? rest : 0);
    size_t zone = bytes > PAGE && rest > ZONE ? ZONE : rest;
    lent->list[i] = writable + offset;
    lent->at[i] = (list->role == READ ? readable : writable) + offset;
    if (lent->side == END)
        lent->before[i] = (struct zone){lent->list[i] - zone, zone};
    else
        lent->after[i] = (struct zone){lent->list[i] + bytes, zone};
}

static void place_in_block(const struct list *list, struct lent *lent, size_t i)
{
    size_t bytes = bytes_in(list), zone = lent->manner == ZONES ? ZONE : 0;
    unsigned char *block = malloc(zone + bytes + zone);
    if (block == NULL && zone + bytes > 0)
        stop("malloc");
    lent->block[i] = block;
    lent->at[i] = lent->list[i] = block + zone;
    lent->before[i] = (struct zone){block, zone};
    lent->after[i] = (struct zone){block + zone + bytes, zone};
}

static void fill_list(const struct list *list, const struct lent *lent, unsigned char *at)
{
    size_t bytes = bytes_in(list);
    if (bytes == 0)
        return;
    if (lent->state == AS_MADE || list->role == READ)
        memcpy(at, list->content, bytes);
    else if (lent->manner != BLOCKS)
        for (size_t k = 0; k < bytes; k++)
            at[k] = list->content[k] ^ 0xFF;
}

// Another part of the pattern for each list and each lending, so that a value that is written to a zone is not by
// chance the one that was there.
static const unsigned char *pattern_of(const struct lent *lent, size_t i)
{
    return pattern + 13 * i + 401 * (2 * lent->state + lent->side);
}

// An earlier list with the same entries, both only read: they may be lent as one. Else the list itself.
static size_t same_entries(const struct call *call, size_t i)
{
    const struct list *list = &call->lists[i];
    for (size_t j = 0; j < i && list->role == READ && list->length > 0; j++) {
        const struct list *other = &call->lists[j];
        if (other->role == READ && other->width == list->width && other->length == list->length
            && memcmp(other->content, list->content, bytes_in(list)) == 0)
            return j;
    }
    return i;
}

void lend_structs(const struct call *call, struct lent *lent)
{
    size_t first = 0;
    for (size_t i = call->count; i < call->all; i++) {
        const struct list *list = &call->lists[i];
        memset(list->content, 0x11 * (1 + lent->side + 2 * lent->state), list->length); // what is no field differs
        list->put(call, first, lent->at, list->content);
        memcpy(lent->list[i], list->content, list->length);
        first += list->rows;
    }
}

// How a list is handed over that has no entries, or the same as another.
static void *handed(const struct call *call, const struct lent *lent, size_t i)
{
    const struct list *list = &call->lists[i];
    if (list->length == 0 && list->empty != NO_ROOM)
        return list->empty == NO_POINTER ? NULL : (void *)(uintptr_t)list->width;
    return lent->at[lent->side == BEGINNING ? same_entries(call, i) : i];
}

void lend(const struct call *call, enum manner manner, enum side side, enum state state, struct lent *lent)
{
    *lent = (struct lent){.manner = manner, .side = side, .state = state};
    for (size_t i = 0; i < call->all; i++) {
        if (manner == PAGES)
            place_in_pages(&call->lists[i], lent, i);
        else
            place_in_block(&call->lists[i], lent, i);
        if (lent->before[i].size > 0)
            memcpy(lent->before[i].at, pattern_of(lent, i), lent->before[i].size);
        if (lent->after[i].size > 0)
            memcpy(lent->after[i].at, pattern_of(lent, i), lent->after[i].size);
    }
    for (size_t i = 0; i < call->count; i++) {
        fill_list(&call->lists[i], lent, lent->list[i]);
        lent->at[i] = handed(call, lent, i);
    }
    lend_structs(call, lent);
}

static bool zone_kept(struct zone zone, const unsigned char *expected)
{
    return zone.size == 0 || memcmp(zone.at, expected, zone.size) == 0;
}

size_t changed_zone(const struct call *call, const struct lent *lent)
{
    for (size_t i = 0; i < call->all; i++)
        if (!zone_kept(lent->before[i], pattern_of(lent, i)) || !zone_kept(lent->after[i], pattern_of(lent, i)))
            return i;
    return call->all;
}

void take_back(const struct call *call, struct lent *lent)
{
    for (size_t i = 0; i < call->all; i++)
        free(lent->block[i]);
}

const char *near_list(const struct call *call, const struct lent *lent, const void *address)
{
    static char words[120];
    uintptr_t place = (uintptr_t)address;
    for (size_t i = 0; lent->manner == PAGES && i < call->all; i++) {
        uintptr_t begin = (uintptr_t)lent->at[i], end = begin + bytes_in(&call->lists[i]);
        if (place + GUARD / 2 < begin || place >= end + GUARD / 2)
            continue;
        const char *where = place < begin ? "before the beginning of" : place < end ? "within" : "past the end of";
        snprintf(words, sizeof words, "%s %s", where, call->lists[i].name);
        return words;
    }
    return "near no list";
}
