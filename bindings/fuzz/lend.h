// How lists are lent, and what around them must not change.
//
// PAGES: each list lies against pages that cannot be touched, with its end or with its beginning; what is left of its
// page, or a part of that where it has several, is a guard zone. Lists that are only read lie in memory that cannot be
// written.
// ZONES: each list lies in a heap block of its own, between two guard zones.
// BLOCKS: each list is a heap block of exactly its size.
// A struct of lists is lent like a list. Only its call may write it where its lists are written.
#ifndef FUZZ_LEND_H
#define FUZZ_LEND_H

#include "call.h"

enum manner { PAGES, ZONES, BLOCKS };

// In pages: which side of the list lies against those that cannot be touched. With BEGINNING, lists that are only
// read and have the same entries are lent as one.
enum side { END, BEGINNING, SIDES };

// What lists that are not only read hold before the call: the call's content, or each bit of it turned; in BLOCKS, in
// place of the latter, nothing that was ever written.
enum state { AS_MADE, TURNED };

struct zone {
    unsigned char *at;
    size_t size;
};

struct lent {
    enum manner manner;
    enum side side;
    enum state state;
    void *at[MOST_LISTS];            // what the export is handed
    unsigned char *list[MOST_LISTS]; // the same entries, where all can be looked at and written
    struct zone before[MOST_LISTS], after[MOST_LISTS];
    void *block[MOST_LISTS]; // to free
};

void prepare_lending(enum manner manner);

void lend(const struct call *call, enum manner manner, enum side side, enum state state, struct lent *lent);

// Writes the pointers and lengths of the lists into the structs; `lend` does it too.
void lend_structs(const struct call *call, struct lent *lent);

// The first list with a changed guard zone, or the number of lists.
size_t changed_zone(const struct call *call, const struct lent *lent);

void take_back(const struct call *call, struct lent *lent);

// Which list an address that was not to be touched is near, in words.
const char *near_list(const struct call *call, const struct lent *lent, const void *address);

#endif
