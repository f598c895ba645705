// Lengths and contents of the lists of a call that is being made.
#ifndef FUZZ_LISTS_H
#define FUZZ_LISTS_H

#include "call.h"

uint8_t *bytes_of(struct call *call, size_t list);
uint16_t *halves_of(struct call *call, size_t list);
uint32_t *numbers_of(struct call *call, size_t list);
int32_t *signed_of(struct call *call, size_t list);
uint64_t *words_of(struct call *call, size_t list);
size_t *places_of(struct call *call, size_t list);

// Mostly small, often at the limit or beside it, now and then far past it.
size_t some_length(struct random *random, size_t limit);

// As long as needed, or longer.
size_t enough(struct random *random, size_t need);

// The lists of one record kind, which are read, get this length.
void set_lengths(struct call *call, unsigned of, size_t length);

// How long the lists of a record kind are, by the first of them.
size_t length_of(const struct call *call, unsigned of);

// How many entries the list of this number needs, or SIZE_MAX where it needs more than there can be.
size_t need_of(const struct call *call, unsigned list);

// The lists that are written get enough room and random contents.
void make_outputs(struct random *random, struct call *call);

// A list becomes an entry too short, if it is one that is written and needs any.
void shorten_output(struct random *random, struct call *call);

// One list, of those that are written or of those that are read, gets another length: shorter by one, none, any.
void spoil_length(struct random *random, struct call *call, bool written);

// Every list has any length, and every entry and number any value.
void make_wild(struct random *random, struct call *call);

#endif
