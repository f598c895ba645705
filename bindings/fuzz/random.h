// Random numbers that are the same on every machine for one seed.
#ifndef FUZZ_RANDOM_H
#define FUZZ_RANDOM_H

#include <stdbool.h>
#include <stddef.h>
#include <stdint.h>

struct random {
    uint64_t state;
};

uint64_t any_word(struct random *random);

// A number below the bound, which is not 0.
uint64_t below(struct random *random, uint64_t bound);

bool one_in(struct random *random, uint64_t times);

// A word near a power of two, near 0 or near 2^64 - 1, or any word at all.
uint64_t odd_word(struct random *random);

// Words of which a third crowd at each end of the range and the others near each power of two: different for different
// numbers below 2^23.
uint64_t crowded_word(uint64_t number);

void fill(struct random *random, void *bytes, size_t count);

// 0 to count - 1, in any order.
void shuffled(struct random *random, size_t *places, size_t count);

#endif
