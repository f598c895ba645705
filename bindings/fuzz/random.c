#include "random.h"

#include <string.h>

// splitmix64: seeds that differ by 1 give streams that have nothing to do with each other.
uint64_t any_word(struct random *random)
{
    uint64_t word = random->state += 0x9E3779B97F4A7C15u;
    word = (word ^ (word >> 30)) * 0xBF58476D1CE4E5B9u;
    word = (word ^ (word >> 27)) * 0x94D049BB133111EBu;
    return word ^ (word >> 31);
}

uint64_t below(struct random *random, uint64_t bound)
{
    return any_word(random) % bound;
}

bool one_in(struct random *random, uint64_t times)
{
    return below(random, times) == 0;
}

uint64_t odd_word(struct random *random)
{
    uint64_t beside = below(random, 5);
    switch (below(random, 4)) {
    case 0:
        return beside;
    case 1:
        return UINT64_MAX - beside;
    case 2:
        return ((uint64_t)1 << below(random, 64)) - 2 + beside;
    default:
        return any_word(random) >> below(random, 64);
    }
}

uint64_t crowded_word(uint64_t number)
{
    switch (number % 3) {
    case 0:
        return number;
    case 1:
        return UINT64_MAX - number;
    default: // an odd number, shifted by as many places as its remainder says
        return (2 * number + 1) << (number % 39 + 1);
    }
}

void fill(struct random *random, void *bytes, size_t count)
{
    unsigned char *at = bytes;
    for (; count >= sizeof(uint64_t); count -= sizeof(uint64_t), at += sizeof(uint64_t)) {
        uint64_t word = any_word(random);
        memcpy(at, &word, sizeof word);
    }
    for (; count > 0; count--)
        *at++ = (unsigned char)any_word(random);
}

void shuffled(struct random *random, size_t *places, size_t count)
{
    for (size_t i = 0; i < count; i++) {
        size_t other = below(random, i + 1);
        places[i] = places[other];
        places[other] = i;
    }
}
