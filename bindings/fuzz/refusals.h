// Whether a refusal's condition holds at its place, and which comes first. A condition that does not hold never gives
// its number.
#ifndef FUZZ_REFUSALS_H
#define FUZZ_REFUSALS_H

#include "call.h"

struct refusal {
    unsigned number; // 0 where there is none
    uint64_t place;
};

bool refusal_holds(const struct call *call, unsigned number, uint64_t place);

// The first in the order of the call's steps; rows are asked for in short lists only, for their time.
struct refusal first_refusal(const struct call *call);

#endif
