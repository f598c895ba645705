// What must hold after a call of the lists and structs that were lent. Each answers the one that it does not hold of,
// or the number of all.
#ifndef FUZZ_CHECK_H
#define FUZZ_CHECK_H

#include "lend.h"

// Lists that are only read are as they were, and every struct; so is every list under a refusal; so are entries past
// those written.
size_t changed_list(const struct call *call, const struct lent *lent, bool refused);

// Two calls on the same lists wrote the same: every byte where all lists began alike, else every entry that was
// written.
size_t unlike_list(const struct call *call, const struct lent *one, const struct lent *other);

bool same_answer(const struct answer *one, const struct answer *other);

#endif
