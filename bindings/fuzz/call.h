// One call of an export: what it is lent, what it answers, and what may have changed after it.
#ifndef FUZZ_CALL_H
#define FUZZ_CALL_H

#include "random.h"
#include "sizhbanto.h"

#define MOST_LISTS 46 // structs of lists included
#define MOST_NUMBERS 16

// Past 65,536, so that a length cut to 16 bits shows.
#define MOST_ENTRIES 70000

// The number of a refusal that has none: lists that do not fit, a key that is not there, an empty path.
#define UNNUMBERED 16
#define NUMBERS 17

// A list that is worked in holds anything after a call that did its work. A struct whose lists are written can be
// written itself, and must be kept as it was.
enum role { READ, KEEP, WRITE, WORK };

// How a list without entries is lent: null, a pointer that leads nowhere, or a place where no entry would have room.
enum emptiness { NO_POINTER, LEADS_NOWHERE, NO_ROOM, EMPTINESSES };

struct call;

// A list, or a struct of lists, which is as many bytes.
struct list {
    const char *name, *type; // of an entry, or of the struct
    enum role role;
    size_t width; // bytes of an entry
    unsigned of;  // as in exports.h
    size_t rows;  // of a struct: how many lists it has
    // and what writes their pointers and lengths into it, given the place of the first of them in the call
    void (*put)(const struct call *call, size_t first, void *const *lent, void *into);
    size_t length;
    enum emptiness empty;
    unsigned char *content; // before the call; aligned, with room for MOST_ENTRIES
    size_t from, used;      // the entries that the call wrote; none under a refusal
};

struct call {
    const struct export *export;
    size_t count, all; // of lists; with the structs, which stand after them
    struct list lists[MOST_LISTS];
    size_t first, edge;
    uint64_t key;
    uint8_t unit;
    SizhbantoTransientRecord held;
};

struct answer {
    unsigned number; // 0 where the call was accepted
    uint64_t place;
    size_t count;
    uint64_t numbers[MOST_NUMBERS]; // the fields after these two, in order
};

struct lent;

struct export {
    const char *name;
    size_t all;
    const struct list *lists;
    const char *fields; // the names of the answer's numbers, each followed by a space
    uint32_t possible; // bit k: it can answer number k
    void (*make)(struct random *random, struct call *call);
    void (*run)(const struct call *call, void *const *lent, struct answer *answer);
    // Notes what was written; answers what the answer has wrong, or null.
    const char *(*judge)(struct call *call, const struct answer *answer);
    // Answers what the lists that an accepted call wrote have wrong, or null.
    const char *(*read)(const struct call *call, const struct lent *lent, const struct answer *answer);
};

// The judges.
const char *judge_check(struct call *call, const struct answer *answer);
const char *judge_feedback(struct call *call, const struct answer *answer);
const char *judge_describe(struct call *call, const struct answer *answer);
const char *judge_assess(struct call *call, const struct answer *answer);
const char *judge_analyze(struct call *call, const struct answer *answer);
const char *judge_path(struct call *call, const struct answer *answer);
const char *judge_trace(struct call *call, const struct answer *answer);
const char *judge_recording(struct call *call, const struct answer *answer);
const char *judge_sort(struct call *call, const struct answer *answer);
const char *judge_find(struct call *call, const struct answer *answer);
const char *judge_marking(struct call *call, const struct answer *answer);
const char *judge_reconvergence(struct call *call, const struct answer *answer);

// The readers of what was written.
const char *read_nothing(const struct call *call, const struct lent *lent, const struct answer *answer);
const char *read_feedback(const struct call *call, const struct lent *lent, const struct answer *answer);
const char *read_description(const struct call *call, const struct lent *lent, const struct answer *answer);
const char *read_assessment(const struct call *call, const struct lent *lent, const struct answer *answer);
const char *read_analysis(const struct call *call, const struct lent *lent, const struct answer *answer);
const char *read_findings(const struct call *call, const struct lent *lent, const struct answer *answer);
const char *read_sorted(const struct call *call, const struct lent *lent, const struct answer *answer);
const char *read_sums(const struct call *call, const struct lent *lent, const struct answer *answer);

#define EXPORTS 12
extern const struct export exports[EXPORTS];

// An export with its lists, all empty.
void begin_call(struct call *call, const struct export *export);

// A random call of it.
void make_call(struct random *random, struct call *call, const struct export *export);

// The makers of calls; each sets lengths, contents and numbers.
void make_check(struct random *random, struct call *call);
void make_scene(struct random *random, struct call *call);
void make_trace(struct random *random, struct call *call);
void make_recording(struct random *random, struct call *call);
void make_path(struct random *random, struct call *call);
void make_sort(struct random *random, struct call *call);
void make_find(struct random *random, struct call *call);
void make_marking(struct random *random, struct call *call);
void make_reconvergence(struct random *random, struct call *call);

#endif
