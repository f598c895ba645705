// What the checks share: lists with guard entries, and what they must hold.
#ifndef CHECK_H
#define CHECK_H

#include <stdbool.h>
#include <stddef.h>
#include <stdint.h>

// Counts a wrong answer and says where it was met.
void check(bool right, const char *file, int line, const char *what);
#define CHECK(right) check(right, __FILE__, __LINE__, #right)

// A list with guard entries before and after it. Every byte is the same, so that an entry that was written shows.
void *lend(size_t entries, size_t width);
// Gives all lists back.
void take_back(void);
// Whether a lent list begins with these entries, and all else of it and about it is as it was lent.
bool holds(const void *list, const void *entries, size_t bytes);
// Whether two lent lists and all about them are the same.
bool alike(const void *list, const void *other);
// Whether every lent list is as it was lent.
bool all_kept(void);

#define HOLDS(type, list, ...) CHECK(holds(list, (const type[]){__VA_ARGS__}, sizeof((const type[]){__VA_ARGS__})))
#define EMPTY(list) CHECK(holds(list, "", 0))

void check_scenes(void);
void check_scene_refusals(void);
void check_traces(void);
void check_trace_refusals(void);
void check_passes(void);

#endif
