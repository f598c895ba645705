// Calls every function of the header and exits with 1 if an answer is wrong.
#include <stdio.h>
#include <stdlib.h>
#include <string.h>

#include "check.h"

enum { LENT = 72, GUARD = 64, OLD = 0xA5 };

static struct {
    unsigned char *start;
    size_t bytes;
} lent[LENT];
static size_t lists, right_answers, wrong_answers;

void check(bool right, const char *file, int line, const char *what) {
    right_answers += right;
    wrong_answers += !right;
    if (!right) {
        printf("%s:%d: wrong: %s\n", file, line, what);
    }
}

void *lend(size_t entries, size_t width) {
    size_t bytes = entries * width;
    unsigned char *start = malloc(bytes + 2 * GUARD);
    if (!start || lists == LENT) {
        puts("no room for a list");
        exit(1);
    }
    memset(start, OLD, bytes + 2 * GUARD);
    lent[lists].start = start;
    lent[lists].bytes = bytes;
    lists += 1;
    return start + GUARD;
}

void take_back(void) {
    while (lists > 0) {
        lists -= 1;
        free(lent[lists].start);
    }
}

static bool old(const unsigned char *from, const unsigned char *to) {
    while (from < to && *from == OLD) {
        from += 1;
    }
    return from == to;
}

// Which lent list it is; lists, if none.
static size_t place_of(const void *list) {
    size_t i = 0;
    while (i < lists && lent[i].start + GUARD != list) {
        i += 1;
    }
    return i;
}

bool holds(const void *list, const void *entries, size_t bytes) {
    size_t i = place_of(list);
    if (i == lists || bytes > lent[i].bytes) {
        return false;
    }
    const unsigned char *start = lent[i].start, *first = start + GUARD, *end = first + lent[i].bytes + GUARD;
    return memcmp(first, entries, bytes) == 0 && old(start, first) && old(first + bytes, end);
}

bool alike(const void *list, const void *other) {
    size_t i = place_of(list), j = place_of(other);
    return i < lists && j < lists && lent[i].bytes == lent[j].bytes &&
           memcmp(lent[i].start, lent[j].start, lent[i].bytes + 2 * GUARD) == 0;
}

bool all_kept(void) {
    bool kept = true;
    for (size_t i = 0; i < lists; i += 1) {
        kept = kept && old(lent[i].start, lent[i].start + lent[i].bytes + 2 * GUARD);
    }
    return kept;
}

int main(void) {
    check_scenes();
    check_scene_refusals();
    check_traces();
    check_trace_refusals();
    check_passes();
    printf("%zu answers right, %zu wrong\n", right_answers, wrong_answers);
    return wrong_answers > 0 || right_answers == 0;
}
