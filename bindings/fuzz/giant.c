// Lists longer than 32 bits can count, of memory that is promised and hardly used: in an accepted call of each export
// each list in turn, then all lists of a record kind, get 2^32 entries more. A length cut to 32 bits would change
// nothing; the answer must be that of the true length. Exits with 1 at the first finding.
#define _GNU_SOURCE
#include "check.h"
#include "lists.h"

#include <stdio.h>
#include <stdlib.h>
#include <string.h>
#include <sys/mman.h>

#define MORE ((size_t)1 << 32)
// So many bytes past a list's own entries are set, so that no end of an edge is found there, and looked at.
#define BEYOND 4096
#define SET 0xFF

static struct call call;
static size_t own[MOST_LISTS]; // entries that a list has by itself
static void *mapped[MOST_LISTS];

// A small call that is accepted.
static void make_small(const struct export *export)
{
    struct lent lent;
    struct answer answer = {.number = 1};
    size_t longest = 0;
    for (uint64_t seed = 0; answer.number != 0 || longest > 100 || call.lists[0].length < 3; seed++) {
        struct random random = {seed};
        make_call(&random, &call, export);
        for (size_t i = longest = 0; i < call.count; i++)
            longest = call.lists[i].length > longest ? call.lists[i].length : longest;
        lend(&call, BLOCKS, END, AS_MADE, &lent);
        export->run(&call, lent.at, &answer);
        take_back(&call, &lent);
    }
}

// A list moves to where 2^32 entries more have room.
static void make_giant(struct lent *lent, size_t i)
{
    struct list *list = &call.lists[i];
    size_t bytes = (own[i] + MORE) * list->width;
    mapped[i] = mmap(NULL, bytes, PROT_READ | PROT_WRITE, MAP_PRIVATE | MAP_ANONYMOUS | MAP_NORESERVE, -1, 0);
    if (mapped[i] == MAP_FAILED) {
        printf("NOT RUN: the system does not promise %zu bytes\n", bytes);
        exit(0);
    }
    memcpy(mapped[i], list->content, own[i] * list->width);
    memset((unsigned char *)mapped[i] + own[i] * list->width, SET, BEYOND);
    memset(list->content + own[i] * list->width, SET, BEYOND);
    lent->at[i] = mapped[i];
    lent->list[i] = mapped[i];
    list->length = own[i] + MORE;
}

static void found(const char *what, const char *giant)
{
    printf("FOUND: %s, with %s of 2^32 entries more: %s\n", call.export->name, giant, what);
    exit(1);
}

// The lists' own entries are checked as ever, and what is just past them.
static void check_giant(const struct lent *lent, const struct answer *answer, const char *giant)
{
    const char *wrong = call.export->judge(&call, answer);
    if (wrong != NULL)
        found(wrong, giant);
    for (size_t i = 0; i < call.count; i++) {
        const unsigned char *past = lent->list[i] + own[i] * call.lists[i].width;
        for (size_t k = 0; mapped[i] != NULL && call.lists[i].role != WORK && k < BEYOND; k++)
            if (past[k] != SET)
                found("changed past its own entries", call.lists[i].name);
        call.lists[i].length = own[i];
    }
    if (changed_list(&call, lent, answer->number != 0) < call.all)
        found("a list is changed where it was not to be", giant);
}

// The call with one list, or with all of that one's record kind from it on, made giant. Answers the number.
static unsigned run_giant(const struct export *export, size_t first, bool kind)
{
    struct lent lent;
    struct answer answer;
    make_small(export);
    lend(&call, BLOCKS, END, AS_MADE, &lent);
    for (size_t i = 0; i < call.count; i++) {
        own[i] = call.lists[i].length;
        mapped[i] = NULL;
    }
    for (size_t i = first; i < call.count; i++)
        if (i == first || (kind && call.lists[i].role == READ && call.lists[i].of == call.lists[first].of))
            make_giant(&lent, i);
    lend_structs(&call, &lent);
    export->run(&call, lent.at, &answer);
    check_giant(&lent, &answer, call.lists[first].name);
    for (size_t i = 0; i < call.count; i++)
        if (mapped[i] != NULL)
            munmap(mapped[i], (own[i] + MORE) * call.lists[i].width);
    take_back(&call, &lent);
    return answer.number;
}

int main(void)
{
    size_t accepted = 0, refused = 0;
    for (size_t e = 0; e < EXPORTS; e++)
        for (size_t i = 0; i < exports[e].all && exports[e].lists[i].rows == 0; i++) {
            bool kind = exports[e].lists[i].role == READ && !(exports[e].possible >> UNNUMBERED & 1);
            for (int all = 0; all <= kind; all++)
                *(run_giant(&exports[e], i, all) == 0 ? &accepted : &refused) += 1;
        }
    printf("lists of 2^32 entries more: %zu calls accepted, %zu refused\nnothing found\n", accepted, refused);
    return 0;
}
