// How much stack each export takes at the limits of a scene and of a trace.
//
//     stack [KIB]
//
// Each export is called in a thread with a painted stack on the deepest inputs and on random ones; the bytes that
// lost their paint are counted. Then the smallest stack of a power of two KiB is searched in which a thread comes
// through the deep inputs and through that which used most. Exits with 1 where an export needs more than so many KiB,
// by default 256.
#define _GNU_SOURCE
#include "exports.h"
#include "lend.h"
#include "lists.h"

#include <pthread.h>
#include <stdio.h>
#include <stdlib.h>
#include <string.h>
#include <sys/mman.h>
#include <sys/wait.h>
#include <unistd.h>

#define KIB ((size_t)1024)
#define PAINTED (1024 * KIB)
#define GUARD (16384 * KIB) // more than any frame, so that none steps over it
#define PAINT 0xA7
#define RANDOM_CALLS 200

#define COMPONENTS SIZHBANTO_MAX_COMPONENTS
#define CONNECTIONS SIZHBANTO_MAX_CONNECTIONS
#define EVENTS SIZHBANTO_MAX_EVENTS
#define CONTRACTS SIZHBANTO_MAX_CONTRACTS

enum shape { CHAIN, RING, BACKWARD, TWO_WAY, SHAPES };
static const char *const shapes[SHAPES] = {"chain", "ring", "backward chain", "two-way chain"};

// Edge j of as many as there are, more than nodes: the shape again and again.
static size_t source_of(enum shape shape, size_t j)
{
    size_t turn = j / (COMPONENTS - 1), k = j % (COMPONENTS - 1);
    switch (shape) {
    case RING:
        return j % COMPONENTS;
    case BACKWARD:
        return k + 1;
    case TWO_WAY:
        return turn % 2 ? k + 1 : k;
    default:
        return k;
    }
}

static size_t sink_of(enum shape shape, size_t j)
{
    size_t k = j % (COMPONENTS - 1);
    if (shape == RING)
        return (j + 1) % COMPONENTS;
    return source_of(shape, j) == k ? k + 1 : k;
}

// The ids crowd: then they are sorted, where others are found in a table.
static void deep_scene(struct call *call, enum shape shape)
{
    enum { SCENE(PLACE_FIELD, ) COUNT };
    set_lengths(call, 0, COMPONENTS);
    set_lengths(call, 1, CONNECTIONS);
    for (size_t i = 0; i < COMPONENTS; i++) {
        words_of(call, AT_ids)[i] = crowded_word(i);
        bytes_of(call, AT_kinds)[i] = 10;
        halves_of(call, AT_delays)[i] = 255;
        bytes_of(call, AT_locked)[i] = 0;
        signed_of(call, AT_xs)[i] = signed_of(call, AT_ys)[i] = signed_of(call, AT_zs)[i] = 0;
    }
    for (size_t j = 0; j < CONNECTIONS; j++) {
        words_of(call, AT_sources)[j] = crowded_word(source_of(shape, j));
        words_of(call, AT_sinks)[j] = crowded_word(sink_of(shape, j));
        bytes_of(call, AT_transfers)[j] = 1;
    }
}

static uint64_t component_of(enum shape shape, size_t i)
{
    switch (shape) {
    case CHAIN:
        return 1;
    case RING:
        return i;
    case BACKWARD:
        return EVENTS - i;
    default:
        return i % CONTRACTS;
    }
}

// All events of one component, one for each, or some for each.
static void deep_trace(struct call *call, enum shape shape)
{
    enum { TRACE(PLACE_FIELD, ) COUNT };
    set_lengths(call, 2, EVENTS);
    set_lengths(call, 3, CONTRACTS);
    for (size_t i = 0; i < EVENTS; i++) {
        words_of(call, AT_ticks)[i] = i;
        words_of(call, AT_components)[i] = component_of(shape, i);
        bytes_of(call, AT_powered)[i] = i % 2;
    }
    for (size_t i = 0; i < CONTRACTS; i++) {
        words_of(call, AT_contract_components)[i] = i;
        for (size_t list = AT_contract_intents; list <= AT_contract_units; list++)
            bytes_of(call, list)[i] = list == AT_contract_intents ? i % 4 : 0;
        words_of(call, AT_contract_smallest)[i] = words_of(call, AT_contract_largest)[i] = 1;
    }
}

// Edges over positions; keys, which crowd where they are sorted and else rise, and a row of positions that rise; starts
// and lengths of which the first two lie within.
static void deep_pass(struct call *call, enum shape shape)
{
    for (size_t i = 0; i < call->count; i++) {
        struct list *list = &call->lists[i];
        bool source = strcmp(list->name, "sources") == 0, sink = strcmp(list->name, "sinks") == 0;
        bool edges = source || sink || strcmp(list->name, "next") == 0, keys = call->count == 3 || call->count == 2;
        list->length = keys ? EVENTS : edges ? CONNECTIONS : COMPONENTS;
        memset(list->content, 0, list->length * list->width);
        for (size_t k = 0; list->width == sizeof(size_t) && k < list->length; k++)
            places_of(call, i)[k] = source ? source_of(shape, k) : sink ? sink_of(shape, k) : k;
        bool sorted = strcmp(list->name, "keys") == 0 && call->count == 3;
        for (size_t k = 0; sorted && k < list->length; k++)
            words_of(call, i)[k] = crowded_word(k);
    }
}

static bool has_limits(const struct export *export)
{
    return !(export->possible >> UNNUMBERED & 1);
}

// Input k of an export: a deep one of each shape, then random ones where these have limits.
static size_t inputs_of(const struct export *export)
{
    return SHAPES + (has_limits(export) ? RANDOM_CALLS : 0);
}

static const char *name_of(size_t input)
{
    return input < SHAPES ? shapes[input] : "random";
}

static void make_input(struct call *call, const struct export *export, size_t input)
{
    struct random random = {input};
    enum shape shape = input;
    if (input >= SHAPES) {
        make_call(&random, call, export);
        return;
    }
    begin_call(call, export);
    if (export->make == make_trace || export->make == make_recording)
        deep_trace(call, shape);
    else if (export->possible >> 1 & 1)
        deep_scene(call, shape);
    else
        deep_pass(call, shape);
    if (has_limits(export))
        make_outputs(&random, call);
    call->edge = call->key = 1;
}

struct job {
    const struct call *call;
    struct lent *lent;
    struct answer answer;
};

static void *do_job(void *data)
{
    struct job *job = data;
    if (job->call != NULL)
        job->call->export->run(job->call, job->lent->at, &job->answer);
    return NULL;
}

static unsigned char *new_stack(size_t size)
{
    unsigned char *mapped = mmap(NULL, GUARD + size, PROT_NONE, MAP_PRIVATE | MAP_ANONYMOUS | MAP_NORESERVE, -1, 0);
    if (mapped == MAP_FAILED || mprotect(mapped + GUARD, size, PROT_READ | PROT_WRITE) != 0) {
        perror("mmap");
        exit(2);
    }
    return mapped + GUARD;
}

static void run_in_thread(struct job *job, unsigned char *stack, size_t size)
{
    pthread_attr_t attributes;
    pthread_t thread;
    if (pthread_attr_init(&attributes) != 0 || pthread_attr_setstack(&attributes, stack, size) != 0
        || pthread_create(&thread, &attributes, do_job, job) != 0 || pthread_join(thread, NULL) != 0) {
        fputs("no thread\n", stderr);
        exit(2);
    }
    pthread_attr_destroy(&attributes);
}

// Bytes of a painted stack that a call used, the thread's own included; of a thread that does nothing where there is
// no call.
static size_t used_by(const struct call *call, unsigned *number)
{
    static unsigned char *stack;
    struct lent lent;
    struct job job = {.call = call, .lent = &lent};
    size_t clean = 0;
    if (stack == NULL)
        stack = new_stack(PAINTED);
    memset(stack, PAINT, PAINTED);
    if (call != NULL)
        lend(call, BLOCKS, END, AS_MADE, &lent);
    run_in_thread(&job, stack, PAINTED);
    while (clean < PAINTED && stack[clean] == PAINT)
        clean++;
    if (call != NULL)
        take_back(call, &lent);
    *number = job.answer.number;
    return PAINTED - clean;
}

// Whether a thread with so much stack comes through the deep inputs, and through that which used most.
static bool fits(const struct export *export, size_t size, size_t deepest)
{
    int status;
    pid_t child = fork();
    if (child == 0) {
        struct call call;
        struct lent lent;
        unsigned char *stack = new_stack(size);
        for (size_t k = 0; k <= SHAPES; k++) {
            make_input(&call, export, k < SHAPES ? k : deepest);
            lend(&call, BLOCKS, END, AS_MADE, &lent);
            run_in_thread(&(struct job){.call = &call, .lent = &lent}, stack, size);
        }
        _exit(0);
    }
    if (child < 0 || waitpid(child, &status, 0) != child || (WIFEXITED(status) && WEXITSTATUS(status) != 0)) {
        perror("fork");
        exit(2);
    }
    return WIFEXITED(status);
}

// The most bytes over all inputs, and which used them; the deep ones all do their work.
static size_t most_used(const struct export *export, size_t *deepest)
{
    struct call call;
    size_t most = 0;
    unsigned number;
    for (size_t k = 0; k < inputs_of(export); k++) {
        make_input(&call, export, k);
        size_t used = used_by(&call, &number);
        if (k < SHAPES && number != 0) {
            printf("%s, %s: refused with %u\n", export->name, name_of(k), number);
            exit(1);
        }
        if (used > most)
            *deepest = k, most = used;
    }
    return most;
}

int main(int count, char **words)
{
    size_t limit = count > 1 ? strtoul(words[1], NULL, 10) : 256;
    unsigned number;
    size_t thread = used_by(NULL, &number);
    bool within = true;
    printf("stack of a thread, without the %zu bytes of one that does nothing\n", thread);
    printf("%-37s%12s%20s%14s\n", "export", "bytes", "of", "KiB suffice");
    for (size_t e = 0; e < EXPORTS; e++) {
        size_t deepest = 0, used = most_used(&exports[e], &deepest), kib = 16; // no thread may have less
        while (kib < 16384 && !fits(&exports[e], kib * KIB, deepest))
            kib *= 2;
        printf("%-37s%12zu%20s%14zu\n", exports[e].name, used - thread, name_of(deepest), kib);
        within = within && kib <= limit;
    }
    if (!within)
        printf("TOO DEEP for %zu KiB\n", limit);
    return within ? 0 : 1;
}
