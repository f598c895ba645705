// Random calls of every export. After each call the lists, what is around them and the answer are checked.
//
//     fuzz [--manner pages|zones|blocks] [--only EXPORT] [SEED] [ROUNDS]
//     fuzz --exports      prints each list and struct of each export, and what it is lent for
//
// Round k of a seed, counted from 0, is the first round of seed + k. Exits with 1 at the first finding, with a line
// that says how to replay it.
#define _GNU_SOURCE
#include "check.h"

#include <inttypes.h>
#include <signal.h>
#include <stdio.h>
#include <stdlib.h>
#include <string.h>
#include <unistd.h>

#if defined __has_include
#if __has_include(<valgrind/valgrind.h>)
#include <valgrind/valgrind.h>
#endif
#endif
#ifndef VALGRIND_COUNT_ERRORS
#define VALGRIND_COUNT_ERRORS 0 // then valgrind's own exit status tells at the end, without the round
#endif
#ifdef __SANITIZE_ADDRESS__
#include <sanitizer/common_interface_defs.h>
#endif

#ifndef SECONDS
#define SECONDS 30 // that a round may take
#endif
#define ENOUGH_ROUNDS 20000 // from so many on, everything that can be answered must have been

static const char *const manners[] = {[PAGES] = "pages", [ZONES] = "zones", [BLOCKS] = "blocks"};

// What is going on, for those who are called in the midst of it.
static enum manner manner = PAGES;
static const char *only; // the export that is called, or null: all
static uint64_t seed_now;
static struct call call_now;
static struct lent *lent_now;

// Of an export: answers by number, accepted ones by which of their numbers were above 0, and the longest list that an
// accepted call read.
static struct tally {
    uint64_t numbers[NUMBERS];
    uint64_t above[MOST_NUMBERS];
    size_t longest;
} tallies[EXPORTS];

static void tell_call(void)
{
    printf("%s(", call_now.export->name);
    for (size_t i = 0; i < call_now.count; i++)
        printf("%s%s %zu", i ? ", " : "", call_now.lists[i].name, call_now.lists[i].length);
    printf(")\nto replay: fuzz --manner %s %" PRIu64 " 1\n", manners[manner], seed_now);
    fflush(stdout);
}

static void found(size_t list, const char *what)
{
    if (list < call_now.all)
        printf("FOUND: %s: %s\n", call_now.lists[list].name, what);
    else
        printf("FOUND: %s\n", what);
    tell_call();
    exit(1);
}

static void found_none_or(size_t list, const char *what)
{
    if (list < call_now.all)
        found(list, what);
}

static void on_signal(int signal, siginfo_t *info, void *context)
{
    (void)context;
    if (signal == SIGALRM)
        printf("FOUND: a call that does not come back\n");
    else
        printf("FOUND: signal %d at %p, %s\n", signal, info->si_addr,
            lent_now == NULL ? "outside of a call" : near_list(&call_now, lent_now, info->si_addr));
    tell_call();
    _exit(1);
}

static void watch_signals(void)
{
    static const int signals[] = {SIGSEGV, SIGBUS, SIGILL, SIGFPE, SIGABRT, SIGALRM};
    static char stack[1 << 16];
    stack_t other = {.ss_sp = stack, .ss_size = sizeof stack};
    struct sigaction action = {.sa_sigaction = on_signal, .sa_flags = SA_SIGINFO | SA_ONSTACK};
    sigaltstack(&other, NULL);
    for (size_t k = 0; k < sizeof signals / sizeof *signals; k++)
        sigaction(signals[k], &action, NULL);
#ifdef __SANITIZE_ADDRESS__
    __sanitizer_set_death_callback(tell_call);
#endif
}

// Leaves other bytes where the call will have its frames, so that what it might show of them would differ.
static void __attribute__((noinline)) dirty_stack(int byte)
{
    unsigned char frames[256 * 1024];
    memset(frames, byte, sizeof frames);
    __asm__ volatile("" : : "r"(frames) : "memory");
}

// One call, and what can be said of it alone.
static void lend_and_run(enum side side, enum state state, struct lent *lent, struct answer *answer)
{
    lend(&call_now, manner, side, state, lent);
    lent_now = lent;
    dirty_stack(0x11 * (1 + side + 2 * state));
    call_now.export->run(&call_now, lent->at, answer);
    lent_now = NULL;
    found_none_or(changed_zone(&call_now, lent), "changed beside the list");
    if (answer->number >= NUMBERS || !(call_now.export->possible >> answer->number & 1))
        found(call_now.all, "a number that this call cannot give");
    if (state == AS_MADE && side == END) {
        const char *wrong = call_now.export->judge(&call_now, answer);
        if (wrong != NULL)
            found(call_now.all, wrong);
    }
    found_none_or(changed_list(&call_now, lent, answer->number != 0),
        answer->number ? "changed by a refused call" : "changed where the call was not to write");
    if (answer->number == 0 && state == AS_MADE && side == END) {
        const char *wrong = call_now.export->read(&call_now, lent, answer);
        if (wrong != NULL)
            found(call_now.all, wrong);
    }
}

static void count_answer(size_t export, const struct answer *answer)
{
    struct tally *tally = &tallies[export];
    tally->numbers[answer->number]++;
    if (answer->number != 0)
        return;
    for (size_t k = 0; k < answer->count; k++)
        tally->above[k] += answer->numbers[k] > 0;
    for (size_t i = 0; i < call_now.count; i++)
        if (call_now.lists[i].role == READ && call_now.lists[i].length > tally->longest)
            tally->longest = call_now.lists[i].length;
}

// The same call three times: the second on copies, the third with other values in the lists that it writes or works
// in.
static void play_round(uint64_t seed)
{
    struct random random = {seed};
    struct lent first, second, third;
    struct answer answer, again;
    size_t export = below(&random, EXPORTS);
    unsigned errors = VALGRIND_COUNT_ERRORS;
    if (only != NULL && strcmp(only, exports[export].name) != 0)
        return;
    alarm(SECONDS);
    seed_now = seed;
    make_call(&random, &call_now, &exports[export]);
    lend_and_run(END, AS_MADE, &first, &answer);
    lend_and_run(BEGINNING, AS_MADE, &second, &again);
    if (!same_answer(&answer, &again))
        found(call_now.all, "another answer on copies of the lists");
    found_none_or(unlike_list(&call_now, &first, &second), "other entries on copies of the lists");
    take_back(&call_now, &first);
    lend_and_run(END, TURNED, &third, &again);
    if (!same_answer(&answer, &again))
        found(call_now.all, "an answer that depends on what the lists held that it writes");
    found_none_or(unlike_list(&call_now, &second, &third), "depends on what the lists held that are written");
    if (VALGRIND_COUNT_ERRORS != errors)
        found(call_now.all, "what valgrind says above");
    take_back(&call_now, &second);
    take_back(&call_now, &third);
    count_answer(export, &answer);
}

// A line for each export; whether every number that can be given was.
static bool tell_numbers(void)
{
    bool all = true;
    printf("%-37s%9s%9s%9s%9s  refusals by number\n", "export", "rounds", "accepted", "refused", "longest");
    for (size_t e = 0; e < EXPORTS; e++) {
        const uint64_t *numbers = tallies[e].numbers;
        uint64_t refused = 0;
        for (unsigned k = 1; k < NUMBERS; k++)
            refused += numbers[k];
        printf("%-37s%9" PRIu64 "%9" PRIu64 "%9" PRIu64 "%9zu ", exports[e].name, numbers[0] + refused, numbers[0],
            refused, tallies[e].longest);
        for (unsigned k = 0; k < NUMBERS; k++) {
            all = all && (numbers[k] > 0 || !(exports[e].possible >> k & 1));
            if (k > 0 && k < UNNUMBERED && numbers[k] > 0)
                printf(" %u:%" PRIu64, k, numbers[k]);
        }
        putchar('\n');
    }
    return all;
}

// How many accepted calls answered each number above 0; whether each was seen.
static bool tell_fields(void)
{
    bool all = true;
    for (size_t e = 0; e < EXPORTS; e++) {
        const char *field = exports[e].fields;
        if (*field != '\0')
            printf("%s, accepted with above 0:", exports[e].name);
        for (size_t k = 0; *field != '\0'; k++) {
            int length = (int)strcspn(field, " ");
            printf(" %.*s %" PRIu64, length, field, tallies[e].above[k]);
            all = all && tallies[e].above[k] > 0;
            field += length + 1;
        }
        if (*exports[e].fields != '\0')
            putchar('\n');
    }
    return all;
}

static const char *struct_of(const struct call *call, size_t list)
{
    size_t end = 0;
    for (size_t i = call->count; list < call->count && i < call->all; i++) {
        end += call->lists[i].rows;
        if (list < end)
            return call->lists[i].name;
    }
    return "none";
}

// A line for each list and struct of each export: its name, what it is lent for, its type, and what struct it is in.
static void tell_exports(void)
{
    static const char *const roles[] = {[READ] = "read", [KEEP] = "keep", [WRITE] = "write", [WORK] = "work"};
    for (size_t e = 0; e < EXPORTS; e++) {
        begin_call(&call_now, &exports[e]);
        for (size_t i = 0; i < call_now.all; i++) {
            const struct list *list = &call_now.lists[i];
            printf("%s %s %s %s %s\n", exports[e].name, list->name, roles[list->role], list->type,
                struct_of(&call_now, i));
        }
    }
}

static void stop(void)
{
    fprintf(stderr, "fuzz [--manner pages|zones|blocks] [--only EXPORT] [SEED] [ROUNDS]\n");
    exit(2);
}

static uint64_t number_or_stop(const char *word)
{
    char *end;
    uint64_t number = strtoull(word, &end, 10);
    if (*word < '0' || *word > '9' || *end != '\0')
        stop();
    return number;
}

static void take_option(const char *option, const char *value)
{
    bool known = false;
    for (size_t e = 0; strcmp(option, "--only") == 0 && e < EXPORTS; e++)
        if (strcmp(exports[e].name, value) == 0)
            only = exports[e].name, known = true;
    for (enum manner m = PAGES; strcmp(option, "--manner") == 0 && m <= BLOCKS; m++)
        if (strcmp(manners[m], value) == 0)
            manner = m, known = true;
    if (!known)
        stop();
}

int main(int count, char **words)
{
    int word = 1;
    if (count > 1 && strcmp(words[1], "--exports") == 0) {
        tell_exports();
        return 0;
    }
    for (; word + 1 < count && words[word][0] == '-'; word += 2)
        take_option(words[word], words[word + 1]);
    uint64_t seed = word < count ? number_or_stop(words[word++]) : 1;
    uint64_t rounds = word < count ? number_or_stop(words[word++]) : 100000;
    printf("%s, seed %" PRIu64 ", %" PRIu64 " rounds of three calls\n", manners[manner], seed, rounds);
    fflush(stdout);
    watch_signals();
    prepare_lending(manner);
    for (uint64_t k = 0; k < rounds; k++)
        play_round(seed + k);
    bool numbers = tell_numbers();
    if (only == NULL && rounds >= ENOUGH_ROUNDS && !(tell_fields() && numbers)) {
        printf("TOO FEW: an export never gave a refusal that it can give, or always 0 for a number\n");
        return 1;
    }
    printf("nothing found\n");
    return 0;
}
