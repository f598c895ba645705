#include "lists.h"

uint8_t *bytes_of(struct call *call, size_t list)
{
    return call->lists[list].content;
}

uint16_t *halves_of(struct call *call, size_t list)
{
    return (uint16_t *)(void *)call->lists[list].content;
}

uint32_t *numbers_of(struct call *call, size_t list)
{
    return (uint32_t *)(void *)call->lists[list].content;
}

int32_t *signed_of(struct call *call, size_t list)
{
    return (int32_t *)(void *)call->lists[list].content;
}

uint64_t *words_of(struct call *call, size_t list)
{
    return (uint64_t *)(void *)call->lists[list].content;
}

size_t *places_of(struct call *call, size_t list)
{
    return (size_t *)(void *)call->lists[list].content;
}

size_t some_length(struct random *random, size_t limit)
{
    uint64_t choice = below(random, 100);
    if (choice < 5)
        return 0;
    if (choice < 12)
        return 1;
    if (choice < 60)
        return below(random, 12);
    if (choice < 80)
        return below(random, 65);
    if (choice < 90)
        return below(random, limit + 1);
    if (choice < 97)
        return limit - below(random, 2);
    if (choice < 99)
        return limit + 1 + below(random, 3);
    return one_in(random, 4) ? 65536 + below(random, 8) : limit + below(random, 2000);
}

size_t enough(struct random *random, size_t need)
{
    uint64_t choice = below(random, 100);
    size_t more = 0;
    if (choice >= 99)
        more = 65536;
    else if (choice >= 95)
        more = below(random, 5000);
    else if (choice >= 70)
        more = below(random, 40);
    else if (choice >= 50)
        more = 1;
    return more < MOST_ENTRIES && need < MOST_ENTRIES - more ? need + more : need;
}

void set_lengths(struct call *call, unsigned of, size_t length)
{
    for (size_t i = 0; i < call->count; i++)
        if (call->lists[i].role == READ && call->lists[i].of == of)
            call->lists[i].length = length;
}

size_t length_of(const struct call *call, unsigned of)
{
    for (size_t i = 0; i < call->count; i++)
        if (call->lists[i].role == READ && call->lists[i].of == of)
            return call->lists[i].length;
    return 0;
}

static size_t findings_need(const struct call *call)
{
    size_t events = length_of(call, 2);
    return call->held.findings > SIZE_MAX - events ? SIZE_MAX : call->held.findings + events;
}

size_t need_of(const struct call *call, unsigned list)
{
    size_t n = length_of(call, 0), m = length_of(call, 1);
    const size_t needs[] = {m, n, m + n, 2 * n + 1, n, n, m, 2 * m + n, n};
    if (list == 9)
        return findings_need(call);
    return list < 9 ? needs[list] : 0;
}

void make_outputs(struct random *random, struct call *call)
{
    for (size_t i = 0; i < call->count; i++) {
        struct list *list = &call->lists[i];
        if (list->role == READ)
            continue;
        size_t need = need_of(call, list->of);
        list->length = need <= MOST_ENTRIES ? enough(random, need) : below(random, 100);
        fill(random, list->content, list->length * list->width);
    }
}

void shorten_output(struct random *random, struct call *call)
{
    struct list *list = &call->lists[below(random, call->count)];
    size_t need = need_of(call, list->of);
    if (list->role == WRITE && need > 0 && list->length >= need)
        list->length = need - 1;
}

void spoil_length(struct random *random, struct call *call, bool written)
{
    struct list *list = &call->lists[below(random, call->count)];
    size_t old = list->length;
    if ((list->role != READ) != written)
        return;
    switch (below(random, 4)) {
    case 0:
        list->length = old > 0 ? old - 1 : 1;
        break;
    case 1:
        list->length = old < MOST_ENTRIES ? old + 1 : 0;
        break;
    case 2:
        list->length = 0;
        break;
    default:
        list->length = some_length(random, 512);
    }
    if (list->length > old)
        fill(random, list->content + old * list->width, (list->length - old) * list->width);
}

void make_wild(struct random *random, struct call *call)
{
    size_t common = below(random, 6);
    for (size_t i = 0; i < call->count; i++) {
        struct list *list = &call->lists[i];
        list->length = one_in(random, 4) ? some_length(random, 512) : common;
        fill(random, list->content, list->length * list->width);
    }
    call->first = odd_word(random);
    call->edge = odd_word(random);
    call->key = odd_word(random);
    call->unit = (uint8_t)any_word(random);
    if (call->export->possible >> 15 & 1) // it takes a record
        fill(random, &call->held, sizeof call->held);
}
