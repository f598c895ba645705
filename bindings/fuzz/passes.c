// Random calls of the passes that have no limit of size, and of the path of a projected edge.
#include "exports.h"
#include "lists.h"

#include <stdlib.h>

// The lists that are written or worked in, each with enough room for what it needs, now and then one too short.
static void make_room(struct random *random, struct call *call, const size_t *needs)
{
    for (size_t i = 0; i < call->count; i++) {
        struct list *list = &call->lists[i];
        if (list->role == READ)
            continue;
        list->length = enough(random, needs[i]);
        fill(random, list->content, list->length * list->width);
    }
    if (one_in(random, 4))
        spoil_length(random, call, true);
}

static size_t keys_length(struct random *random)
{
    return some_length(random, one_in(random, 20) ? 4096 : 300);
}

static void make_keys(struct random *random, uint64_t *keys, size_t count)
{
    uint64_t form = below(random, 5);
    for (size_t i = 0; i < count; i++)
        keys[i] = form == 0   ? i
                  : form == 1 ? count - i
                  : form == 2 ? below(random, 8)
                  : form == 3 ? crowded_word(i)
                              : odd_word(random);
}

void make_sort(struct random *random, struct call *call)
{
    PLACES(SORT_POSITIONS);
    size_t n = keys_length(random);
    const size_t needs[COUNT] = {[AT_order] = n, [AT_scratch] = n};
    call->lists[AT_keys].length = n;
    make_keys(random, words_of(call, AT_keys), n);
    make_room(random, call, needs);
}

static const uint64_t *sorted_keys;

static int by_key(const void *left, const void *right)
{
    size_t i = *(const size_t *)left, j = *(const size_t *)right;
    if (sorted_keys[i] != sorted_keys[j])
        return sorted_keys[i] < sorted_keys[j] ? -1 : 1;
    return i < j ? -1 : i > j;
}

// The ordered positions, or these with any damage.
void make_find(struct random *random, struct call *call)
{
    PLACES(FIND_POSITION);
    size_t n = keys_length(random), *order = places_of(call, AT_order);
    uint64_t damage = below(random, 6);
    call->lists[AT_keys].length = call->lists[AT_order].length = n;
    make_keys(random, words_of(call, AT_keys), n);
    for (size_t i = 0; i < n; i++)
        order[i] = damage == 1 ? odd_word(random) : i;
    sorted_keys = words_of(call, AT_keys);
    if (damage != 1)
        qsort(order, n, sizeof *order, by_key);
    if (damage == 2 && n > 0)
        order[below(random, n)] = n + below(random, 2);
    if (damage == 3)
        spoil_length(random, call, false);
    call->key = n > 0 && !one_in(random, 3) ? words_of(call, AT_keys)[below(random, n)] : odd_word(random);
}

// Starts and lengths within list 7, at its end, past it, and such that their sum wraps.
void make_path(struct random *random, struct call *call)
{
    PLACES(PROJECTED_PATH);
    size_t ids = keys_length(random), edges = some_length(random, 60);
    call->lists[AT_paths].length = ids;
    call->lists[AT_starts].length = call->lists[AT_lengths].length = edges;
    fill(random, words_of(call, AT_paths), ids * sizeof(uint64_t));
    for (size_t k = 0; k < edges; k++) {
        size_t start = one_in(random, 8) ? odd_word(random) : below(random, ids + 1);
        size_t rest = ids - start, length = one_in(random, 2) || start >= ids ? rest : below(random, rest);
        places_of(call, AT_starts)[k] = start;
        places_of(call, AT_lengths)[k] = one_in(random, 8) ? odd_word(random) : length + one_in(random, 8);
    }
    if (one_in(random, 6))
        spoil_length(random, call, false);
    call->edge = one_in(random, 8) ? odd_word(random) : below(random, edges + 1);
}

enum form { RING, CHAIN, FORWARD, ANY, FORMS };

// Edge j among n nodes: both ends, written to the places given.
static void make_edge(struct random *random, enum form form, size_t j, size_t n, size_t *source, size_t *sink)
{
    size_t a = below(random, n), b = below(random, n), node = j % n, next = (j + 1) % n;
    bool swap = form == FORWARD && a > b;
    *source = form == RING || form == CHAIN ? node : swap ? b : a;
    *sink = form == RING ? next : form == CHAIN ? (next == 0 ? node : next) : swap ? a : b;
}

// Ends of m edges, now and then one that is no node. Without nodes there is no edge that fits.
static void make_ends(struct random *random, struct call *call, size_t sources, size_t sinks, size_t n, size_t m)
{
    enum form form = below(random, FORMS);
    for (size_t j = 0; j < m; j++)
        make_edge(random, form, j, n > 0 ? n : 1, &places_of(call, sources)[j], &places_of(call, sinks)[j]);
    call->lists[sources].length = call->lists[sinks].length = m;
    if (one_in(random, 8) && m > 0) {
        size_t *ends = places_of(call, one_in(random, 2) ? sources : sinks);
        ends[below(random, m)] = one_in(random, 2) ? n : odd_word(random);
    }
    if (one_in(random, 12))
        spoil_length(random, call, false);
}

static size_t nodes_length(struct random *random)
{
    return some_length(random, one_in(random, 30) ? 4096 : 200);
}

static size_t edges_length(struct random *random, size_t n)
{
    size_t most = n < 4096 ? 4 * n : 16384;
    return n == 0 ? below(random, 2) : one_in(random, 4) ? most : below(random, most + 1);
}

void make_marking(struct random *random, struct call *call)
{
    PLACES(MARK_SHARED_COMPONENTS);
    size_t n = nodes_length(random), m = edges_length(random, n);
    const size_t needs[COUNT] = {[AT_head] = n, [AT_next] = m, [AT_order] = n, [AT_group] = n};
    make_ends(random, call, AT_sources, AT_sinks, n, m);
    make_room(random, call, needs);
    if (!one_in(random, 20))
        call->lists[AT_marks].length = n;
    fill(random, call->lists[AT_marks].content, call->lists[AT_marks].length);
}

void make_reconvergence(struct random *random, struct call *call)
{
    PLACES(RECONVERGENT_DELAY_REASONS);
    size_t n = nodes_length(random), m = edges_length(random, n);
    size_t listed = n == 0 ? below(random, 2) : one_in(random, 2) ? n : below(random, n < 4096 ? 2 * n + 1 : 4096);
    const size_t needs[COUNT] = {
        [AT_settled] = n, [AT_smallest] = n, [AT_largest] = n, [AT_unequal] = listed, [AT_head] = n,
        [AT_next] = m, [AT_incoming] = n, [AT_left] = n, [AT_queue] = n,
    };
    bool heavy = one_in(random, 4);
    call->lists[AT_low].length = call->lists[AT_high].length = n;
    call->lists[AT_order].length = listed;
    for (size_t i = 0; i < n; i++) {
        numbers_of(call, AT_low)[i] = (uint32_t)(heavy ? odd_word(random) : below(random, 256));
        numbers_of(call, AT_high)[i] = (uint32_t)(one_in(random, 2) ? numbers_of(call, AT_low)[i] : odd_word(random));
    }
    for (size_t i = 0; i < listed; i++)
        places_of(call, AT_order)[i] = n > 0 && !one_in(random, 5000) ? below(random, n) : odd_word(random);
    make_ends(random, call, AT_sources, AT_sinks, n, m);
    make_room(random, call, needs);
}
