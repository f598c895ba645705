// Random scenes, for the four exports that take one: shapes that are accepted, then damage.
#include "exports.h"
#include "lists.h"

enum { SCENE(PLACE_FIELD, ) AT_room };

enum shape { ANY, FORWARD, CHAIN, RING, TWO_WAY, HUB, SELF, LADDER, PARALLEL, SMALL_RINGS, MIXED, SHAPES };

struct edge {
    size_t source, sink;
};

// The edge of number j among nodes 0 to n - 1.
static struct edge edge_of(struct random *random, enum shape shape, size_t j, size_t n)
{
    size_t a = below(random, n), b = below(random, n), last = n - 1, step = j / 2 % n;
    struct edge any = {a, b}, forward = {a < b ? a : b, a < b ? b : a};
    switch (shape) {
    case FORWARD:
        return forward;
    case CHAIN:
        return j < last ? (struct edge){j, j + 1} : forward;
    case RING:
        return (struct edge){j % n, (j + 1) % n};
    case TWO_WAY:
        return step == last ? any : (struct edge){step + j % 2, step + 1 - j % 2};
    case HUB:
        return j % 2 ? (struct edge){0, a} : (struct edge){a, 0};
    case SELF:
        return (struct edge){a, a};
    case LADDER:
        return step + 2 > last ? forward : (struct edge){step, step + 1 + j % 2};
    case PARALLEL:
        return (struct edge){0, last};
    case SMALL_RINGS:
        return j % 3 == 2 && j % n >= 2 ? (struct edge){j % n, j % n - 2} : (struct edge){j % n, (j + 1) % n};
    case MIXED:
        return edge_of(random, below(random, MIXED), j, n);
    default:
        return any;
    }
}

// The library takes the upper bits of an id times 0x9E3779B97F4A7C15 for its first slot: of numbers in a row times the
// inverse of that, modulo 2^64, these bits are the same.
#define SPREAD_INVERSE 0xF1DE83E19937733Du

static uint64_t id_of(uint64_t form, uint64_t base, size_t place)
{
    switch (form) {
    case 0:
        return place + 1;
    case 1:
        return UINT64_MAX - place;
    case 2: // all of one first slot in the library's table of ids
        return (base % 1000 + place) * SPREAD_INVERSE;
    case 3: // or another
        return (base + place) * SPREAD_INVERSE;
    case 4:
        return (base << 9) + place;
    case 5:
        return crowded_word(place);
    default: // an odd factor: no two are equal
        return base + place * 0x9E3779B97F4A7C15u;
    }
}

static void make_ids(struct random *random, struct call *call, size_t n)
{
    static size_t places[MOST_ENTRIES];
    uint64_t form = below(random, 7), base = any_word(random);
    bool ordered = one_in(random, 3);
    shuffled(random, places, n);
    for (size_t i = 0; i < n; i++)
        words_of(call, AT_ids)[i] = id_of(form, base, ordered ? i : places[i]);
}

static void make_components(struct random *random, struct call *call, size_t n)
{
    static const uint8_t compressed[] = {8, 0, 1, 10, 10, 8, 6, 9};
    uint64_t form = below(random, 4);
    uint8_t one = (uint8_t)below(random, 13);
    bool diagonal = one_in(random, 8); // one list will do for xs, ys and zs
    make_ids(random, call, n);
    for (size_t i = 0; i < n; i++) {
        uint8_t any = (uint8_t)below(random, 13);
        uint8_t kind = form == 0 ? one : form == 1 ? any : compressed[below(random, form == 2 ? 7 : 8)];
        bytes_of(call, AT_kinds)[i] = kind;
        halves_of(call, AT_delays)[i] = (uint16_t)(one_in(random, 3) ? 256 - below(random, 2) : below(random, 257));
        bytes_of(call, AT_locked)[i] = one_in(random, 6);
        signed_of(call, AT_xs)[i] = (int32_t)(uint32_t)odd_word(random);
        signed_of(call, AT_ys)[i] = diagonal ? signed_of(call, AT_xs)[i] : (int32_t)(uint32_t)odd_word(random);
        signed_of(call, AT_zs)[i] = diagonal ? signed_of(call, AT_xs)[i] : (int32_t)(uint32_t)odd_word(random);
    }
}

static void make_connections(struct random *random, struct call *call, size_t n, size_t m, enum shape shape)
{
    const uint64_t *ids = words_of(call, AT_ids);
    uint64_t supports = below(random, 3) ? 1000 : 4;
    for (size_t j = 0; j < m; j++) {
        struct edge edge = {0, 0};
        bool support = n == 0 || one_in(random, supports);
        if (n > 0)
            edge = edge_of(random, shape, j, n);
        words_of(call, AT_sources)[j] = support ? odd_word(random) : ids[edge.source];
        words_of(call, AT_sinks)[j] = support ? odd_word(random) : ids[edge.sink];
        bytes_of(call, AT_transfers)[j] = support ? 6 : (uint8_t)below(random, 6);
    }
}

static size_t connections_for(struct random *random, size_t n, enum shape shape)
{
    size_t limit = SIZHBANTO_MAX_CONNECTIONS, most = 4 * n < limit ? 4 * n : limit, once = n < limit ? n : limit;
    switch (below(random, 8)) {
    case 0:
        return some_length(random, limit);
    case 1:
        return most;
    case 2:
    case 3:
        return below(random, most + 1);
    default:
        return shape == CHAIN && once > 0 ? once - 1 : once;
    }
}

static void damage_component(struct random *random, struct call *call, size_t n)
{
    size_t i = below(random, n);
    switch (below(random, 4)) {
    case 0:
        bytes_of(call, AT_kinds)[i] = (uint8_t)(one_in(random, 2) ? 13 : any_word(random));
        break;
    case 1:
        halves_of(call, AT_delays)[i] = (uint16_t)(one_in(random, 2) ? 257 : any_word(random));
        break;
    case 2:
        bytes_of(call, AT_locked)[i] = (uint8_t)(one_in(random, 2) ? 2 : any_word(random));
        break;
    default:
        words_of(call, AT_ids)[i] = words_of(call, AT_ids)[below(random, n)];
    }
}

static void damage_connection(struct random *random, struct call *call, size_t m)
{
    size_t j = below(random, m);
    switch (below(random, 3)) {
    case 0:
        bytes_of(call, AT_transfers)[j] = (uint8_t)(one_in(random, 2) ? 7 : any_word(random));
        break;
    case 1:
        words_of(call, AT_sources)[j] = odd_word(random);
        break;
    default:
        words_of(call, AT_sinks)[j] = words_of(call, AT_sinks)[below(random, m)] + 1;
    }
}

static void damage_scene(struct random *random, struct call *call)
{
    size_t n = length_of(call, 0), m = length_of(call, 1);
    uint64_t choice = below(random, 6);
    if (choice < 2 && n > 0)
        damage_component(random, call, n);
    else if (choice < 4 && m > 0)
        damage_connection(random, call, m);
    else
        spoil_length(random, call, choice == 4);
}

void make_scene(struct random *random, struct call *call)
{
    size_t n = some_length(random, SIZHBANTO_MAX_COMPONENTS);
    enum shape shape = below(random, SHAPES);
    size_t m = connections_for(random, n, shape);
    set_lengths(call, 0, n);
    set_lengths(call, 1, m);
    make_components(random, call, n);
    make_connections(random, call, n, m, shape);
    make_outputs(random, call);
    if (one_in(random, 6))
        shorten_output(random, call);
    for (uint64_t k = one_in(random, 3) ? 1 + below(random, 3) : 0; k > 0; k--)
        damage_scene(random, call);
}

// The room is told in a list of its own, from list `first` on.
void make_check(struct random *random, struct call *call)
{
    static const size_t past = 3;
    struct list *room = &call->lists[AT_room];
    room->length = 0;
    make_scene(random, call);
    call->first = one_in(random, 6) ? odd_word(random) : below(random, 10);
    room->length = one_in(random, 20) ? some_length(random, SIZHBANTO_MAX_COMPONENTS) : below(random, 9 + past);
    for (size_t k = 0; k < room->length; k++) {
        size_t need = need_of(call, call->first > 8 ? 9 + past : (unsigned)(call->first + k));
        size_t least = one_in(random, 30) && need > 0 ? need - 1 : need;
        places_of(call, AT_room)[k] = one_in(random, 4) ? SIZE_MAX - below(random, 2) : least;
    }
}
