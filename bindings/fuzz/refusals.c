#include "refusals.h"

#include "exports.h"
#include "lists.h"

enum { SCENE(PLACE_FIELD, ) AT_room };
enum { TRACE(PLACE_FIELD, ) TRACE_END };

// An entry as a number without sign.
static uint64_t entry(const struct call *call, size_t list, size_t place)
{
    const unsigned char *content = call->lists[list].content;
    switch (call->lists[list].width) {
    case 1:
        return content[place];
    case 2:
        return ((const uint16_t *)(const void *)content)[place];
    case 4:
        return ((const uint32_t *)(const void *)content)[place];
    default:
        return ((const uint64_t *)(const void *)content)[place];
    }
}

static bool among(const struct call *call, uint64_t id, size_t count)
{
    for (size_t i = 0; i < count; i++)
        if (entry(call, AT_ids, i) == id)
            return true;
    return false;
}

static bool component_out_of_range(const struct call *call, size_t i)
{
    return entry(call, AT_kinds, i) > 12 || entry(call, AT_delays, i) > 256 || entry(call, AT_locked, i) > 1;
}

static bool end_missing(const struct call *call, size_t j)
{
    size_t n = length_of(call, 0);
    return entry(call, AT_transfers, j) != 6
        && !(among(call, entry(call, AT_sources, j), n) && among(call, entry(call, AT_sinks, j), n));
}

static bool too_short(const struct call *call, uint64_t number)
{
    if (number > 9)
        return false;
    if (call->lists[AT_room].of == 4 && call->lists[AT_room].role == READ) // sizhbanto_check_scene
        return number >= call->first && number < 9 && number - call->first < call->lists[AT_room].length
            && entry(call, AT_room, number - call->first) < need_of(call, (unsigned)number);
    for (size_t i = 0; i < call->count; i++) {
        const struct list *list = &call->lists[i];
        if (list->role == WRITE && list->of == number && list->length < need_of(call, list->of))
            return true;
    }
    return false;
}

static bool lengths_differ(const struct call *call, uint64_t of)
{
    if (of > 3)
        return false;
    for (size_t i = 0; i < call->count; i++) {
        const struct list *list = &call->lists[i];
        if (list->role == READ && list->of == of && list->length != length_of(call, list->of))
            return true;
    }
    return false;
}

// Fields that an intent does not use are passed over.
static bool contract_out_of_range(const struct call *call, size_t i)
{
    uint64_t intent = entry(call, AT_contract_intents, i);
    if (intent == 1)
        return entry(call, AT_contract_powered, i) > 1;
    if (intent > 1 && intent < 4)
        return entry(call, AT_contract_polarities, i) > 1 || entry(call, AT_contract_units, i) > 1;
    return intent > 3;
}

static bool trace_out_of_range(const struct call *call, uint64_t place)
{
    return (place == 0 && call->unit > 1)
        || (place < length_of(call, 2) && entry(call, AT_powered, place) > 1)
        || (place < length_of(call, 3) && contract_out_of_range(call, place));
}

static bool record_false(const SizhbantoTransientRecord *held)
{
    uint64_t left = held->findings;
    for (size_t k = 0; k < 5; k++) {
        if (held->tallies[k] > left)
            return true;
        left -= held->tallies[k];
    }
    // 4,096 times the traces could wrap
    uint64_t whole = held->findings / 4096, rest = held->findings % 4096;
    return left != 0 || whole > held->traces || (whole == held->traces && rest > 0);
}

bool refusal_holds(const struct call *call, unsigned number, uint64_t place)
{
    size_t n = length_of(call, 0), m = length_of(call, 1);
    size_t events = length_of(call, 2), contracts = length_of(call, 3);
    switch (number) {
    case 1:
        return n > SIZHBANTO_MAX_COMPONENTS && place == n;
    case 2:
        return m > SIZHBANTO_MAX_CONNECTIONS && place == m;
    case 3:
        return place < n && among(call, entry(call, AT_ids, place), place);
    case 4:
        return place < n && component_out_of_range(call, place);
    case 5:
        return place < m && entry(call, AT_transfers, place) > 6;
    case 6:
        return place < m && end_missing(call, place);
    case 7:
        return too_short(call, place);
    case 8:
        return lengths_differ(call, place);
    case 9:
        return events > SIZHBANTO_MAX_EVENTS && place == events;
    case 10:
        return contracts > SIZHBANTO_MAX_CONTRACTS && place == contracts;
    case 11:
        return trace_out_of_range(call, place);
    case 12:
        return place > 0 && place < contracts
            && entry(call, AT_contract_components, place) <= entry(call, AT_contract_components, place - 1);
    case 13:
        return place == 0 && call->held.traces >= SIZHBANTO_MAX_TRACES;
    case 15:
        return place == 0 && record_false(&call->held);
    default:
        return false;
    }
}

// Those of lengths and of the record, in the order of a call's steps.
static struct refusal first_of_sizes(const struct call *call)
{
    static const unsigned numbers[] = {15, 13, 8, 1, 2, 9, 10, 7};
    for (size_t k = 0; k < sizeof numbers / sizeof *numbers; k++) {
        if (!(call->export->possible >> numbers[k] & 1))
            continue;
        for (uint64_t place = 0; place < 10; place++)
            if (refusal_holds(call, numbers[k], place))
                return (struct refusal){numbers[k], place};
        for (unsigned of = 0; of < 4; of++)
            if (refusal_holds(call, numbers[k], length_of(call, of)))
                return (struct refusal){numbers[k], length_of(call, of)};
    }
    return (struct refusal){0, 0};
}

// Component by component, then connection by connection.
static struct refusal first_of_scene(const struct call *call)
{
    size_t n = length_of(call, 0), m = length_of(call, 1);
    static const unsigned components[] = {4, 3}, connections[] = {5, 6};
    for (size_t i = 0; i < 2 * n; i++)
        if (refusal_holds(call, components[i % 2], i / 2))
            return (struct refusal){components[i % 2], i / 2};
    for (size_t j = 0; j < 2 * m; j++)
        if (refusal_holds(call, connections[j % 2], j / 2))
            return (struct refusal){connections[j % 2], j / 2};
    return (struct refusal){0, 0};
}

// The unit, event by event, then contract by contract.
static struct refusal first_of_trace(const struct call *call)
{
    size_t events = length_of(call, 2), contracts = length_of(call, 3);
    if (call->unit > 1)
        return (struct refusal){11, 0};
    for (size_t i = 0; i < events; i++)
        if (entry(call, AT_powered, i) > 1)
            return (struct refusal){11, i};
    for (size_t i = 0; i < contracts; i++) {
        if (contract_out_of_range(call, i))
            return (struct refusal){11, i};
        if (refusal_holds(call, 12, i))
            return (struct refusal){12, i};
    }
    return (struct refusal){0, 0};
}

struct refusal first_refusal(const struct call *call)
{
    struct refusal first = first_of_sizes(call);
    size_t longest = 0;
    for (size_t i = 0; i < call->count; i++)
        if (call->lists[i].role == READ && call->lists[i].length > longest)
            longest = call->lists[i].length;
    if (first.number != 0 || longest > 64)
        return first;
    if (call->export->possible >> 3 & 1)
        return first_of_scene(call);
    return call->export->possible >> 11 & 1 ? first_of_trace(call) : first;
}
