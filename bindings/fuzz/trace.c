// Random traces with contracts, and records to append them to.
#include "exports.h"
#include "lists.h"

enum { TRACE(PLACE_FIELD, ) TRACE_END };

#define EVENTS SIZHBANTO_MAX_EVENTS
#define TRACES SIZHBANTO_MAX_TRACES

// The components of the events, rising; contracts name these and others.
struct names {
    size_t count;
    uint64_t gap, base;
};

static struct names make_names(struct random *random)
{
    struct names names = {1 + below(random, one_in(random, 3) ? 600 : 4), 1, 0};
    switch (below(random, 4)) {
    case 0:
        names.base = UINT64_MAX - 600;
        break;
    case 1: // rises past half of the words
        names.gap = (uint64_t)1 << 54;
        break;
    case 2:
        names.base = any_word(random) >> 1;
        break;
    default:
        names.base = 1;
    }
    return names;
}

static uint64_t name_of(const struct names *names, size_t k)
{
    return names->base + names->gap * k;
}

static void make_events(struct random *random, struct call *call, size_t count, const struct names *names)
{
    uint64_t ticks = below(random, 4), tick = one_in(random, 3) ? odd_word(random) : 0;
    bool in_turn = one_in(random, 2), alternate = !one_in(random, 4);
    for (size_t i = 0; i < count; i++) {
        size_t k = in_turn ? i % names->count : below(random, names->count);
        tick += ticks == 0 ? 0 : below(random, 4);
        words_of(call, AT_ticks)[i] = ticks == 3 ? odd_word(random) : tick;
        words_of(call, AT_components)[i] = name_of(names, k);
        bytes_of(call, AT_powered)[i] = (uint8_t)(alternate && in_turn ? i / names->count % 2 : below(random, 2));
    }
}

// The fields that the intent does not use hold anything.
static void make_contracts(struct random *random, struct call *call, size_t count, const struct names *names)
{
    size_t skipped = 0;
    bool exact = one_in(random, 8); // one list will do for both widths
    for (size_t i = 0; i < count; i++) {
        uint8_t intent = (uint8_t)below(random, 4);
        skipped += one_in(random, 5);
        words_of(call, AT_contract_components)[i] = name_of(names, i + skipped);
        bytes_of(call, AT_contract_intents)[i] = intent;
        bytes_of(call, AT_contract_powered)[i] = (uint8_t)(intent == 1 ? below(random, 2) : any_word(random));
        bytes_of(call, AT_contract_polarities)[i] = (uint8_t)(intent > 1 ? below(random, 2) : any_word(random));
        bytes_of(call, AT_contract_units)[i] = (uint8_t)(intent > 1 ? below(random, 2) : any_word(random));
        words_of(call, AT_contract_smallest)[i] = one_in(random, 3) ? odd_word(random) : below(random, 3);
        words_of(call, AT_contract_largest)[i] = exact ? words_of(call, AT_contract_smallest)[i]
            : one_in(random, 3) ? odd_word(random) : below(random, 5);
    }
}

static void damage_event(struct random *random, struct call *call, size_t events)
{
    bytes_of(call, AT_powered)[below(random, events)] = (uint8_t)(2 + below(random, 254));
}

static void damage_contract(struct random *random, struct call *call, size_t contracts)
{
    size_t i = below(random, contracts), code = AT_contract_intents + below(random, 4);
    if (one_in(random, 2))
        words_of(call, AT_contract_components)[i] = one_in(random, 2) ? 0 : odd_word(random);
    else
        bytes_of(call, code)[i] = (uint8_t)any_word(random);
}

static void damage_trace(struct random *random, struct call *call)
{
    size_t events = length_of(call, 2), contracts = length_of(call, 3);
    switch (below(random, 5)) {
    case 0:
        call->unit = (uint8_t)(one_in(random, 2) ? 2 : any_word(random));
        break;
    case 1:
        if (events > 0)
            damage_event(random, call, events);
        break;
    case 2:
        if (contracts > 0)
            damage_contract(random, call, contracts);
        break;
    default:
        spoil_length(random, call, one_in(random, 2));
    }
}

void make_trace(struct random *random, struct call *call)
{
    size_t events = some_length(random, EVENTS), contracts = some_length(random, SIZHBANTO_MAX_CONTRACTS);
    struct names names = make_names(random);
    set_lengths(call, 2, events);
    set_lengths(call, 3, contracts);
    call->unit = (uint8_t)below(random, 2);
    make_events(random, call, events, &names);
    make_contracts(random, call, contracts, &names);
    make_outputs(random, call);
    if (one_in(random, 6))
        shorten_output(random, call);
    for (uint64_t k = one_in(random, 3) ? 1 + below(random, 3) : 0; k > 0; k--)
        damage_trace(random, call);
}

// A record that is true: so many findings, shared out among the tallies.
static void make_true_record(struct random *random, struct call *call)
{
    uint64_t traces = one_in(random, 12) ? TRACES + odd_word(random) % (UINT64_MAX - TRACES) : below(random, TRACES);
    uint64_t most = traces < TRACES ? traces * EVENTS : UINT64_MAX;
    uint64_t findings = one_in(random, 30) ? most : below(random, (most < 200 ? most : 200) + 1), left = findings;
    call->held.traces = traces;
    call->held.findings = findings;
    for (size_t k = 0; k < 4; k++) {
        uint64_t part = left == 0 ? 0 : below(random, left);
        call->held.tallies[k] = part;
        left -= part;
    }
    call->held.tallies[4] = left;
}

// Off by one, too many findings, true only where sums wrap, or any words.
static void damage_record(struct random *random, struct call *call)
{
    size_t k = below(random, 5);
    switch (below(random, 4)) {
    case 0:
        call->held.tallies[k] += one_in(random, 2) ? 1 : UINT64_MAX;
        break;
    case 1:
        call->held.tallies[k] += call->held.traces * EVENTS + 1 - call->held.findings;
        call->held.findings = call->held.traces * EVENTS + 1;
        break;
    case 2:
        call->held.tallies[k] += (uint64_t)1 << 63;
        call->held.tallies[(k + 1) % 5] += (uint64_t)1 << 63;
        break;
    default:
        fill(random, &call->held, sizeof call->held);
    }
}

void make_recording(struct random *random, struct call *call)
{
    make_true_record(random, call);
    make_trace(random, call);
    if (one_in(random, 10))
        damage_record(random, call);
}
