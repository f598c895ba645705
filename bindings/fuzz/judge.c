// What must hold of an answer by itself, and which entries it says were written.
#include "exports.h"
#include "lists.h"
#include "refusals.h"

// Notes the entries of the list of this number; whether there can be so many.
static bool wrote(struct call *call, unsigned list, uint64_t from, uint64_t used, uint64_t most)
{
    for (size_t i = 0; i < call->count; i++)
        if (call->lists[i].role == WRITE && call->lists[i].of == list) {
            call->lists[i].from = from;
            call->lists[i].used = used;
        }
    return used <= most;
}

static const char *unless(bool right, const char *wrong)
{
    return right ? NULL : wrong;
}

// Of a refusal: its condition holds, none comes before it, and the numbers after it are 0, so many of them.
static const char *judge_refusal(const struct call *call, const struct answer *answer, size_t zeros)
{
    for (size_t k = 0; k < zeros; k++)
        if (answer->numbers[k] != 0)
            return "a refusal with a count that is not 0";
    struct refusal first = first_refusal(call);
    if (first.number != 0 && (first.number != answer->number || first.place != answer->place))
        return "a refusal, and another comes before it";
    bool holds = refusal_holds(call, answer->number, answer->place);
    return unless(holds, "a refusal whose condition does not hold at its place");
}

static const char *judge_acceptance(const struct call *call, const struct answer *answer, bool right)
{
    if (answer->place != 0)
        return "accepted with a place";
    if (first_refusal(call).number != 0)
        return "accepted, and a refusal's condition holds";
    return unless(right, "accepted with a count that cannot be");
}

const char *judge_check(struct call *call, const struct answer *answer)
{
    return answer->number ? judge_refusal(call, answer, 0) : judge_acceptance(call, answer, true);
}

const char *judge_feedback(struct call *call, const struct answer *answer)
{
    if (answer->number)
        return judge_refusal(call, answer, answer->count);
    bool room = wrote(call, 4, 0, answer->numbers[0], length_of(call, 0));
    return judge_acceptance(call, answer, room && answer->numbers[1] == (answer->numbers[0] > 0));
}

static bool wrote_description(struct call *call, const uint64_t *counts)
{
    size_t n = length_of(call, 0), m = length_of(call, 1);
    bool edges = wrote(call, 0, 0, counts[0], m), devices = wrote(call, 1, 0, counts[1], n);
    bool evidence = wrote(call, 2, 0, counts[2], m + n);
    return edges && devices && evidence && counts[2] == m + counts[1];
}

const char *judge_describe(struct call *call, const struct answer *answer)
{
    if (answer->number)
        return judge_refusal(call, answer, answer->count);
    return judge_acceptance(call, answer, wrote_description(call, answer->numbers));
}

static bool wrote_assessment(struct call *call, const uint64_t *counts)
{
    enum { SCOPE, PATTERN, CONFIDENCE, REASONS, FEEDBACK, RETAINED, COMPRESSED, PROJECTED, PATH_IDS };
    size_t n = length_of(call, 0), m = length_of(call, 1);
    bool reasons = wrote(call, 3, 0, counts[REASONS], 2 * n + 1), feedback = wrote(call, 4, 0, counts[FEEDBACK], n);
    bool marks = wrote(call, 5, 0, n, n) && counts[RETAINED] <= n && counts[RETAINED] + counts[COMPRESSED] == n;
    bool projected = wrote(call, 6, 0, counts[PROJECTED], m), paths = wrote(call, 7, 0, counts[PATH_IDS], 2 * m + n);
    bool labels = wrote(call, 8, 0, n, n);
    bool codes = counts[SCOPE] <= 2 && counts[PATTERN] <= 3 && counts[CONFIDENCE] == 100;
    return reasons && feedback && marks && projected && paths && labels && codes;
}

const char *judge_assess(struct call *call, const struct answer *answer)
{
    if (answer->number)
        return judge_refusal(call, answer, answer->count);
    return judge_acceptance(call, answer, wrote_assessment(call, answer->numbers));
}

const char *judge_analyze(struct call *call, const struct answer *answer)
{
    if (answer->number)
        return judge_refusal(call, answer, answer->count);
    bool described = wrote_description(call, answer->numbers);
    return judge_acceptance(call, answer, wrote_assessment(call, answer->numbers + 3) && described);
}

static uint64_t sum_of_five(const uint64_t *tallies)
{
    return tallies[0] + tallies[1] + tallies[2] + tallies[3] + tallies[4];
}

const char *judge_trace(struct call *call, const struct answer *answer)
{
    enum { FINDINGS, CONTRACTS_APPLIED, TALLIES };
    const uint64_t *counts = answer->numbers;
    if (answer->number)
        return judge_refusal(call, answer, answer->count);
    bool findings = wrote(call, 9, 0, counts[FINDINGS], length_of(call, 2));
    bool tallies = sum_of_five(&counts[TALLIES]) == counts[FINDINGS];
    bool contracts = counts[CONTRACTS_APPLIED] == length_of(call, 3);
    return judge_acceptance(call, answer, findings && tallies && contracts);
}

const char *judge_recording(struct call *call, const struct answer *answer)
{
    enum { FINDINGS, CONTRACTS_APPLIED, HELD_TRACES, HELD_FINDINGS, HELD_TALLIES };
    const uint64_t *counts = answer->numbers, found = counts[FINDINGS];
    const SizhbantoTransientRecord *held = &call->held;
    bool kept = counts[HELD_TRACES] == held->traces && counts[HELD_FINDINGS] == held->findings;
    for (size_t k = 0; k < 5; k++)
        kept = kept && counts[HELD_TALLIES + k] == held->tallies[k];
    if (answer->number)
        return kept ? judge_refusal(call, answer, HELD_TRACES) : "a refusal that changes the record";
    bool findings = wrote(call, 9, held->findings, found, length_of(call, 2));
    bool grown = counts[HELD_TRACES] == held->traces + 1 && counts[HELD_FINDINGS] == held->findings + found;
    bool tallies = sum_of_five(&counts[HELD_TALLIES]) == counts[HELD_FINDINGS];
    bool contracts = counts[CONTRACTS_APPLIED] == length_of(call, 3);
    return judge_acceptance(call, answer, findings && grown && tallies && contracts);
}

// The edge's start and length, if they lie within list 7.
const char *judge_path(struct call *call, const struct answer *answer)
{
    PLACES(PROJECTED_PATH);
    size_t ids = call->lists[AT_paths].length, edge = call->edge, start = 0, length = 0;
    if (edge < call->lists[AT_starts].length && edge < call->lists[AT_lengths].length) {
        start = places_of(call, AT_starts)[edge];
        length = places_of(call, AT_lengths)[edge];
    }
    if (start > ids || length > ids - start)
        start = length = 0;
    return unless(answer->numbers[0] == start && answer->numbers[1] == length, "a path that is not the edge's");
}

const char *judge_sort(struct call *call, const struct answer *answer)
{
    PLACES(SORT_POSITIONS);
    size_t n = call->lists[AT_keys].length;
    bool fits = n <= call->lists[AT_order].length && n <= call->lists[AT_scratch].length;
    call->lists[AT_order].used = answer->number ? 0 : n;
    return unless(fits == !answer->number, "wrong about whether there is room");
}

// Whether the positions are those of all keys, by rising key and then by rising position.
static bool ordered(struct call *call, size_t keys, size_t order)
{
    const uint64_t *key = words_of(call, keys);
    const size_t *position = places_of(call, order);
    size_t n = call->lists[keys].length;
    if (call->lists[order].length != n)
        return false;
    for (size_t k = 0; k < n; k++)
        if (position[k] >= n || (k > 0 && key[position[k - 1]] > key[position[k]])
            || (k > 0 && key[position[k - 1]] == key[position[k]] && position[k - 1] >= position[k]))
            return false;
    return true;
}

const char *judge_find(struct call *call, const struct answer *answer)
{
    PLACES(FIND_POSITION);
    const uint64_t *keys = words_of(call, AT_keys);
    size_t position = answer->numbers[0], n = call->lists[AT_keys].length, first = 0;
    if (answer->number && position != 0)
        return "a position of a key that was not found";
    if (!answer->number && !(position < n && keys[position] == call->key))
        return "a position that does not have the key";
    if (!ordered(call, AT_keys, AT_order))
        return NULL;
    while (first < n && keys[first] != call->key)
        first++;
    return unless(answer->number ? first == n : first == position, "another position than the key's first");
}

// Every entry is a node, one of the numbers below n.
static bool nodes(struct call *call, size_t list, size_t n)
{
    for (size_t i = 0; i < call->lists[list].length; i++)
        if (places_of(call, list)[i] >= n)
            return false;
    return true;
}

// The lists from one place to another have so many entries at least.
static bool room(const struct call *call, size_t first, size_t last, size_t need)
{
    for (size_t i = first; i <= last; i++)
        if (call->lists[i].length < need)
            return false;
    return true;
}

const char *judge_marking(struct call *call, const struct answer *answer)
{
    PLACES(MARK_SHARED_COMPONENTS);
    size_t n = call->lists[AT_marks].length, m = call->lists[AT_sources].length;
    bool lengths = call->lists[AT_sinks].length == m && room(call, AT_head, AT_head, n)
        && room(call, AT_next, AT_next, m) && room(call, AT_order, AT_group, n);
    bool fits = lengths && nodes(call, AT_sources, n) && nodes(call, AT_sinks, n);
    call->lists[AT_marks].used = answer->number ? 0 : n;
    return unless(fits == !answer->number, "wrong about whether the lists fit");
}

const char *judge_reconvergence(struct call *call, const struct answer *answer)
{
    PLACES(RECONVERGENT_DELAY_REASONS);
    size_t n = call->lists[AT_low].length, m = call->lists[AT_sources].length, listed = call->lists[AT_order].length;
    size_t unequal = answer->numbers[0];
    bool lengths = call->lists[AT_sinks].length == m && call->lists[AT_high].length == n
        && room(call, AT_settled, AT_largest, n) && room(call, AT_unequal, AT_unequal, listed)
        && room(call, AT_head, AT_head, n) && room(call, AT_next, AT_next, m) && room(call, AT_incoming, AT_queue, n);
    bool fits = lengths && nodes(call, AT_sources, n) && nodes(call, AT_sinks, n) && nodes(call, AT_order, n);
    if (fits != !answer->number)
        return "wrong about whether the lists fit";
    for (size_t i = AT_settled; i <= AT_unequal; i++)
        call->lists[i].used = !fits ? 0 : i == AT_unequal ? unequal : n;
    return unless(unequal <= (fits ? listed : 0), "a count that cannot be");
}
