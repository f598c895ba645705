// What the lists that an accepted call wrote have wrong: that entries are those of another list, of another entry or of
// another count. What they mean is held against the Rust elsewhere.
#include "exports.h"
#include "lend.h"
#include "lists.h"

enum { SCENE(PLACE_FIELD, ) DESCRIPTION(PLACE_FIELD, ) AFTER_DESCRIPTION };
enum { TRACE(PLACE_FIELD, ) FINDINGS(PLACE_FIELD, ) };

// An entry after the call, as a number without sign.
static uint64_t now(const struct call *call, const struct lent *lent, size_t list, size_t place)
{
    const unsigned char *at = lent->list[list] + place * call->lists[list].width;
    switch (call->lists[list].width) {
    case 1:
        return *at;
    case 2:
        return *(const uint16_t *)(const void *)at;
    case 4:
        return *(const uint32_t *)(const void *)at;
    default:
        return *(const uint64_t *)(const void *)at;
    }
}

#define NOW(list, place) now(call, lent, list, place)

const char *read_nothing(const struct call *call, const struct lent *lent, const struct answer *answer)
{
    (void)call, (void)lent, (void)answer;
    return NULL;
}

// The ids of a list are some of the components', in their order.
static bool ids_in_order(const struct call *call, const struct lent *lent, size_t list, size_t count)
{
    size_t k = 0;
    for (size_t i = 0; i < length_of(call, 0) && k < count; i++)
        k += NOW(AT_ids, i) == NOW(list, k);
    return k == count;
}

const char *read_feedback(const struct call *call, const struct lent *lent, const struct answer *answer)
{
    enum { FEEDBACK_IDS = AT_edge_sources };
    return ids_in_order(call, lent, FEEDBACK_IDS, answer->numbers[0]) ? NULL : "feedback that is not the components'";
}

// Lists 0 and 2 of the connections.
static bool of_connections(const struct call *call, const struct lent *lent, size_t count)
{
    size_t k = 0;
    for (size_t j = 0; j < length_of(call, 1); j++) {
        uint64_t source = NOW(AT_sources, j), sink = NOW(AT_sinks, j);
        bool edge = NOW(AT_transfers, j) != 6;
        if (edge && (k >= count || NOW(AT_edge_sources, k) != source || NOW(AT_edge_sinks, k) != sink))
            return false;
        if (NOW(AT_evidence_kinds, j) != 0 || NOW(AT_evidence_sources, j) != source
            || NOW(AT_evidence_sinks, j) != sink || NOW(AT_evidence_components, j) + NOW(AT_evidence_blocks, j) != 0)
            return false;
        k += edge;
    }
    return k == count;
}

static bool is_device(uint64_t kind)
{
    return kind >= SIZHBANTO_BLOCK_KIND_REDSTONE_TORCH && kind <= SIZHBANTO_BLOCK_KIND_PISTON;
}

// Lists 1 and 2 of a component that is device d.
static bool of_device(const struct call *call, const struct lent *lent, size_t i, size_t d)
{
    static const unsigned semantics[] = {1, 0, 2, 3}, delays[] = {1, 1, 0, 1};
    uint64_t kind = NOW(AT_kinds, i), delay = NOW(AT_delays, i);
    bool own = kind == SIZHBANTO_BLOCK_KIND_REPEATER && delay != SIZHBANTO_ABSENT_DELAY;
    size_t e = length_of(call, 1) + d;
    bool device = NOW(AT_device_components, d) == NOW(AT_ids, i) && NOW(AT_device_xs, d) == NOW(AT_xs, i)
        && NOW(AT_device_ys, d) == NOW(AT_ys, i) && NOW(AT_device_zs, d) == NOW(AT_zs, i)
        && NOW(AT_device_semantics, d) == semantics[kind - 9]
        && NOW(AT_device_delays, d) == (own ? delay : delays[kind - 9]);
    return device && NOW(AT_evidence_kinds, e) == 1 && NOW(AT_evidence_sources, e) == 0
        && NOW(AT_evidence_sinks, e) == 0 && NOW(AT_evidence_components, e) == NOW(AT_ids, i)
        && NOW(AT_evidence_blocks, e) == kind;
}

const char *read_description(const struct call *call, const struct lent *lent, const struct answer *answer)
{
    size_t d = 0;
    if (!of_connections(call, lent, answer->numbers[0]))
        return "edges or evidence that are not the connections'";
    for (size_t i = 0; i < length_of(call, 0); i++)
        if (is_device(NOW(AT_kinds, i)) && (d == answer->numbers[1] || !of_device(call, lent, i, d++)))
            return "devices or evidence that are not the components'";
    return d == answer->numbers[1] ? NULL : "more devices than there are";
}

// Lists 3 to 8 begin at another place in each call: what is below is from there on.
enum { ASSESSMENT(PLACE_FIELD, ) AFTER_ASSESSMENT };
enum { SCOPE, PATTERN, CONFIDENCE, REASONS, FEEDBACK, RETAINED, COMPRESSED, PROJECTED, PATH_IDS };
#define ASSESSED(name, place) now(call, lent, assessed + AT_##name, place)

// A row of list 3 by its kind: which fields it has, and that an unequal delay's sums differ.
static bool reason_possible(const struct call *call, const struct lent *lent, size_t assessed, size_t k, bool feedback)
{
    uint64_t kind = ASSESSED(reason_kinds, k), component = ASSESSED(reason_components, k), block;
    uint64_t minimum = ASSESSED(reason_minimums, k), maximum = ASSESSED(reason_maximums, k);
    bool known = false;
    block = ASSESSED(reason_blocks, k);
    for (size_t i = 0; i < length_of(call, 0); i++)
        known = known || NOW(AT_ids, i) == component;
    if (kind == SIZHBANTO_TIMING_REASON_FEEDBACK)
        return feedback && k == 0 && component + block + minimum + maximum == 0;
    bool stateful = block == SIZHBANTO_BLOCK_KIND_COMPARATOR || block == SIZHBANTO_BLOCK_KIND_PISTON;
    bool blocks = kind == SIZHBANTO_TIMING_REASON_STATEFUL_OR_MECHANICAL_DEVICE ? stateful : block == 0;
    bool sums = kind == SIZHBANTO_TIMING_REASON_UNEQUAL_RECONVERGENT_DELAY ? minimum < maximum : minimum + maximum == 0;
    return kind < 4 && known && blocks && sums && !(feedback && k == 0);
}

// List 5 has so many 1, and 0 else.
static bool marks_counted(const struct call *call, const struct lent *lent, size_t assessed, uint64_t retained)
{
    for (size_t i = 0; i < length_of(call, 0); i++) {
        uint64_t mark = ASSESSED(marks, i);
        if (mark > 1 || mark > retained)
            return false;
        retained -= mark;
    }
    return retained == 0;
}

static bool is_edge(const struct call *call, const struct lent *lent, uint64_t source, uint64_t sink)
{
    for (size_t j = 0; j < length_of(call, 1); j++)
        if (NOW(AT_transfers, j) != 6 && NOW(AT_sources, j) == source && NOW(AT_sinks, j) == sink)
            return true;
    return false;
}

// Lists 6 and 7: paths one after another, from each edge's source to its sink; the first few begin with an edge.
static bool paths_joined(const struct call *call, const struct lent *lent, size_t assessed, size_t edges, size_t ids)
{
    size_t start = 0;
    for (size_t k = 0; k < edges; k++) {
        size_t length = ASSESSED(projected_lengths, k);
        uint64_t source = ASSESSED(projected_sources, k);
        if (ASSESSED(projected_starts, k) != start || length < 2 || length > ids - start)
            return false;
        if (ASSESSED(path_ids, start) != source
            || ASSESSED(path_ids, start + length - 1) != ASSESSED(projected_sinks, k))
            return false;
        bool followed = k >= 4 || is_edge(call, lent, source, ASSESSED(path_ids, start + 1));
        if (!followed || ASSESSED(projected_inverted, k) > 1)
            return false;
        start += length;
    }
    return start == ids;
}

// List 8.
static bool labels_ordered(const struct call *call, const struct lent *lent, size_t assessed)
{
    for (size_t i = 0; i < length_of(call, 0); i++) {
        uint64_t settled = ASSESSED(label_settled, i), low = ASSESSED(label_lows, i), high = ASSESSED(label_highs, i);
        if (settled > 1 || low > high || (settled == 0 && high > 0))
            return false;
    }
    return true;
}

// Scope and pattern by lists 3 and 4 and by whether there is a device.
static bool codes_follow(const struct call *call, const struct lent *lent, size_t assessed, const uint64_t *counts)
{
    bool device = false, inverter = false, unequal = true;
    for (size_t k = 0; k < counts[REASONS]; k++)
        unequal = unequal && ASSESSED(reason_kinds, k) == SIZHBANTO_TIMING_REASON_UNEQUAL_RECONVERGENT_DELAY;
    for (size_t i = 0, k = 0; i < length_of(call, 0); i++) {
        uint64_t kind = NOW(AT_kinds, i);
        bool listed = k < counts[FEEDBACK] && ASSESSED(feedback_ids, k) == NOW(AT_ids, i);
        device = device || is_device(kind);
        inverter = inverter || (listed && kind == SIZHBANTO_BLOCK_KIND_REDSTONE_TORCH);
        k += listed;
    }
    uint64_t scope = counts[REASONS] == 0 ? SIZHBANTO_TEMPORAL_SCOPE_STEADY_STATE_SAFE
        : unequal                         ? SIZHBANTO_TEMPORAL_SCOPE_TIMING_SENSITIVE
                                          : SIZHBANTO_TEMPORAL_SCOPE_TEMPORAL_REQUIRED;
    uint64_t candidate
        = inverter ? SIZHBANTO_BEHAVIOR_PATTERN_CLOCK_CANDIDATE : SIZHBANTO_BEHAVIOR_PATTERN_LATCH_CANDIDATE;
    uint64_t open = device ? SIZHBANTO_BEHAVIOR_PATTERN_DELAYED_PATH : SIZHBANTO_BEHAVIOR_PATTERN_NOTHING;
    return counts[SCOPE] == scope && counts[PATTERN] == (counts[FEEDBACK] > 0 ? candidate : open);
}

// From list `assessed` on, with these counts.
static const char *read_from(const struct call *call, const struct lent *lent, size_t assessed, const uint64_t *counts)
{
    for (size_t k = 0; k < counts[REASONS]; k++)
        if (!reason_possible(call, lent, assessed, k, counts[FEEDBACK] > 0))
            return "a reason that cannot be";
    if (!ids_in_order(call, lent, assessed + AT_feedback_ids, counts[FEEDBACK]))
        return "feedback that is not the components'";
    if (!codes_follow(call, lent, assessed, counts))
        return "a scope or a pattern that is not the reasons'";
    if (!marks_counted(call, lent, assessed, counts[RETAINED]))
        return "other marks than are counted";
    if (!paths_joined(call, lent, assessed, counts[PROJECTED], counts[PATH_IDS]))
        return "projected edges and paths that do not belong together";
    return labels_ordered(call, lent, assessed) ? NULL : "a label that cannot be";
}

const char *read_assessment(const struct call *call, const struct lent *lent, const struct answer *answer)
{
    return read_from(call, lent, AT_edge_sources, answer->numbers);
}

const char *read_analysis(const struct call *call, const struct lent *lent, const struct answer *answer)
{
    const char *wrong = read_description(call, lent, answer);
    return wrong != NULL ? wrong : read_from(call, lent, AFTER_DESCRIPTION, answer->numbers + 3);
}

// The contract of a component, or how many there are.
static size_t contract_of(const struct call *call, const struct lent *lent, uint64_t component)
{
    size_t low = 0, count = length_of(call, 3), high = count;
    while (low < high) {
        size_t middle = low + (high - low) / 2;
        if (NOW(AT_contract_components, middle) < component)
            low = middle + 1;
        else
            high = middle;
    }
    return low < count && NOW(AT_contract_components, low) == component ? low : count;
}

// The rationale that the component's contract gives finding f.
static unsigned rationale_of(const struct call *call, const struct lent *lent, size_t f)
{
    size_t contract = contract_of(call, lent, NOW(AT_finding_components, f));
    uint64_t width = NOW(AT_finding_widths, f), polarity = NOW(AT_finding_polarities, f);
    if (contract == length_of(call, 3))
        return SIZHBANTO_RATIONALE_NO_INTENT;
    bool alike = NOW(AT_contract_polarities, contract) == polarity && NOW(AT_contract_units, contract) == call->unit;
    bool within = alike && width <= NOW(AT_contract_largest, contract);
    switch (NOW(AT_contract_intents, contract)) {
    case SIZHBANTO_SIGNAL_INTENT_STEADY_STATE_ONLY:
        return SIZHBANTO_RATIONALE_STEADY_STATE_ONLY;
    case SIZHBANTO_SIGNAL_INTENT_STABLE:
        return SIZHBANTO_RATIONALE_UNPOWERED_BUT_HIGH + 2 * NOW(AT_contract_powered, contract) + polarity;
    case SIZHBANTO_SIGNAL_INTENT_INTENTIONAL_PULSE:
        within = within && width >= NOW(AT_contract_smallest, contract);
        return within ? SIZHBANTO_RATIONALE_PULSE_FITS : SIZHBANTO_RATIONALE_PULSE_DIFFERS;
    default:
        return within ? SIZHBANTO_RATIONALE_WITHIN_TOLERANCE : SIZHBANTO_RATIONALE_PAST_TOLERANCE;
    }
}

// The events before, at the start and at the end of the pulse of finding f, and what it takes from them.
static bool finding_of_events(const struct call *call, const struct lent *lent, size_t f)
{
    size_t events = length_of(call, 2), before = NOW(AT_finding_baselines, f);
    size_t start = NOW(AT_finding_starts, f), end = NOW(AT_finding_ends, f);
    uint64_t component = NOW(AT_finding_components, f), steady = NOW(AT_finding_steady, f);
    if (!(before < start && start < end && end < events))
        return false;
    bool of_component = NOW(AT_components, before) == component && NOW(AT_components, start) == component
        && NOW(AT_components, end) == component;
    bool pulse = NOW(AT_powered, before) == steady && NOW(AT_powered, end) == steady
        && NOW(AT_powered, start) == 1 - steady && NOW(AT_finding_polarities, f) == steady;
    uint64_t from = NOW(AT_ticks, start), to = NOW(AT_ticks, end);
    return of_component && pulse && from < to && NOW(AT_finding_start_ticks, f) == from
        && NOW(AT_finding_end_ticks, f) == to && NOW(AT_finding_widths, f) == to - from;
}

const char *read_findings(const struct call *call, const struct lent *lent, const struct answer *answer)
{
    static const unsigned verdicts[] = {2, 1, 3, 3, 3, 3, 4, 3, 0, 3};
    const struct list *list = &call->lists[AT_finding_components];
    const uint64_t *held = &answer->numbers[answer->count - 5];
    bool recorded = call->export->possible >> 15 & 1;
    uint64_t tallies[5];
    for (size_t k = 0; k < 5; k++)
        tallies[k] = recorded ? call->held.tallies[k] : 0;
    for (size_t f = list->from; f < list->from + list->used; f++) {
        if (!finding_of_events(call, lent, f) || NOW(AT_finding_units, f) != call->unit)
            return "a finding that is not its events'";
        if (f > list->from && NOW(AT_finding_components, f - 1) > NOW(AT_finding_components, f))
            return "components of findings that do not rise";
        unsigned rationale = rationale_of(call, lent, f);
        if (NOW(AT_finding_rationales, f) != rationale || NOW(AT_finding_verdicts, f) != verdicts[rationale])
            return "a finding that is not judged by its contract";
        tallies[verdicts[rationale]]++;
    }
    for (size_t k = 0; k < 5; k++)
        if (tallies[k] != held[k])
            return "tallies of other verdicts";
    return NULL;
}

const char *read_sorted(const struct call *call, const struct lent *lent, const struct answer *answer)
{
    PLACES(SORT_POSITIONS);
    size_t n = call->lists[AT_keys].length;
    (void)answer;
    for (size_t k = 0; k < n; k++) {
        size_t position = NOW(AT_order, k), before = k > 0 ? NOW(AT_order, k - 1) : 0;
        if (position >= n || (k > 0 && NOW(AT_keys, before) > NOW(AT_keys, position))
            || (k > 0 && NOW(AT_keys, before) == NOW(AT_keys, position) && before >= position))
            return "positions out of order";
    }
    return NULL;
}

static uint64_t saturating_sum(uint64_t one, uint64_t other)
{
    return one + other < UINT32_MAX ? one + other : UINT32_MAX;
}

// Each edge from a settled node stretches the sums of its sink, and has none before it: then the sums are those of all.
const char *read_sums(const struct call *call, const struct lent *lent, const struct answer *answer)
{
    PLACES(RECONVERGENT_DELAY_REASONS);
    static uint64_t smallest[MOST_ENTRIES], largest[MOST_ENTRIES], entering[MOST_ENTRIES];
    size_t n = call->lists[AT_low].length, listed = 0;
    for (size_t v = 0; v < n; v++)
        smallest[v] = UINT64_MAX, largest[v] = entering[v] = 0;
    for (size_t e = 0; e < call->lists[AT_sources].length; e++) {
        size_t source = NOW(AT_sources, e), sink = NOW(AT_sinks, e);
        entering[sink]++;
        if (NOW(AT_settled, source) != 1)
            continue;
        uint64_t low = saturating_sum(NOW(AT_smallest, source), NOW(AT_low, source));
        uint64_t high = saturating_sum(NOW(AT_largest, source), NOW(AT_high, source));
        smallest[sink] = low < smallest[sink] ? low : smallest[sink];
        largest[sink] = high > largest[sink] ? high : largest[sink];
    }
    for (size_t v = 0; v < n; v++)
        if (NOW(AT_smallest, v) != (smallest[v] == UINT64_MAX ? 0 : smallest[v]) || NOW(AT_largest, v) != largest[v])
            return "sums that are not those of the edges into a node";
    for (size_t k = 0; k < call->lists[AT_order].length; k++) {
        size_t v = NOW(AT_order, k);
        bool unequal = entering[v] > 1 && NOW(AT_smallest, v) != NOW(AT_largest, v);
        if (unequal && NOW(AT_unequal, listed++) != v)
            return "other nodes than those whose sums differ";
    }
    return listed == answer->numbers[0] ? NULL : "another count than that of nodes whose sums differ";
}
