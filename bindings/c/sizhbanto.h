// The calls of the redstone timing overlay for C99 and C++11.
//
// A list is a pointer and the number of its entries. The scene calls and the trace calls are lent structs of lists:
// what is read by a pointer to const, what is written by another. Presumed of a caller is that
//   the pointer of a list leads to so many entries; where there are none it may be NULL
//   the pointer to a struct leads to one, so it is never NULL
//   no list that is written overlaps another list of the call, or one of its structs
// A call writes entries alone and leaves every pointer and length of a struct as it was; it keeps nothing. Refused
// calls answer a number and a place and leave every list as it was. Codes may have any value: those out of range are
// refused. docs/PERFORMANCE.md says how much stack a call takes.
//
// N is how many components there are, M connections, E events, C contracts, H findings held by a record, 0 in a call
// without one. A list of several fields is one number list for each field, each at least as long as is said, else
// refusal 7 with the list's number. Entries past those used keep their values.
//
// This file is the one place for widths and for the order of lists. bindings/rust and bindings/python read it, and
// bindings/check_header holds it against the exports. So its lines have fixed forms:
//   comments: whole lines, from `//` on; those right before an item are about it
//   #define SIZHBANTO_NAME number
//   enum SizhbantoName {            then a line each, `SIZHBANTO_NAME_VALUE = number,`      then `};`
//   typedef struct SizhbantoName {  then a line for each field                              then `} SizhbantoName;`
//   Result sizhbanto_name(          then a line for each parameter, and commas              then `);`
//   a field:                        `type name;` or `type name[count];` or a list
//   a list that is read:            `const type *name; size_t name_length;`
//   a list that is written:         `type *name; size_t name_length;`
//   a parameter:                    `type name`, or a list with `, ` in place of `; ` and nothing after it, or a struct
//   a struct whose lists are read:  `const SizhbantoName *name`
//   a struct with lists to write:   `SizhbantoName *name`
//   `// name: entries` or `// list number, name: entries` among fields or parameters: what the lists are that follow,
//   and how many entries each needs, up to the next such line or what is no list
//   SIZHBANTO_SIZE(SizhbantoName, bytes) and SIZHBANTO_OFFSET(SizhbantoName, field, bytes): the layout; other lines
//   that begin with # are for the compiler alone
#ifndef SIZHBANTO_H
#define SIZHBANTO_H

#include <stdbool.h>
#include <stddef.h>
#include <stdint.h>

#ifdef __cplusplus
extern "C" {
#endif

// What a scene, a trace and a record may have.
#define SIZHBANTO_MAX_COMPONENTS 512
#define SIZHBANTO_MAX_CONNECTIONS 2048
#define SIZHBANTO_MAX_EVENTS 4096
#define SIZHBANTO_MAX_CONTRACTS 512
#define SIZHBANTO_MAX_TRACES 64

// The delay word of a component that has no delay of its own; others are 0 to 255.
#define SIZHBANTO_ABSENT_DELAY 256

// The numbers of refusals; 0 is none. Indices count from 0. The place is the count for 1, 2, 9 and 10; the index for
// 3 to 6, 11 and 12, 0 for a unit; the list's number for 7; what differs for 8: 0 components, 1 connections, 2
// events, 3 contracts; 0 for 13 and 15; the line of a text for 14, which no call here gives.
enum SizhbantoRefusalNumber {
    SIZHBANTO_REFUSAL_NUMBER_TOO_MANY_COMPONENTS = 1,
    SIZHBANTO_REFUSAL_NUMBER_TOO_MANY_CONNECTIONS = 2,
    SIZHBANTO_REFUSAL_NUMBER_ID_USED_EARLIER = 3,
    SIZHBANTO_REFUSAL_NUMBER_COMPONENT_OUT_OF_RANGE = 4,
    SIZHBANTO_REFUSAL_NUMBER_TRANSFER_OUT_OF_RANGE = 5,
    SIZHBANTO_REFUSAL_NUMBER_END_MISSING = 6,
    SIZHBANTO_REFUSAL_NUMBER_LIST_TOO_SHORT = 7,
    SIZHBANTO_REFUSAL_NUMBER_LENGTHS_DIFFER = 8,
    SIZHBANTO_REFUSAL_NUMBER_TOO_MANY_EVENTS = 9,
    SIZHBANTO_REFUSAL_NUMBER_TOO_MANY_CONTRACTS = 10,
    SIZHBANTO_REFUSAL_NUMBER_TRACE_OUT_OF_RANGE = 11,
    SIZHBANTO_REFUSAL_NUMBER_CONTRACTS_NOT_RISING = 12,
    SIZHBANTO_REFUSAL_NUMBER_RECORD_FULL = 13,
    SIZHBANTO_REFUSAL_NUMBER_TEXT_NOT_IN_FORM = 14,
    SIZHBANTO_REFUSAL_NUMBER_RECORD_FALSE = 15,
};

// kinds of components; blocks of evidence and reasons
enum SizhbantoBlockKind {
    SIZHBANTO_BLOCK_KIND_AIR = 0,
    SIZHBANTO_BLOCK_KIND_SOLID = 1,
    SIZHBANTO_BLOCK_KIND_TRANSPARENT = 2,
    SIZHBANTO_BLOCK_KIND_LEVER = 3,
    SIZHBANTO_BLOCK_KIND_BUTTON = 4,
    SIZHBANTO_BLOCK_KIND_PRESSURE_PLATE = 5,
    SIZHBANTO_BLOCK_KIND_REDSTONE_LAMP = 6,
    SIZHBANTO_BLOCK_KIND_REDSTONE_BLOCK = 7,
    SIZHBANTO_BLOCK_KIND_REDSTONE_WIRE = 8,
    SIZHBANTO_BLOCK_KIND_REDSTONE_TORCH = 9,
    SIZHBANTO_BLOCK_KIND_REPEATER = 10,
    SIZHBANTO_BLOCK_KIND_COMPARATOR = 11,
    SIZHBANTO_BLOCK_KIND_PISTON = 12,
};

// transfers of connections; a structural support is no edge, yields evidence only and may name absent ids
enum SizhbantoTransferKind {
    SIZHBANTO_TRANSFER_KIND_DUST_PROPAGATION = 0,
    SIZHBANTO_TRANSFER_KIND_DIRECT_SIGNAL = 1,
    SIZHBANTO_TRANSFER_KIND_WEAK_POWER = 2,
    SIZHBANTO_TRANSFER_KIND_STRONG_POWER = 3,
    SIZHBANTO_TRANSFER_KIND_DIRECTIONAL_DEVICE = 4,
    SIZHBANTO_TRANSFER_KIND_SIDE_CONTROL = 5,
    SIZHBANTO_TRANSFER_KIND_STRUCTURAL_SUPPORT = 6,
};

// behaviors of timed edges
enum SizhbantoEdgeBehavior {
    SIZHBANTO_EDGE_BEHAVIOR_IMMEDIATE = 0,
    SIZHBANTO_EDGE_BEHAVIOR_DELAYED_FORWARD = 1,
    SIZHBANTO_EDGE_BEHAVIOR_DELAYED_INVERT = 2,
    SIZHBANTO_EDGE_BEHAVIOR_ANALOG = 3,
    SIZHBANTO_EDGE_BEHAVIOR_MECHANICAL = 4,
    SIZHBANTO_EDGE_BEHAVIOR_ORDER_SENSITIVE = 5,
};

// semantics of devices
enum SizhbantoTemporalSemantics {
    SIZHBANTO_TEMPORAL_SEMANTICS_DELAYED_FORWARD = 0,
    SIZHBANTO_TEMPORAL_SEMANTICS_DELAYED_INVERT = 1,
    SIZHBANTO_TEMPORAL_SEMANTICS_COMPARE_OR_SUBTRACT = 2,
    SIZHBANTO_TEMPORAL_SEMANTICS_MECHANICAL_ACTUATION = 3,
};

// kinds of evidence: the first has source and sink, the second component and block; the other fields are 0
enum SizhbantoTemporalEvidence {
    SIZHBANTO_TEMPORAL_EVIDENCE_VERIFIED_PHYSICAL_CONNECTION = 0,
    SIZHBANTO_TEMPORAL_EVIDENCE_DEVICE_SEMANTICS = 1,
};

// kinds of reasons: the first has component, minimum and maximum; Feedback has none, its components are list 4; the
// third has component and block; the last has component; the other fields are 0
enum SizhbantoTimingReason {
    SIZHBANTO_TIMING_REASON_UNEQUAL_RECONVERGENT_DELAY = 0,
    SIZHBANTO_TIMING_REASON_FEEDBACK = 1,
    SIZHBANTO_TIMING_REASON_STATEFUL_OR_MECHANICAL_DEVICE = 2,
    SIZHBANTO_TIMING_REASON_LOCKED_REPEATER = 3,
};

// marks, list 5
enum SizhbantoMark {
    SIZHBANTO_MARK_COMPRESSED = 0,
    SIZHBANTO_MARK_RETAINED = 1,
};

// scope
enum SizhbantoTemporalScope {
    SIZHBANTO_TEMPORAL_SCOPE_STEADY_STATE_SAFE = 0,
    SIZHBANTO_TEMPORAL_SCOPE_TIMING_SENSITIVE = 1,
    SIZHBANTO_TEMPORAL_SCOPE_TEMPORAL_REQUIRED = 2,
};

// pattern; the components of a candidate are list 4
enum SizhbantoBehaviorPattern {
    SIZHBANTO_BEHAVIOR_PATTERN_DELAYED_PATH = 0,
    SIZHBANTO_BEHAVIOR_PATTERN_CLOCK_CANDIDATE = 1,
    SIZHBANTO_BEHAVIOR_PATTERN_LATCH_CANDIDATE = 2,
    SIZHBANTO_BEHAVIOR_PATTERN_NOTHING = 3,
};

// the unit of a trace; units of contracts and findings
enum SizhbantoTraceTimeUnit {
    SIZHBANTO_TRACE_TIME_UNIT_REDSTONE_TICK = 0,
    SIZHBANTO_TRACE_TIME_UNIT_GAME_TICK = 1,
};

// polarities of contracts and findings
enum SizhbantoPulsePolarity {
    SIZHBANTO_PULSE_POLARITY_HIGH = 0,
    SIZHBANTO_PULSE_POLARITY_LOW = 1,
};

// intents of contracts: the first uses no other field; Stable uses powered; IntentionalPulse polarity, unit, smallest
// and largest; MaximumPulseWidth polarity, unit and largest; fields that are not used are not read
enum SizhbantoSignalIntent {
    SIZHBANTO_SIGNAL_INTENT_STEADY_STATE_ONLY = 0,
    SIZHBANTO_SIGNAL_INTENT_STABLE = 1,
    SIZHBANTO_SIGNAL_INTENT_INTENTIONAL_PULSE = 2,
    SIZHBANTO_SIGNAL_INTENT_MAXIMUM_PULSE_WIDTH = 3,
};

// verdicts of findings, and the places of tallies
enum SizhbantoTransientVerdict {
    SIZHBANTO_TRANSIENT_VERDICT_PULSE_OBSERVED = 0,
    SIZHBANTO_TRANSIENT_VERDICT_TRANSIENT_DEVIATION = 1,
    SIZHBANTO_TRANSIENT_VERDICT_HAZARD_CANDIDATE = 2,
    SIZHBANTO_TRANSIENT_VERDICT_HAZARD_CONFIRMED = 3,
    SIZHBANTO_TRANSIENT_VERDICT_INTENTIONAL_PULSE = 4,
};

// rationales of findings: no contract; settled behaviour only; for Stable the wanted level, then the pulse's polarity;
// the pulse fits the intent or does not; it is within the tolerance or is not
enum SizhbantoRationale {
    SIZHBANTO_RATIONALE_NO_INTENT = 0,
    SIZHBANTO_RATIONALE_STEADY_STATE_ONLY = 1,
    SIZHBANTO_RATIONALE_UNPOWERED_BUT_HIGH = 2,
    SIZHBANTO_RATIONALE_UNPOWERED_BUT_LOW = 3,
    SIZHBANTO_RATIONALE_POWERED_BUT_HIGH = 4,
    SIZHBANTO_RATIONALE_POWERED_BUT_LOW = 5,
    SIZHBANTO_RATIONALE_PULSE_FITS = 6,
    SIZHBANTO_RATIONALE_PULSE_DIFFERS = 7,
    SIZHBANTO_RATIONALE_WITHIN_TOLERANCE = 8,
    SIZHBANTO_RATIONALE_PAST_TOLERANCE = 9,
};

// What is lent. Each list stands with the entries that it needs; the lists of components are as long as one another,
// and so are those of connections, events and contracts, else refusal 8.

typedef struct SizhbantoComponents {
    // components: N
    const uint64_t *ids; size_t ids_length;
    const uint8_t *kinds; size_t kinds_length;
    const uint16_t *delays; size_t delays_length;
    const uint8_t *locked; size_t locked_length;
    const int32_t *xs; size_t xs_length;
    const int32_t *ys; size_t ys_length;
    const int32_t *zs; size_t zs_length;
} SizhbantoComponents;

typedef struct SizhbantoConnections {
    // connections: M
    const uint64_t *sources; size_t sources_length;
    const uint64_t *sinks; size_t sinks_length;
    const uint8_t *transfers; size_t transfers_length;
} SizhbantoConnections;

typedef struct SizhbantoScene {
    SizhbantoComponents components;
    SizhbantoConnections connections;
} SizhbantoScene;

typedef struct SizhbantoEvents {
    // events: E
    const uint64_t *ticks; size_t ticks_length;
    const uint64_t *components; size_t components_length;
    const uint8_t *powered; size_t powered_length;
} SizhbantoEvents;

// Contracts rise by component.
typedef struct SizhbantoContracts {
    // contracts: C
    const uint64_t *components; size_t components_length;
    const uint8_t *intents; size_t intents_length;
    const uint8_t *powered; size_t powered_length;
    const uint8_t *polarities; size_t polarities_length;
    const uint8_t *units; size_t units_length;
    const uint64_t *smallest; size_t smallest_length;
    const uint64_t *largest; size_t largest_length;
} SizhbantoContracts;

typedef struct SizhbantoTrace {
    uint8_t unit;
    SizhbantoEvents events;
    SizhbantoContracts contracts;
} SizhbantoTrace;

// In connection order.
typedef struct SizhbantoTimedEdgeLists {
    // list 0, timed edges: M
    uint64_t *sources; size_t sources_length;
    uint64_t *sinks; size_t sinks_length;
    uint32_t *minimums; size_t minimums_length;
    uint32_t *maximums; size_t maximums_length;
    uint8_t *behaviors; size_t behaviors_length;
} SizhbantoTimedEdgeLists;

// In component order.
typedef struct SizhbantoDeviceLists {
    // list 1, devices: N
    uint64_t *components; size_t components_length;
    int32_t *xs; size_t xs_length;
    int32_t *ys; size_t ys_length;
    int32_t *zs; size_t zs_length;
    uint8_t *semantics; size_t semantics_length;
    uint32_t *delays; size_t delays_length;
} SizhbantoDeviceLists;

// That of connections in their order, then that of devices in component order.
typedef struct SizhbantoEvidenceLists {
    // list 2, evidence: M + N
    uint8_t *kinds; size_t kinds_length;
    uint64_t *sources; size_t sources_length;
    uint64_t *sinks; size_t sinks_length;
    uint64_t *components; size_t components_length;
    uint8_t *blocks; size_t blocks_length;
} SizhbantoEvidenceLists;

typedef struct SizhbantoDescriptionLists {
    SizhbantoTimedEdgeLists edges;
    SizhbantoDeviceLists devices;
    SizhbantoEvidenceLists evidence;
} SizhbantoDescriptionLists;

// Feedback, then stateful devices and locked repeaters in component order, then unequal delays by rising id.
typedef struct SizhbantoReasonLists {
    // list 3, reasons: 2N + 1
    uint8_t *kinds; size_t kinds_length;
    uint64_t *components; size_t components_length;
    uint8_t *blocks; size_t blocks_length;
    uint32_t *minimums; size_t minimums_length;
    uint32_t *maximums; size_t maximums_length;
} SizhbantoReasonLists;

// The path of a projected edge is the part of path_ids that begins at its entry of starts and is as long as that of
// lengths; its ends are included.
typedef struct SizhbantoProjectionLists {
    // list 6, projected edges: M
    uint64_t *sources; size_t sources_length;
    uint64_t *sinks; size_t sinks_length;
    uint8_t *inverted; size_t inverted_length;
    uint32_t *minimums; size_t minimums_length;
    uint32_t *maximums; size_t maximums_length;
    size_t *starts; size_t starts_length;
    size_t *lengths; size_t lengths_length;
    // list 7, paths: 2M + N
    uint64_t *path_ids; size_t path_ids_length;
} SizhbantoProjectionLists;

// In component order; both sums are 0 where a component is not settled.
typedef struct SizhbantoLabelLists {
    // list 8, labels: N
    uint8_t *settled; size_t settled_length;
    uint32_t *lows; size_t lows_length;
    uint32_t *highs; size_t highs_length;
} SizhbantoLabelLists;

// Marks are in component order.
typedef struct SizhbantoAssessmentLists {
    SizhbantoReasonLists reasons;
    // list 4, feedback: N
    uint64_t *feedback_ids; size_t feedback_ids_length;
    // list 5, marks: N
    uint8_t *marks; size_t marks_length;
    SizhbantoProjectionLists projected;
    SizhbantoLabelLists labels;
} SizhbantoAssessmentLists;

// Lists 0 to 8.
typedef struct SizhbantoSceneLists {
    SizhbantoDescriptionLists description;
    SizhbantoAssessmentLists assessment;
} SizhbantoSceneLists;

// In pulse order: by rising component, then in the order of the events. baselines, starts and ends have the indices of
// the events before, at the start and at the end of a pulse.
typedef struct SizhbantoFindings {
    // list 9, findings: H + E
    uint64_t *components; size_t components_length;
    uint8_t *polarities; size_t polarities_length;
    uint8_t *units; size_t units_length;
    uint64_t *start_ticks; size_t start_ticks_length;
    uint64_t *end_ticks; size_t end_ticks_length;
    uint64_t *widths; size_t widths_length;
    uint8_t *steady; size_t steady_length;
    size_t *baselines; size_t baselines_length;
    size_t *starts; size_t starts_length;
    size_t *ends; size_t ends_length;
    uint8_t *verdicts; size_t verdicts_length;
    uint8_t *rationales; size_t rationales_length;
} SizhbantoFindings;

// The answers. number and place are those of a refusal, 0 and 0 where there is none; the rest is 0 under a refusal.

typedef struct SizhbantoCheckedNumbers {
    uint32_t number;
    uint64_t place;
} SizhbantoCheckedNumbers;

// feedback is how many ids are listed, reasons how many Feedback reasons there are: one or none.
typedef struct SizhbantoFeedbackNumbers {
    uint32_t number;
    uint64_t place;
    uint64_t feedback;
    uint64_t reasons;
} SizhbantoFeedbackNumbers;

// How many entries of lists 0, 1 and 2 are used.
typedef struct SizhbantoDescriptionNumbers {
    uint32_t number;
    uint64_t place;
    uint64_t timed_edges;
    uint64_t devices;
    uint64_t evidence;
} SizhbantoDescriptionNumbers;

// reasons, feedback, projected and path_ids are how many entries of lists 3, 4, 6 and 7 are used; retained and
// compressed how many of list 5 are 1 and 0.
typedef struct SizhbantoSceneNumbers {
    uint32_t number;
    uint64_t place;
    uint8_t scope;
    uint8_t pattern;
    uint8_t confidence;
    uint64_t reasons;
    uint64_t feedback;
    uint64_t retained;
    uint64_t compressed;
    uint64_t projected;
    uint64_t path_ids;
} SizhbantoSceneNumbers;

// Those of both.
typedef struct SizhbantoAnalysisNumbers {
    uint32_t number;
    uint64_t place;
    uint64_t timed_edges;
    uint64_t devices;
    uint64_t evidence;
    uint8_t scope;
    uint8_t pattern;
    uint8_t confidence;
    uint64_t reasons;
    uint64_t feedback;
    uint64_t retained;
    uint64_t compressed;
    uint64_t projected;
    uint64_t path_ids;
} SizhbantoAnalysisNumbers;

// A part of list 7.
typedef struct SizhbantoPathPart {
    size_t start;
    size_t length;
} SizhbantoPathPart;

// findings is how many entries of list 9 are used, contracts_applied how many contracts were given; a tally for each
// verdict by its number.
typedef struct SizhbantoAssessedTrace {
    uint32_t number;
    uint64_t place;
    uint64_t findings;
    uint64_t contracts_applied;
    uint64_t tallies[5];
} SizhbantoAssessedTrace;

// Traces held, findings held, and a tally for each verdict by its number; a fresh one is all 0.
typedef struct SizhbantoTransientRecord {
    uint64_t traces;
    uint64_t findings;
    uint64_t tallies[5];
} SizhbantoTransientRecord;

// findings is how many this trace added; held is the record after the call, under a refusal as it was.
typedef struct SizhbantoRecordedTrace {
    uint32_t number;
    uint64_t place;
    uint64_t findings;
    uint64_t contracts_applied;
    SizhbantoTransientRecord held;
} SizhbantoRecordedTrace;

// position is 0 where nothing was found.
typedef struct SizhbantoFoundNumbers {
    bool found;
    size_t position;
} SizhbantoFoundNumbers;

// Whether the lists fit, and how many nodes are listed in unequal.
typedef struct SizhbantoReconverged {
    bool fits;
    size_t unequal;
} SizhbantoReconverged;

// The layout of the structs, which C11 and C++ test: a pointer and a length are 8 bytes each.
#ifdef __cplusplus
#define SIZHBANTO_SIZE(name, bytes) static_assert(sizeof(name) == bytes, #name);
#define SIZHBANTO_OFFSET(name, field, bytes) static_assert(offsetof(name, field) == bytes, #name "." #field);
#elif defined(__STDC_VERSION__) && __STDC_VERSION__ >= 201112L
#define SIZHBANTO_SIZE(name, bytes) _Static_assert(sizeof(name) == bytes, #name);
#define SIZHBANTO_OFFSET(name, field, bytes) _Static_assert(offsetof(name, field) == bytes, #name "." #field);
#else
#define SIZHBANTO_SIZE(name, bytes)
#define SIZHBANTO_OFFSET(name, field, bytes)
#endif
SIZHBANTO_SIZE(SizhbantoComponents, 112)
SIZHBANTO_OFFSET(SizhbantoComponents, ids, 0)
SIZHBANTO_OFFSET(SizhbantoComponents, kinds, 16)
SIZHBANTO_OFFSET(SizhbantoComponents, delays, 32)
SIZHBANTO_OFFSET(SizhbantoComponents, locked, 48)
SIZHBANTO_OFFSET(SizhbantoComponents, xs, 64)
SIZHBANTO_OFFSET(SizhbantoComponents, ys, 80)
SIZHBANTO_OFFSET(SizhbantoComponents, zs, 96)
SIZHBANTO_SIZE(SizhbantoConnections, 48)
SIZHBANTO_OFFSET(SizhbantoConnections, sources, 0)
SIZHBANTO_OFFSET(SizhbantoConnections, sinks, 16)
SIZHBANTO_OFFSET(SizhbantoConnections, transfers, 32)
SIZHBANTO_SIZE(SizhbantoScene, 160)
SIZHBANTO_OFFSET(SizhbantoScene, components, 0)
SIZHBANTO_OFFSET(SizhbantoScene, connections, 112)
SIZHBANTO_SIZE(SizhbantoEvents, 48)
SIZHBANTO_OFFSET(SizhbantoEvents, ticks, 0)
SIZHBANTO_OFFSET(SizhbantoEvents, components, 16)
SIZHBANTO_OFFSET(SizhbantoEvents, powered, 32)
SIZHBANTO_SIZE(SizhbantoContracts, 112)
SIZHBANTO_OFFSET(SizhbantoContracts, components, 0)
SIZHBANTO_OFFSET(SizhbantoContracts, intents, 16)
SIZHBANTO_OFFSET(SizhbantoContracts, powered, 32)
SIZHBANTO_OFFSET(SizhbantoContracts, polarities, 48)
SIZHBANTO_OFFSET(SizhbantoContracts, units, 64)
SIZHBANTO_OFFSET(SizhbantoContracts, smallest, 80)
SIZHBANTO_OFFSET(SizhbantoContracts, largest, 96)
SIZHBANTO_SIZE(SizhbantoTrace, 168)
SIZHBANTO_OFFSET(SizhbantoTrace, unit, 0)
SIZHBANTO_OFFSET(SizhbantoTrace, events, 8)
SIZHBANTO_OFFSET(SizhbantoTrace, contracts, 56)
SIZHBANTO_SIZE(SizhbantoTimedEdgeLists, 80)
SIZHBANTO_OFFSET(SizhbantoTimedEdgeLists, sources, 0)
SIZHBANTO_OFFSET(SizhbantoTimedEdgeLists, sinks, 16)
SIZHBANTO_OFFSET(SizhbantoTimedEdgeLists, minimums, 32)
SIZHBANTO_OFFSET(SizhbantoTimedEdgeLists, maximums, 48)
SIZHBANTO_OFFSET(SizhbantoTimedEdgeLists, behaviors, 64)
SIZHBANTO_SIZE(SizhbantoDeviceLists, 96)
SIZHBANTO_OFFSET(SizhbantoDeviceLists, components, 0)
SIZHBANTO_OFFSET(SizhbantoDeviceLists, xs, 16)
SIZHBANTO_OFFSET(SizhbantoDeviceLists, ys, 32)
SIZHBANTO_OFFSET(SizhbantoDeviceLists, zs, 48)
SIZHBANTO_OFFSET(SizhbantoDeviceLists, semantics, 64)
SIZHBANTO_OFFSET(SizhbantoDeviceLists, delays, 80)
SIZHBANTO_SIZE(SizhbantoEvidenceLists, 80)
SIZHBANTO_OFFSET(SizhbantoEvidenceLists, kinds, 0)
SIZHBANTO_OFFSET(SizhbantoEvidenceLists, sources, 16)
SIZHBANTO_OFFSET(SizhbantoEvidenceLists, sinks, 32)
SIZHBANTO_OFFSET(SizhbantoEvidenceLists, components, 48)
SIZHBANTO_OFFSET(SizhbantoEvidenceLists, blocks, 64)
SIZHBANTO_SIZE(SizhbantoDescriptionLists, 256)
SIZHBANTO_OFFSET(SizhbantoDescriptionLists, edges, 0)
SIZHBANTO_OFFSET(SizhbantoDescriptionLists, devices, 80)
SIZHBANTO_OFFSET(SizhbantoDescriptionLists, evidence, 176)
SIZHBANTO_SIZE(SizhbantoReasonLists, 80)
SIZHBANTO_OFFSET(SizhbantoReasonLists, kinds, 0)
SIZHBANTO_OFFSET(SizhbantoReasonLists, components, 16)
SIZHBANTO_OFFSET(SizhbantoReasonLists, blocks, 32)
SIZHBANTO_OFFSET(SizhbantoReasonLists, minimums, 48)
SIZHBANTO_OFFSET(SizhbantoReasonLists, maximums, 64)
SIZHBANTO_SIZE(SizhbantoProjectionLists, 128)
SIZHBANTO_OFFSET(SizhbantoProjectionLists, sources, 0)
SIZHBANTO_OFFSET(SizhbantoProjectionLists, sinks, 16)
SIZHBANTO_OFFSET(SizhbantoProjectionLists, inverted, 32)
SIZHBANTO_OFFSET(SizhbantoProjectionLists, minimums, 48)
SIZHBANTO_OFFSET(SizhbantoProjectionLists, maximums, 64)
SIZHBANTO_OFFSET(SizhbantoProjectionLists, starts, 80)
SIZHBANTO_OFFSET(SizhbantoProjectionLists, lengths, 96)
SIZHBANTO_OFFSET(SizhbantoProjectionLists, path_ids, 112)
SIZHBANTO_SIZE(SizhbantoLabelLists, 48)
SIZHBANTO_OFFSET(SizhbantoLabelLists, settled, 0)
SIZHBANTO_OFFSET(SizhbantoLabelLists, lows, 16)
SIZHBANTO_OFFSET(SizhbantoLabelLists, highs, 32)
SIZHBANTO_SIZE(SizhbantoAssessmentLists, 288)
SIZHBANTO_OFFSET(SizhbantoAssessmentLists, reasons, 0)
SIZHBANTO_OFFSET(SizhbantoAssessmentLists, feedback_ids, 80)
SIZHBANTO_OFFSET(SizhbantoAssessmentLists, marks, 96)
SIZHBANTO_OFFSET(SizhbantoAssessmentLists, projected, 112)
SIZHBANTO_OFFSET(SizhbantoAssessmentLists, labels, 240)
SIZHBANTO_SIZE(SizhbantoSceneLists, 544)
SIZHBANTO_OFFSET(SizhbantoSceneLists, description, 0)
SIZHBANTO_OFFSET(SizhbantoSceneLists, assessment, 256)
SIZHBANTO_SIZE(SizhbantoFindings, 192)
SIZHBANTO_OFFSET(SizhbantoFindings, components, 0)
SIZHBANTO_OFFSET(SizhbantoFindings, polarities, 16)
SIZHBANTO_OFFSET(SizhbantoFindings, units, 32)
SIZHBANTO_OFFSET(SizhbantoFindings, start_ticks, 48)
SIZHBANTO_OFFSET(SizhbantoFindings, end_ticks, 64)
SIZHBANTO_OFFSET(SizhbantoFindings, widths, 80)
SIZHBANTO_OFFSET(SizhbantoFindings, steady, 96)
SIZHBANTO_OFFSET(SizhbantoFindings, baselines, 112)
SIZHBANTO_OFFSET(SizhbantoFindings, starts, 128)
SIZHBANTO_OFFSET(SizhbantoFindings, ends, 144)
SIZHBANTO_OFFSET(SizhbantoFindings, verdicts, 160)
SIZHBANTO_OFFSET(SizhbantoFindings, rationales, 176)
SIZHBANTO_SIZE(SizhbantoCheckedNumbers, 16)
SIZHBANTO_OFFSET(SizhbantoCheckedNumbers, number, 0)
SIZHBANTO_OFFSET(SizhbantoCheckedNumbers, place, 8)
SIZHBANTO_SIZE(SizhbantoFeedbackNumbers, 32)
SIZHBANTO_OFFSET(SizhbantoFeedbackNumbers, number, 0)
SIZHBANTO_OFFSET(SizhbantoFeedbackNumbers, place, 8)
SIZHBANTO_OFFSET(SizhbantoFeedbackNumbers, feedback, 16)
SIZHBANTO_OFFSET(SizhbantoFeedbackNumbers, reasons, 24)
SIZHBANTO_SIZE(SizhbantoDescriptionNumbers, 40)
SIZHBANTO_OFFSET(SizhbantoDescriptionNumbers, number, 0)
SIZHBANTO_OFFSET(SizhbantoDescriptionNumbers, place, 8)
SIZHBANTO_OFFSET(SizhbantoDescriptionNumbers, timed_edges, 16)
SIZHBANTO_OFFSET(SizhbantoDescriptionNumbers, devices, 24)
SIZHBANTO_OFFSET(SizhbantoDescriptionNumbers, evidence, 32)
SIZHBANTO_SIZE(SizhbantoSceneNumbers, 72)
SIZHBANTO_OFFSET(SizhbantoSceneNumbers, number, 0)
SIZHBANTO_OFFSET(SizhbantoSceneNumbers, place, 8)
SIZHBANTO_OFFSET(SizhbantoSceneNumbers, scope, 16)
SIZHBANTO_OFFSET(SizhbantoSceneNumbers, pattern, 17)
SIZHBANTO_OFFSET(SizhbantoSceneNumbers, confidence, 18)
SIZHBANTO_OFFSET(SizhbantoSceneNumbers, reasons, 24)
SIZHBANTO_OFFSET(SizhbantoSceneNumbers, feedback, 32)
SIZHBANTO_OFFSET(SizhbantoSceneNumbers, retained, 40)
SIZHBANTO_OFFSET(SizhbantoSceneNumbers, compressed, 48)
SIZHBANTO_OFFSET(SizhbantoSceneNumbers, projected, 56)
SIZHBANTO_OFFSET(SizhbantoSceneNumbers, path_ids, 64)
SIZHBANTO_SIZE(SizhbantoAnalysisNumbers, 96)
SIZHBANTO_OFFSET(SizhbantoAnalysisNumbers, number, 0)
SIZHBANTO_OFFSET(SizhbantoAnalysisNumbers, place, 8)
SIZHBANTO_OFFSET(SizhbantoAnalysisNumbers, timed_edges, 16)
SIZHBANTO_OFFSET(SizhbantoAnalysisNumbers, devices, 24)
SIZHBANTO_OFFSET(SizhbantoAnalysisNumbers, evidence, 32)
SIZHBANTO_OFFSET(SizhbantoAnalysisNumbers, scope, 40)
SIZHBANTO_OFFSET(SizhbantoAnalysisNumbers, pattern, 41)
SIZHBANTO_OFFSET(SizhbantoAnalysisNumbers, confidence, 42)
SIZHBANTO_OFFSET(SizhbantoAnalysisNumbers, reasons, 48)
SIZHBANTO_OFFSET(SizhbantoAnalysisNumbers, feedback, 56)
SIZHBANTO_OFFSET(SizhbantoAnalysisNumbers, retained, 64)
SIZHBANTO_OFFSET(SizhbantoAnalysisNumbers, compressed, 72)
SIZHBANTO_OFFSET(SizhbantoAnalysisNumbers, projected, 80)
SIZHBANTO_OFFSET(SizhbantoAnalysisNumbers, path_ids, 88)
SIZHBANTO_SIZE(SizhbantoPathPart, 16)
SIZHBANTO_OFFSET(SizhbantoPathPart, start, 0)
SIZHBANTO_OFFSET(SizhbantoPathPart, length, 8)
SIZHBANTO_SIZE(SizhbantoAssessedTrace, 72)
SIZHBANTO_OFFSET(SizhbantoAssessedTrace, number, 0)
SIZHBANTO_OFFSET(SizhbantoAssessedTrace, place, 8)
SIZHBANTO_OFFSET(SizhbantoAssessedTrace, findings, 16)
SIZHBANTO_OFFSET(SizhbantoAssessedTrace, contracts_applied, 24)
SIZHBANTO_OFFSET(SizhbantoAssessedTrace, tallies, 32)
SIZHBANTO_SIZE(SizhbantoTransientRecord, 56)
SIZHBANTO_OFFSET(SizhbantoTransientRecord, traces, 0)
SIZHBANTO_OFFSET(SizhbantoTransientRecord, findings, 8)
SIZHBANTO_OFFSET(SizhbantoTransientRecord, tallies, 16)
SIZHBANTO_SIZE(SizhbantoRecordedTrace, 88)
SIZHBANTO_OFFSET(SizhbantoRecordedTrace, number, 0)
SIZHBANTO_OFFSET(SizhbantoRecordedTrace, place, 8)
SIZHBANTO_OFFSET(SizhbantoRecordedTrace, findings, 16)
SIZHBANTO_OFFSET(SizhbantoRecordedTrace, contracts_applied, 24)
SIZHBANTO_OFFSET(SizhbantoRecordedTrace, held, 32)
SIZHBANTO_SIZE(SizhbantoFoundNumbers, 16)
SIZHBANTO_OFFSET(SizhbantoFoundNumbers, found, 0)
SIZHBANTO_OFFSET(SizhbantoFoundNumbers, position, 8)
SIZHBANTO_SIZE(SizhbantoReconverged, 16)
SIZHBANTO_OFFSET(SizhbantoReconverged, fits, 0)
SIZHBANTO_OFFSET(SizhbantoReconverged, unequal, 8)
#undef SIZHBANTO_SIZE
#undef SIZHBANTO_OFFSET

// The scene calls.

// Lists 0 to 8, all tested before any is written.
SizhbantoAnalysisNumbers sizhbanto_analyze_scene(
    const SizhbantoScene *scene,
    SizhbantoSceneLists *lists
);

// Lists 0 to 2: the first of the two parts of sizhbanto_analyze_scene as calls of their own. They write what that
// writes. A scene that one of the three refuses is refused alike by all, but for lists that are too short: each tests
// those alone that it writes, so one part may write where the other, and sizhbanto_analyze_scene, answer 7.
SizhbantoDescriptionNumbers sizhbanto_describe_scene(
    const SizhbantoScene *scene,
    SizhbantoDescriptionLists *lists
);

// Lists 3 to 8: the other part.
SizhbantoSceneNumbers sizhbanto_assess_scene(
    const SizhbantoScene *scene,
    SizhbantoAssessmentLists *lists
);

// The first refusal of a scene, if any; nothing is written. room has the shortest length of each list that some other
// call would write, from the list of number first on; where it is empty, none is tested.
SizhbantoCheckedNumbers sizhbanto_check_scene(
    const SizhbantoScene *scene,
    size_t first,
    const size_t *room, size_t room_length
);

// List 4 alone.
SizhbantoFeedbackNumbers sizhbanto_feedback_scene(
    const SizhbantoScene *scene,
    // list 4, feedback: N
    uint64_t *feedback_ids, size_t feedback_ids_length
);

// The path of one projected edge: a part of paths, list 7, by the starts and lengths of list 6. An edge past the end
// of these, or a start and length that don't lie within list 7, gives 0 and 0.
SizhbantoPathPart sizhbanto_projected_path(
    const uint64_t *paths, size_t paths_length,
    const size_t *starts, size_t starts_length,
    const size_t *lengths, size_t lengths_length,
    size_t edge
);

// The findings of one trace, list 9.
SizhbantoAssessedTrace sizhbanto_assess_transients(
    const SizhbantoTrace *trace,
    SizhbantoFindings *findings
);

// The same with a running record: the findings are written after those held.
SizhbantoRecordedTrace sizhbanto_record_trace(
    SizhbantoTransientRecord held,
    const SizhbantoTrace *trace,
    SizhbantoFindings *findings
);

// The passes that have no limit of size. Nodes and positions are numbers from 0. Where the lists don't fit, nothing
// is changed and the answer is false; a list that is lent to work in holds anything after a call that did its work.
// The lists of a graph fit where there are as many sinks as sources and each end is a node, and, for the sums, where
// high is as long as low and each entry of order is a node.

// The positions of keys, ordered by key and then by position, at the front of order. order and scratch have an entry
// for each key at least; scratch is lent to work in.
bool sizhbanto_sort_positions(
    const uint64_t *keys, size_t keys_length,
    size_t *order, size_t order_length,
    size_t *scratch, size_t scratch_length
);

// The first position of a key, where order is the ordered positions of the keys; else any position that has the key,
// or none.
SizhbantoFoundNumbers sizhbanto_find_position(
    const uint64_t *keys, size_t keys_length,
    const size_t *order, size_t order_length,
    uint64_t key
);

// A graph has the edges sources[e] to sinks[e] and a node for each entry of marks. Marks a node 1 if a different node
// is in its strongly connected component, else 0. head, order and group have an entry for each node at least, next
// one for each edge; the four are lent to work in. Calls nest as deep as a path of the graph is long.
bool sizhbanto_mark_shared_components(
    const size_t *sources, size_t sources_length,
    const size_t *sinks, size_t sinks_length,
    uint8_t *marks, size_t marks_length,
    size_t *head, size_t head_length,
    size_t *next, size_t next_length,
    size_t *order, size_t order_length,
    size_t *group, size_t group_length
);

// A graph likewise, with a node for each entry of low; low and high are the nodes' delays. Writes to settled 1 or 0,
// to smallest and largest the sums of the paths to each node, and to unequal those nodes of order, in that order,
// that have two edges or more into them and sums that differ. unequal has an entry for each of order at least, next
// one for each edge, the others one for each node; the last five are lent to work in.
SizhbantoReconverged sizhbanto_reconvergent_delay_reasons(
    const size_t *sources, size_t sources_length,
    const size_t *sinks, size_t sinks_length,
    const uint32_t *low, size_t low_length,
    const uint32_t *high, size_t high_length,
    const size_t *order, size_t order_length,
    uint8_t *settled, size_t settled_length,
    uint32_t *smallest, size_t smallest_length,
    uint32_t *largest, size_t largest_length,
    size_t *unequal, size_t unequal_length,
    size_t *head, size_t head_length,
    size_t *next, size_t next_length,
    size_t *incoming, size_t incoming_length,
    size_t *left, size_t left_length,
    size_t *queue, size_t queue_length
);

#ifdef __cplusplus
}
#endif

#endif
