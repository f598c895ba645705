// What each export is handed, in order, said once: a table of lists, the call itself and the broken stand-ins are made
// of it, and the compiler holds each against sizhbanto.h.
//
// LIST(role, type, name, of): `of` is the record kind of a list that is read (0 components, 1 connections, 2 events,
// 3 contracts) and the number of a list that is written, 0 to 9. Lists of a pass have 0 there.
// NUMBER(name): a number, or the record; it has the same name in struct call.
// STRUCT(role, type, name, FIELDS): a struct of lists, READ where they are, else KEEP.
// FIELD(at, role, type, path, name, of): a list in it. Its path is its field, and stands after `at`; its name is its
// own among all structs.
#ifndef FUZZ_EXPORTS_H
#define FUZZ_EXPORTS_H

#define SCENE(FIELD, at) \
    FIELD(at, READ, uint64_t, components.ids, ids, 0) \
    FIELD(at, READ, uint8_t, components.kinds, kinds, 0) \
    FIELD(at, READ, uint16_t, components.delays, delays, 0) \
    FIELD(at, READ, uint8_t, components.locked, locked, 0) \
    FIELD(at, READ, int32_t, components.xs, xs, 0) \
    FIELD(at, READ, int32_t, components.ys, ys, 0) \
    FIELD(at, READ, int32_t, components.zs, zs, 0) \
    FIELD(at, READ, uint64_t, connections.sources, sources, 1) \
    FIELD(at, READ, uint64_t, connections.sinks, sinks, 1) \
    FIELD(at, READ, uint8_t, connections.transfers, transfers, 1)

#define DESCRIPTION(FIELD, at) \
    FIELD(at, WRITE, uint64_t, edges.sources, edge_sources, 0) \
    FIELD(at, WRITE, uint64_t, edges.sinks, edge_sinks, 0) \
    FIELD(at, WRITE, uint32_t, edges.minimums, edge_minimums, 0) \
    FIELD(at, WRITE, uint32_t, edges.maximums, edge_maximums, 0) \
    FIELD(at, WRITE, uint8_t, edges.behaviors, edge_behaviors, 0) \
    FIELD(at, WRITE, uint64_t, devices.components, device_components, 1) \
    FIELD(at, WRITE, int32_t, devices.xs, device_xs, 1) \
    FIELD(at, WRITE, int32_t, devices.ys, device_ys, 1) \
    FIELD(at, WRITE, int32_t, devices.zs, device_zs, 1) \
    FIELD(at, WRITE, uint8_t, devices.semantics, device_semantics, 1) \
    FIELD(at, WRITE, uint32_t, devices.delays, device_delays, 1) \
    FIELD(at, WRITE, uint8_t, evidence.kinds, evidence_kinds, 2) \
    FIELD(at, WRITE, uint64_t, evidence.sources, evidence_sources, 2) \
    FIELD(at, WRITE, uint64_t, evidence.sinks, evidence_sinks, 2) \
    FIELD(at, WRITE, uint64_t, evidence.components, evidence_components, 2) \
    FIELD(at, WRITE, uint8_t, evidence.blocks, evidence_blocks, 2)

#define ASSESSMENT(FIELD, at) \
    FIELD(at, WRITE, uint8_t, reasons.kinds, reason_kinds, 3) \
    FIELD(at, WRITE, uint64_t, reasons.components, reason_components, 3) \
    FIELD(at, WRITE, uint8_t, reasons.blocks, reason_blocks, 3) \
    FIELD(at, WRITE, uint32_t, reasons.minimums, reason_minimums, 3) \
    FIELD(at, WRITE, uint32_t, reasons.maximums, reason_maximums, 3) \
    FIELD(at, WRITE, uint64_t, feedback_ids, feedback_ids, 4) \
    FIELD(at, WRITE, uint8_t, marks, marks, 5) \
    FIELD(at, WRITE, uint64_t, projected.sources, projected_sources, 6) \
    FIELD(at, WRITE, uint64_t, projected.sinks, projected_sinks, 6) \
    FIELD(at, WRITE, uint8_t, projected.inverted, projected_inverted, 6) \
    FIELD(at, WRITE, uint32_t, projected.minimums, projected_minimums, 6) \
    FIELD(at, WRITE, uint32_t, projected.maximums, projected_maximums, 6) \
    FIELD(at, WRITE, size_t, projected.starts, projected_starts, 6) \
    FIELD(at, WRITE, size_t, projected.lengths, projected_lengths, 6) \
    FIELD(at, WRITE, uint64_t, projected.path_ids, path_ids, 7) \
    FIELD(at, WRITE, uint8_t, labels.settled, label_settled, 8) \
    FIELD(at, WRITE, uint32_t, labels.lows, label_lows, 8) \
    FIELD(at, WRITE, uint32_t, labels.highs, label_highs, 8)

#define BOTH(FIELD, at) DESCRIPTION(FIELD, at description.) ASSESSMENT(FIELD, at assessment.)

#define TRACE(FIELD, at) \
    FIELD(at, READ, uint64_t, events.ticks, ticks, 2) \
    FIELD(at, READ, uint64_t, events.components, components, 2) \
    FIELD(at, READ, uint8_t, events.powered, powered, 2) \
    FIELD(at, READ, uint64_t, contracts.components, contract_components, 3) \
    FIELD(at, READ, uint8_t, contracts.intents, contract_intents, 3) \
    FIELD(at, READ, uint8_t, contracts.powered, contract_powered, 3) \
    FIELD(at, READ, uint8_t, contracts.polarities, contract_polarities, 3) \
    FIELD(at, READ, uint8_t, contracts.units, contract_units, 3) \
    FIELD(at, READ, uint64_t, contracts.smallest, contract_smallest, 3) \
    FIELD(at, READ, uint64_t, contracts.largest, contract_largest, 3)

#define FINDINGS(FIELD, at) \
    FIELD(at, WRITE, uint64_t, components, finding_components, 9) \
    FIELD(at, WRITE, uint8_t, polarities, finding_polarities, 9) \
    FIELD(at, WRITE, uint8_t, units, finding_units, 9) \
    FIELD(at, WRITE, uint64_t, start_ticks, finding_start_ticks, 9) \
    FIELD(at, WRITE, uint64_t, end_ticks, finding_end_ticks, 9) \
    FIELD(at, WRITE, uint64_t, widths, finding_widths, 9) \
    FIELD(at, WRITE, uint8_t, steady, finding_steady, 9) \
    FIELD(at, WRITE, size_t, baselines, finding_baselines, 9) \
    FIELD(at, WRITE, size_t, starts, finding_starts, 9) \
    FIELD(at, WRITE, size_t, ends, finding_ends, 9) \
    FIELD(at, WRITE, uint8_t, verdicts, finding_verdicts, 9) \
    FIELD(at, WRITE, uint8_t, rationales, finding_rationales, 9)

#define CHECK_SCENE(LIST, NUMBER, STRUCT) \
    STRUCT(READ, SizhbantoScene, scene, SCENE) \
    NUMBER(first) \
    LIST(READ, size_t, room, 4)

#define FEEDBACK_SCENE(LIST, NUMBER, STRUCT) \
    STRUCT(READ, SizhbantoScene, scene, SCENE) \
    LIST(WRITE, uint64_t, feedback_ids, 4)

#define DESCRIBE_SCENE(LIST, NUMBER, STRUCT) \
    STRUCT(READ, SizhbantoScene, scene, SCENE) \
    STRUCT(KEEP, SizhbantoDescriptionLists, lists, DESCRIPTION)

#define ASSESS_SCENE(LIST, NUMBER, STRUCT) \
    STRUCT(READ, SizhbantoScene, scene, SCENE) \
    STRUCT(KEEP, SizhbantoAssessmentLists, lists, ASSESSMENT)

#define ANALYZE_SCENE(LIST, NUMBER, STRUCT) \
    STRUCT(READ, SizhbantoScene, scene, SCENE) \
    STRUCT(KEEP, SizhbantoSceneLists, lists, BOTH)

#define ASSESS_TRANSIENTS(LIST, NUMBER, STRUCT) \
    STRUCT(READ, SizhbantoTrace, trace, TRACE) \
    STRUCT(KEEP, SizhbantoFindings, findings, FINDINGS)

#define RECORD_TRACE(LIST, NUMBER, STRUCT) \
    NUMBER(held) \
    ASSESS_TRANSIENTS(LIST, NUMBER, STRUCT)

#define PROJECTED_PATH(LIST, NUMBER, STRUCT) \
    LIST(READ, uint64_t, paths, 0) \
    LIST(READ, size_t, starts, 0) \
    LIST(READ, size_t, lengths, 0) \
    NUMBER(edge)

#define SORT_POSITIONS(LIST, NUMBER, STRUCT) \
    LIST(READ, uint64_t, keys, 0) \
    LIST(WRITE, size_t, order, 0) \
    LIST(WORK, size_t, scratch, 0)

#define FIND_POSITION(LIST, NUMBER, STRUCT) \
    LIST(READ, uint64_t, keys, 0) \
    LIST(READ, size_t, order, 0) \
    NUMBER(key)

#define MARK_SHARED_COMPONENTS(LIST, NUMBER, STRUCT) \
    LIST(READ, size_t, sources, 0) \
    LIST(READ, size_t, sinks, 0) \
    LIST(WRITE, uint8_t, marks, 0) \
    LIST(WORK, size_t, head, 0) \
    LIST(WORK, size_t, next, 0) \
    LIST(WORK, size_t, order, 0) \
    LIST(WORK, size_t, group, 0)

#define RECONVERGENT_DELAY_REASONS(LIST, NUMBER, STRUCT) \
    LIST(READ, size_t, sources, 0) \
    LIST(READ, size_t, sinks, 0) \
    LIST(READ, uint32_t, low, 0) \
    LIST(READ, uint32_t, high, 0) \
    LIST(READ, size_t, order, 0) \
    LIST(WRITE, uint8_t, settled, 0) \
    LIST(WRITE, uint32_t, smallest, 0) \
    LIST(WRITE, uint32_t, largest, 0) \
    LIST(WRITE, size_t, unequal, 0) \
    LIST(WORK, size_t, head, 0) \
    LIST(WORK, size_t, next, 0) \
    LIST(WORK, size_t, incoming, 0) \
    LIST(WORK, size_t, left, 0) \
    LIST(WORK, size_t, queue, 0)

// PLACES(ROWS): the place of each list and then of each struct in its call, as an enumerator; what else is made of the
// rows stands where it is used.
#define PLACE(role, type, name, of) AT_##name,
#define PLACE_FIELD(at, role, type, path, name, of) AT_##name,
#define PLACE_FIELDS(role, type, name, FIELDS) FIELDS(PLACE_FIELD, )
#define PLACE_STRUCT(role, type, name, FIELDS) AT_##name,
#define NO_LIST(role, type, name, of)
#define NO_NUMBER(name)
#define PLACES(ROWS) enum { ROWS(PLACE, NO_NUMBER, PLACE_FIELDS) ROWS(NO_LIST, NO_NUMBER, PLACE_STRUCT) COUNT }

// What the functions of each role are lent.
#define READ_POINTER(type) const type *
#define KEEP_POINTER(type) type *
#define WRITE_POINTER(type) type *
#define WORK_POINTER(type) type *

#endif
