// The scene calls on builds of document 01, every entry of every list.
#include <string.h>

#include "scene.h"

static Scene scene;
// what the two parts wrote and answered
static SizhbantoSceneLists lists;
static SizhbantoDescriptionNumbers description;
static SizhbantoSceneNumbers assessment;
static const SizhbantoTimedEdgeLists *const edges = &lists.description.edges;
static const SizhbantoDeviceLists *const devices = &lists.description.devices;
static const SizhbantoEvidenceLists *const evidence = &lists.description.evidence;
static const SizhbantoReasonLists *const reasons = &lists.assessment.reasons;
static const SizhbantoProjectionLists *const projected = &lists.assessment.projected;
static const SizhbantoLabelLists *const labels = &lists.assessment.labels;

// A new scene.
static Scene *build(void) {
    memset(&scene, 0, sizeof scene);
    return &scene;
}

static bool described(size_t timed_edges, size_t devices, size_t evidence) {
    SizhbantoDescriptionNumbers got = description;
    return got.number == 0 && got.place == 0 && got.timed_edges == timed_edges && got.devices == devices &&
           got.evidence == evidence;
}

// Retained and compressed components follow from one another, and so do path ids from what list 7 holds.
static bool assessed(uint8_t scope, uint8_t pattern, size_t reasons, size_t ids, size_t retained, size_t projected,
                     size_t path_ids) {
    SizhbantoSceneNumbers got = assessment;
    return got.number == 0 && got.place == 0 && got.scope == scope && got.pattern == pattern &&
           got.confidence == 100 && got.reasons == reasons && got.feedback == ids && got.retained == retained &&
           got.compressed == scene.n[0] - retained && got.projected == projected && got.path_ids == path_ids;
}

// The one call answers what the two parts do, and writes the same lists.
static bool analyzed_alike(const SizhbantoScene *lent) {
    SizhbantoSceneLists own;
    lend_lists(&own, &scene, 2);
    SizhbantoAnalysisNumbers got = analyze(lent, &own);
    bool same = true;
#define ALIKE(list, name) same = same && alike(own.name, lists.name);
    DESCRIPTION_LISTS(ALIKE)
    ASSESSMENT_LISTS(ALIKE)
    return same && got.number == 0 && got.place == 0 && got.timed_edges == description.timed_edges &&
           got.devices == description.devices && got.evidence == description.evidence &&
           got.scope == assessment.scope && got.pattern == assessment.pattern &&
           got.confidence == assessment.confidence && got.reasons == assessment.reasons &&
           got.feedback == assessment.feedback && got.retained == assessment.retained &&
           got.compressed == assessment.compressed && got.projected == assessment.projected &&
           got.path_ids == assessment.path_ids;
}

// The call that writes list 4 alone writes the same.
static bool feedback_alike(const SizhbantoScene *lent) {
    uint64_t *ids = lend(lists.assessment.feedback_ids_length, sizeof *ids);
    SizhbantoFeedbackNumbers got = sizhbanto_feedback_scene(lent, ids, lists.assessment.feedback_ids_length);
    return got.number == 0 && got.place == 0 && got.feedback == assessment.feedback &&
           got.reasons == (assessment.feedback > 0) && alike(ids, lists.assessment.feedback_ids);
}

// The nine lists as long as they need to be pass the check.
static bool room_is_enough(const SizhbantoScene *lent) {
    size_t room[9];
    for (size_t k = 0; k < 9; k += 1) {
        room[k] = need(&scene, k);
    }
    SizhbantoCheckedNumbers got = sizhbanto_check_scene(lent, 0, room, 9);
    return got.number == 0 && got.place == 0;
}

// Every scene call on the scene.
static void call_all(void) {
    SizhbantoScene lent = lent_scene(&scene);
    take_back();
    lend_lists(&lists, &scene, 2);
    CHECK(room_is_enough(&lent) && all_kept());
    description = describe(&lent, &lists.description);
    assessment = assess(&lent, &lists.assessment);
    CHECK(analyzed_alike(&lent));
    CHECK(feedback_alike(&lent));
}

static void empty(void) {
    build();
    call_all();
    CHECK(described(0, 0, 0));
    CHECK(assessed(SIZHBANTO_TEMPORAL_SCOPE_STEADY_STATE_SAFE, SIZHBANTO_BEHAVIOR_PATTERN_NOTHING, 0, 0, 0, 0, 0));
    CHECK(all_kept());
}

// The pointer of every list without entries may be NULL; of an empty scene list 3 alone needs one.
static void empty_without_lists(void) {
    SizhbantoScene nothing;
    SizhbantoSceneLists none;
    memset(&nothing, 0, sizeof nothing);
    memset(&none, 0, sizeof none);
    SizhbantoAnalysisNumbers refused = analyze(&nothing, &none);
    CHECK(refused.number == SIZHBANTO_REFUSAL_NUMBER_LIST_TOO_SHORT && refused.place == 3);
    take_back();
#define LEND_REASONS(name)                     \
    none.assessment.reasons.name##_length = 1; \
    none.assessment.reasons.name = lend(1, sizeof *none.assessment.reasons.name);
    LEND_REASONS(kinds)
    LEND_REASONS(components)
    LEND_REASONS(blocks)
    LEND_REASONS(minimums)
    LEND_REASONS(maximums)
    CHECK(analyze(&nothing, &none).number == 0);
    CHECK(describe(&nothing, &none.description).number == 0);
    CHECK(assess(&nothing, &none.assessment).number == 0);
    CHECK(sizhbanto_feedback_scene(&nothing, NULL, 0).number == 0);
    CHECK(sizhbanto_check_scene(&nothing, 0, NULL, 0).number == 0);
    CHECK(all_kept());
}

// Lists 0 and 6 of a scene without connections may be NULL too.
static void torch_without_connections(void) {
    component(build(), 1, SIZHBANTO_BLOCK_KIND_REDSTONE_TORCH, NO_DELAY);
    call_all();
    CHECK(described(0, 1, 1));
    CHECK(assessed(SIZHBANTO_TEMPORAL_SCOPE_STEADY_STATE_SAFE, SIZHBANTO_BEHAVIOR_PATTERN_DELAYED_PATH, 0, 0, 1, 0, 0));
    SizhbantoScene lent = lent_scene(&scene);
    memset(&lent.connections, 0, sizeof lent.connections);
    memset(&lists.description.edges, 0, sizeof lists.description.edges);
    lists.assessment.projected = (SizhbantoProjectionLists){.path_ids = projected->path_ids, .path_ids_length = 1};
    CHECK(analyze(&lent, &lists).number == 0);
}

static void delayed_lamp(void) {
    lever_repeater_lamp(build());
    scene.xs[1] = -1;
    scene.ys[1] = 64;
    scene.zs[1] = INT32_MIN;
    call_all();
    CHECK(described(2, 1, 3));
    HOLDS(uint64_t, edges->sources, 1, 2);
    HOLDS(uint64_t, edges->sinks, 2, 3);
    HOLDS(uint32_t, edges->minimums, 0, 4);
    HOLDS(uint32_t, edges->maximums, 0, 4);
    HOLDS(uint8_t, edges->behaviors, SIZHBANTO_EDGE_BEHAVIOR_IMMEDIATE, SIZHBANTO_EDGE_BEHAVIOR_DELAYED_FORWARD);
    HOLDS(uint64_t, devices->components, 2);
    HOLDS(int32_t, devices->xs, -1);
    HOLDS(int32_t, devices->ys, 64);
    HOLDS(int32_t, devices->zs, INT32_MIN);
    HOLDS(uint8_t, devices->semantics, SIZHBANTO_TEMPORAL_SEMANTICS_DELAYED_FORWARD);
    HOLDS(uint32_t, devices->delays, 4);
    CHECK(assessed(SIZHBANTO_TEMPORAL_SCOPE_STEADY_STATE_SAFE, SIZHBANTO_BEHAVIOR_PATTERN_DELAYED_PATH, 0, 0, 2, 1, 3));
    EMPTY(reasons->kinds);
    EMPTY(lists.assessment.feedback_ids);
    HOLDS(uint8_t, lists.assessment.marks, SIZHBANTO_MARK_RETAINED, SIZHBANTO_MARK_COMPRESSED, SIZHBANTO_MARK_RETAINED);
    HOLDS(uint64_t, projected->sources, 1);
    HOLDS(uint64_t, projected->sinks, 3);
    HOLDS(uint8_t, projected->inverted, 0);
    HOLDS(uint32_t, projected->minimums, 4);
    HOLDS(uint32_t, projected->maximums, 4);
    HOLDS(size_t, projected->starts, 0);
    HOLDS(size_t, projected->lengths, 3);
    HOLDS(uint64_t, projected->path_ids, 1, 2, 3);
    HOLDS(uint8_t, labels->settled, 1, 1, 1);
    HOLDS(uint32_t, labels->lows, 0, 0, 4);
    HOLDS(uint32_t, labels->highs, 0, 0, 4);
}

static bool part_is(SizhbantoPathPart part, size_t start, size_t length) {
    return part.start == start && part.length == length;
}

static void unequal_lamp(void) {
    build();
    component(&scene, 1, SIZHBANTO_BLOCK_KIND_LEVER, NO_DELAY);
    component(&scene, 2, SIZHBANTO_BLOCK_KIND_REPEATER, 1);
    component(&scene, 4, SIZHBANTO_BLOCK_KIND_REDSTONE_LAMP, NO_DELAY);
    connection(&scene, 1, 2);
    connection(&scene, 2, 4);
    connection(&scene, 1, 4);
    call_all();
    CHECK(assessed(SIZHBANTO_TEMPORAL_SCOPE_TIMING_SENSITIVE, SIZHBANTO_BEHAVIOR_PATTERN_DELAYED_PATH, 1, 0, 2, 2, 5));
    HOLDS(uint8_t, reasons->kinds, SIZHBANTO_TIMING_REASON_UNEQUAL_RECONVERGENT_DELAY);
    HOLDS(uint64_t, reasons->components, 4);
    HOLDS(uint8_t, reasons->blocks, 0);
    HOLDS(uint32_t, reasons->minimums, 0);
    HOLDS(uint32_t, reasons->maximums, 1);
    HOLDS(uint32_t, projected->minimums, 1, 0);
    HOLDS(uint32_t, projected->maximums, 1, 0);
    HOLDS(uint64_t, projected->path_ids, 1, 2, 4, 1, 4);
    HOLDS(uint32_t, labels->lows, 0, 0, 0);
    HOLDS(uint32_t, labels->highs, 0, 0, 1);
    size_t *starts = projected->starts, *lengths = projected->lengths;
    CHECK(part_is(sizhbanto_projected_path(projected->path_ids, 5, starts, 2, lengths, 2, 0), 0, 3));
    CHECK(part_is(sizhbanto_projected_path(projected->path_ids, 5, starts, 2, lengths, 2, 1), 3, 2));
    CHECK(part_is(sizhbanto_projected_path(projected->path_ids, 5, starts, 2, lengths, 2, 2), 0, 0));
    CHECK(part_is(sizhbanto_projected_path(projected->path_ids, 5, starts, 2, lengths, 1, 1), 0, 0));
    CHECK(part_is(sizhbanto_projected_path(projected->path_ids, 4, starts, 2, lengths, 2, 1), 0, 0));
    starts[1] = SIZE_MAX;
    CHECK(part_is(sizhbanto_projected_path(projected->path_ids, 5, starts, 2, lengths, 2, 1), 0, 0));
}

static void repeater_loop(void) {
    build();
    component(&scene, 1, SIZHBANTO_BLOCK_KIND_REPEATER, NO_DELAY);
    component(&scene, 2, SIZHBANTO_BLOCK_KIND_REPEATER, NO_DELAY);
    connection(&scene, 1, 2);
    connection(&scene, 2, 1);
    call_all();
    CHECK(assessed(SIZHBANTO_TEMPORAL_SCOPE_TEMPORAL_REQUIRED, SIZHBANTO_BEHAVIOR_PATTERN_LATCH_CANDIDATE, 1, 2, 0, 0,
                   0));
    HOLDS(uint8_t, reasons->kinds, SIZHBANTO_TIMING_REASON_FEEDBACK);
    HOLDS(uint64_t, reasons->components, 0);
    HOLDS(uint64_t, lists.assessment.feedback_ids, 1, 2);
    HOLDS(uint8_t, lists.assessment.marks, SIZHBANTO_MARK_COMPRESSED, SIZHBANTO_MARK_COMPRESSED);
    EMPTY(projected->sources);
    EMPTY(projected->path_ids);
    HOLDS(uint8_t, labels->settled, 0, 0);
    HOLDS(uint32_t, labels->lows, 0, 0);
    HOLDS(uint32_t, labels->highs, 0, 0);
}

static void torch_clock(void) {
    build();
    component(&scene, 1, SIZHBANTO_BLOCK_KIND_REDSTONE_TORCH, NO_DELAY);
    component(&scene, 2, SIZHBANTO_BLOCK_KIND_REDSTONE_WIRE, NO_DELAY);
    connection(&scene, 1, 2);
    connection(&scene, 2, 1);
    call_all();
    CHECK(described(2, 1, 3));
    HOLDS(uint8_t, edges->behaviors, SIZHBANTO_EDGE_BEHAVIOR_DELAYED_INVERT,
          SIZHBANTO_EDGE_BEHAVIOR_ORDER_SENSITIVE);
    HOLDS(uint8_t, devices->semantics, SIZHBANTO_TEMPORAL_SEMANTICS_DELAYED_INVERT);
    CHECK(assessed(SIZHBANTO_TEMPORAL_SCOPE_TEMPORAL_REQUIRED, SIZHBANTO_BEHAVIOR_PATTERN_CLOCK_CANDIDATE, 1, 1, 1, 1,
                   3));
    HOLDS(uint64_t, lists.assessment.feedback_ids, 1);
    HOLDS(uint64_t, projected->sources, 1);
    HOLDS(uint64_t, projected->sinks, 1);
    HOLDS(uint8_t, projected->inverted, 1);
    HOLDS(uint64_t, projected->path_ids, 1, 2, 1);
}

static void wire_ring(void) {
    build();
    for (uint64_t id = 1; id <= 3; id += 1) {
        component(&scene, id, SIZHBANTO_BLOCK_KIND_REDSTONE_WIRE, NO_DELAY);
        connection(&scene, id, id % 3 + 1);
    }
    call_all();
    CHECK(assessed(SIZHBANTO_TEMPORAL_SCOPE_STEADY_STATE_SAFE, SIZHBANTO_BEHAVIOR_PATTERN_NOTHING, 0, 0, 0, 0, 0));
    HOLDS(uint8_t, labels->settled, 0, 0, 0);
}

// The example of the report program.
static void lone_torch(void) {
    build();
    component(&scene, 1, SIZHBANTO_BLOCK_KIND_REDSTONE_TORCH, NO_DELAY);
    connection(&scene, 1, 1);
    call_all();
    CHECK(assessed(SIZHBANTO_TEMPORAL_SCOPE_STEADY_STATE_SAFE, SIZHBANTO_BEHAVIOR_PATTERN_DELAYED_PATH, 0, 0, 1, 1, 2));
    HOLDS(uint8_t, projected->inverted, 1);
    HOLDS(uint32_t, projected->minimums, 1);
    HOLDS(uint32_t, projected->maximums, 1);
    HOLDS(uint64_t, projected->path_ids, 1, 1);
    HOLDS(uint8_t, labels->settled, 0);
}

// Every kind of reason but Feedback, ids that don't rise, and a support of absent ids.
static void build_stateful_devices(void) {
    build();
    component(&scene, 7, SIZHBANTO_BLOCK_KIND_COMPARATOR, NO_DELAY);
    component(&scene, 5, SIZHBANTO_BLOCK_KIND_PISTON, NO_DELAY);
    component(&scene, 9, SIZHBANTO_BLOCK_KIND_REPEATER, NO_DELAY);
    component(&scene, 2, SIZHBANTO_BLOCK_KIND_BUTTON, NO_DELAY);
    scene.locked[2] = 1;
    connection(&scene, 2, 7);
    connection(&scene, 7, 5);
    connection(&scene, 99, 98);
    connection(&scene, 9, 5);
    scene.transfers[2] = SIZHBANTO_TRANSFER_KIND_STRUCTURAL_SUPPORT;
}

static void stateful_devices(void) {
    build_stateful_devices();
    call_all();
    CHECK(described(3, 3, 7));
    HOLDS(uint64_t, edges->sources, 2, 7, 9);
    HOLDS(uint32_t, edges->minimums, 0, 0, 1);
    HOLDS(uint8_t, edges->behaviors, SIZHBANTO_EDGE_BEHAVIOR_IMMEDIATE, SIZHBANTO_EDGE_BEHAVIOR_ANALOG,
          SIZHBANTO_EDGE_BEHAVIOR_DELAYED_FORWARD);
    HOLDS(uint64_t, devices->components, 7, 5, 9);
    HOLDS(uint8_t, devices->semantics, SIZHBANTO_TEMPORAL_SEMANTICS_COMPARE_OR_SUBTRACT,
          SIZHBANTO_TEMPORAL_SEMANTICS_MECHANICAL_ACTUATION, SIZHBANTO_TEMPORAL_SEMANTICS_DELAYED_FORWARD);
    HOLDS(uint32_t, devices->delays, 0, 1, 1);
    HOLDS(uint8_t, evidence->kinds, 0, 0, 0, 0, 1, 1, 1);
    HOLDS(uint64_t, evidence->sources, 2, 7, 99, 9, 0, 0, 0);
    HOLDS(uint64_t, evidence->sinks, 7, 5, 98, 5, 0, 0, 0);
    HOLDS(uint64_t, evidence->components, 0, 0, 0, 0, 7, 5, 9);
    HOLDS(uint8_t, evidence->blocks, 0, 0, 0, 0, 11, 12, 10);
    CHECK(assessed(SIZHBANTO_TEMPORAL_SCOPE_TEMPORAL_REQUIRED, SIZHBANTO_BEHAVIOR_PATTERN_DELAYED_PATH, 4, 0, 4, 3, 6));
    HOLDS(uint8_t, reasons->kinds, SIZHBANTO_TIMING_REASON_STATEFUL_OR_MECHANICAL_DEVICE,
          SIZHBANTO_TIMING_REASON_STATEFUL_OR_MECHANICAL_DEVICE, SIZHBANTO_TIMING_REASON_LOCKED_REPEATER,
          SIZHBANTO_TIMING_REASON_UNEQUAL_RECONVERGENT_DELAY);
    HOLDS(uint64_t, reasons->components, 7, 5, 9, 5);
    HOLDS(uint8_t, reasons->blocks, 11, 12, 0, 0);
    HOLDS(uint32_t, reasons->minimums, 0, 0, 0, 0);
    HOLDS(uint32_t, reasons->maximums, 0, 0, 0, 1);
    HOLDS(uint64_t, projected->sources, 2, 7, 9);
    HOLDS(uint64_t, projected->sinks, 7, 5, 5);
    HOLDS(size_t, projected->starts, 0, 2, 4);
    HOLDS(size_t, projected->lengths, 2, 2, 2);
    HOLDS(uint64_t, projected->path_ids, 2, 7, 7, 5, 9, 5);
    HOLDS(uint32_t, labels->highs, 0, 1, 0, 0);
}

static void most_components(void) {
    build();
    for (uint64_t id = 0; id < SIZHBANTO_MAX_COMPONENTS; id += 1) {
        component(&scene, id, SIZHBANTO_BLOCK_KIND_LEVER, NO_DELAY);
    }
    call_all();
    CHECK(described(0, 0, 0));
    CHECK(assessed(SIZHBANTO_TEMPORAL_SCOPE_STEADY_STATE_SAFE, SIZHBANTO_BEHAVIOR_PATTERN_NOTHING, 0, 0, 512, 0, 0));
}

void check_scenes(void) {
    empty();
    empty_without_lists();
    torch_without_connections();
    delayed_lamp();
    unequal_lamp();
    repeater_loop();
    torch_clock();
    wire_ring();
    lone_torch();
    stateful_devices();
    most_components();
}
