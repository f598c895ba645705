// Each export: its lists and structs, the call, and what must hold of its answer.
#include "exports.h"

#include "call.h"

// Writes the lists of a struct into it, by the names of its fields.
#define PUT(at, role, type, path, name, of) \
    at path = (role##_POINTER(type))*lent++, at path##_length = (list++)->length;
#define PUTTER(type, FIELDS, and_before) \
    static void put_##type(const struct call *call, size_t first, void *const *lent, void *into) \
    { \
        const struct list *list = &call->lists[first]; \
        type *put = into; \
        and_before; \
        lent += first; \
        FIELDS(PUT, put->) \
    }
PUTTER(SizhbantoScene, SCENE, )
PUTTER(SizhbantoDescriptionLists, DESCRIPTION, )
PUTTER(SizhbantoAssessmentLists, ASSESSMENT, )
PUTTER(SizhbantoSceneLists, BOTH, )
PUTTER(SizhbantoTrace, TRACE, put->unit = call->unit)
PUTTER(SizhbantoFindings, FINDINGS, )

// The rows of exports.h as entries of a table: the lists, then the structs.
#define LISTS(ROWS) {ROWS(ENTRY, NO_NUMBER, ENTRIES) ROWS(NO_LIST, NO_NUMBER, ENTRY_STRUCT)}
#define ENTRY(role, type, name, of) {#name, #type, role, sizeof(type), of, 0, NULL, 0, NO_POINTER, NULL, 0, 0},
#define ENTRY_FIELD(at, role, type, path, name, of) \
    {#path, #type, role, sizeof(type), of, 0, NULL, 0, NO_POINTER, NULL, 0, 0},
#define ENTRIES(role, type, name, FIELDS) FIELDS(ENTRY_FIELD, )
#define ONE_MORE(at, role, type, path, name, of) +1
#define ENTRY_STRUCT(role, type, name, FIELDS) \
    {#name, #type, role, 1, 0, FIELDS(ONE_MORE, ), put_##type, sizeof(type), NO_POINTER, NULL, 0, 0},

static const struct list check_lists[] = LISTS(CHECK_SCENE);
static const struct list feedback_lists[] = LISTS(FEEDBACK_SCENE);
static const struct list describe_lists[] = LISTS(DESCRIBE_SCENE);
static const struct list assess_lists[] = LISTS(ASSESS_SCENE);
static const struct list analyze_lists[] = LISTS(ANALYZE_SCENE);
static const struct list trace_lists[] = LISTS(ASSESS_TRANSIENTS);
static const struct list path_lists[] = LISTS(PROJECTED_PATH);
static const struct list sort_lists[] = LISTS(SORT_POSITIONS);
static const struct list find_lists[] = LISTS(FIND_POSITION);
static const struct list mark_lists[] = LISTS(MARK_SHARED_COMPONENTS);
static const struct list reconvergence_lists[] = LISTS(RECONVERGENT_DELAY_REASONS);

// The call: the rows as what is handed over, `, pointer, length` or `, number` or `, pointer`, but for the first comma.
#define HANDED(role, type, name, of) , (role##_POINTER(type))lent[AT_##name], call->lists[AT_##name].length
#define HANDED_NUMBER(name) , call->name
#define HANDED_STRUCT(role, type, name, FIELDS) , (role##_POINTER(type))lent[AT_##name]
#define CALL(function, ROWS) CALL_PAST_COMMA(function, ROWS(HANDED, HANDED_NUMBER, HANDED_STRUCT))
#define CALL_PAST_COMMA(function, ...) CALL_REST(function, __VA_ARGS__)
#define CALL_REST(function, nothing, ...) function(__VA_ARGS__)

// Fields are taken one by one: what lies between them is no part of an answer.
static void answer_with(struct answer *answer, unsigned number, uint64_t place, size_t count, const uint64_t *rest)
{
    answer->number = number;
    answer->place = place;
    answer->count = count;
    for (size_t k = 0; k < count; k++)
        answer->numbers[k] = rest[k];
}

#define ROW(...) ((const uint64_t[]){__VA_ARGS__})
#define ANSWER(number, place, ...) \
    answer_with(answer, number, place, sizeof ROW(__VA_ARGS__) / sizeof(uint64_t), ROW(__VA_ARGS__))

static void run_check(const struct call *call, void *const *lent, struct answer *answer)
{
    PLACES(CHECK_SCENE);
    SizhbantoCheckedNumbers r = CALL(sizhbanto_check_scene, CHECK_SCENE);
    answer_with(answer, r.number, r.place, 0, NULL);
}

static void run_feedback(const struct call *call, void *const *lent, struct answer *answer)
{
    PLACES(FEEDBACK_SCENE);
    SizhbantoFeedbackNumbers r = CALL(sizhbanto_feedback_scene, FEEDBACK_SCENE);
    ANSWER(r.number, r.place, r.feedback, r.reasons);
}

static void run_describe(const struct call *call, void *const *lent, struct answer *answer)
{
    PLACES(DESCRIBE_SCENE);
    (void)call; // all its lists are in structs
    SizhbantoDescriptionNumbers r = CALL(sizhbanto_describe_scene, DESCRIBE_SCENE);
    ANSWER(r.number, r.place, r.timed_edges, r.devices, r.evidence);
}

static void run_assess(const struct call *call, void *const *lent, struct answer *answer)
{
    PLACES(ASSESS_SCENE);
    (void)call; // all its lists are in structs
    SizhbantoSceneNumbers r = CALL(sizhbanto_assess_scene, ASSESS_SCENE);
    ANSWER(r.number, r.place, r.scope, r.pattern, r.confidence, r.reasons, r.feedback, r.retained, r.compressed,
        r.projected, r.path_ids);
}

static void run_analyze(const struct call *call, void *const *lent, struct answer *answer)
{
    PLACES(ANALYZE_SCENE);
    (void)call; // all its lists are in structs
    SizhbantoAnalysisNumbers r = CALL(sizhbanto_analyze_scene, ANALYZE_SCENE);
    ANSWER(r.number, r.place, r.timed_edges, r.devices, r.evidence, r.scope, r.pattern, r.confidence, r.reasons,
        r.feedback, r.retained, r.compressed, r.projected, r.path_ids);
}

static void run_trace(const struct call *call, void *const *lent, struct answer *answer)
{
    PLACES(ASSESS_TRANSIENTS);
    (void)call; // all its lists are in structs
    SizhbantoAssessedTrace r = CALL(sizhbanto_assess_transients, ASSESS_TRANSIENTS);
    ANSWER(r.number, r.place, r.findings, r.contracts_applied, r.tallies[0], r.tallies[1], r.tallies[2], r.tallies[3],
        r.tallies[4]);
}

static void run_recording(const struct call *call, void *const *lent, struct answer *answer)
{
    PLACES(RECORD_TRACE);
    SizhbantoRecordedTrace r = CALL(sizhbanto_record_trace, RECORD_TRACE);
    ANSWER(r.number, r.place, r.findings, r.contracts_applied, r.held.traces, r.held.findings, r.held.tallies[0],
        r.held.tallies[1], r.held.tallies[2], r.held.tallies[3], r.held.tallies[4]);
}

static void run_path(const struct call *call, void *const *lent, struct answer *answer)
{
    PLACES(PROJECTED_PATH);
    SizhbantoPathPart r = CALL(sizhbanto_projected_path, PROJECTED_PATH);
    ANSWER(r.length > 0 ? 0 : UNNUMBERED, 0, r.start, r.length);
}

static void run_sort(const struct call *call, void *const *lent, struct answer *answer)
{
    PLACES(SORT_POSITIONS);
    bool r = CALL(sizhbanto_sort_positions, SORT_POSITIONS);
    answer_with(answer, r ? 0 : UNNUMBERED, 0, 0, NULL);
}

static void run_find(const struct call *call, void *const *lent, struct answer *answer)
{
    PLACES(FIND_POSITION);
    SizhbantoFoundNumbers r = CALL(sizhbanto_find_position, FIND_POSITION);
    ANSWER(r.found ? 0 : UNNUMBERED, 0, r.position);
}

static void run_marking(const struct call *call, void *const *lent, struct answer *answer)
{
    PLACES(MARK_SHARED_COMPONENTS);
    bool r = CALL(sizhbanto_mark_shared_components, MARK_SHARED_COMPONENTS);
    answer_with(answer, r ? 0 : UNNUMBERED, 0, 0, NULL);
}

static void run_reconvergence(const struct call *call, void *const *lent, struct answer *answer)
{
    PLACES(RECONVERGENT_DELAY_REASONS);
    SizhbantoReconverged r = CALL(sizhbanto_reconvergent_delay_reasons, RECONVERGENT_DELAY_REASONS);
    ANSWER(r.fits ? 0 : UNNUMBERED, 0, r.unequal);
}

#define TABLE(lists) sizeof(lists) / sizeof *(lists), lists
#define FITS_OR_NOT (1 | 1 << UNNUMBERED)
#define SCENE_NUMBERS 0x01FF     // 0 to 8
#define TRACE_NUMBERS 0x1F81     // 0, 7 to 12
#define RECORDING_NUMBERS 0xBF81 // 0, 7 to 13, 15
#define DESCRIBE_FIELDS "timed_edges devices evidence "
#define ASSESS_FIELDS "scope pattern confidence reasons feedback retained compressed projected path_ids "
#define TALLY_FIELDS "observed deviation candidate confirmed intentional "
#define TRACE_FIELDS "findings contracts_applied " TALLY_FIELDS
#define RECORDING_FIELDS "findings contracts_applied traces_held findings_held " TALLY_FIELDS

const struct export exports[EXPORTS] = {
    {"sizhbanto_check_scene", TABLE(check_lists), "", SCENE_NUMBERS, make_check, run_check, judge_check, read_nothing},
    {"sizhbanto_feedback_scene", TABLE(feedback_lists), "feedback reasons ", SCENE_NUMBERS, make_scene, run_feedback,
        judge_feedback, read_feedback},
    {"sizhbanto_describe_scene", TABLE(describe_lists), DESCRIBE_FIELDS, SCENE_NUMBERS, make_scene, run_describe,
        judge_describe, read_description},
    {"sizhbanto_assess_scene", TABLE(assess_lists), ASSESS_FIELDS, SCENE_NUMBERS, make_scene, run_assess, judge_assess,
        read_assessment},
    {"sizhbanto_analyze_scene", TABLE(analyze_lists), DESCRIBE_FIELDS ASSESS_FIELDS, SCENE_NUMBERS, make_scene,
        run_analyze, judge_analyze, read_analysis},
    {"sizhbanto_projected_path", TABLE(path_lists), "start length ", FITS_OR_NOT, make_path, run_path, judge_path,
        read_nothing},
    {"sizhbanto_assess_transients", TABLE(trace_lists), TRACE_FIELDS, TRACE_NUMBERS, make_trace, run_trace, judge_trace,
        read_findings},
    {"sizhbanto_record_trace", TABLE(trace_lists), RECORDING_FIELDS, RECORDING_NUMBERS, make_recording, run_recording,
        judge_recording, read_findings},
    {"sizhbanto_sort_positions", TABLE(sort_lists), "", FITS_OR_NOT, make_sort, run_sort, judge_sort, read_sorted},
    {"sizhbanto_find_position", TABLE(find_lists), "position ", FITS_OR_NOT, make_find, run_find, judge_find,
        read_nothing},
    {"sizhbanto_mark_shared_components", TABLE(mark_lists), "", FITS_OR_NOT, make_marking, run_marking, judge_marking,
        read_nothing},
    {"sizhbanto_reconvergent_delay_reasons", TABLE(reconvergence_lists), "unequal ", FITS_OR_NOT, make_reconvergence,
        run_reconvergence, judge_reconvergence, read_sums},
};
