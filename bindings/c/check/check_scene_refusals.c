// Refusals 1 to 8 by every call of a scene; every list must be as it was lent.
#include <string.h>

#include "scene.h"

static Scene scene;
static SizhbantoSceneLists lists;

static void good(void) {
    memset(&scene, 0, sizeof scene);
    lever_repeater_lamp(&scene);
}

static bool same(uint32_t number, uint64_t place, uint32_t wanted, uint64_t wanted_place) {
    return number == wanted && place == wanted_place;
}

static bool analyzed_by(uint32_t number, uint64_t place) {
    SizhbantoScene lent = lent_scene(&scene);
    SizhbantoAnalysisNumbers got = analyze(&lent, &lists);
    uint64_t rest = got.reasons + got.feedback + got.retained + got.compressed + got.projected + got.path_ids;
    rest += got.timed_edges + got.devices + got.evidence + got.scope + got.pattern + got.confidence;
    return same(got.number, got.place, number, place) && rest == 0;
}

static bool described_by(uint32_t number, uint64_t place) {
    SizhbantoScene lent = lent_scene(&scene);
    SizhbantoDescriptionNumbers got = describe(&lent, &lists.description);
    return same(got.number, got.place, number, place) && got.timed_edges + got.devices + got.evidence == 0;
}

static bool assessed_by(uint32_t number, uint64_t place) {
    SizhbantoScene lent = lent_scene(&scene);
    SizhbantoSceneNumbers got = assess(&lent, &lists.assessment);
    uint64_t rest = got.reasons + got.feedback + got.retained + got.compressed + got.projected + got.path_ids;
    return same(got.number, got.place, number, place) && rest + got.scope + got.pattern + got.confidence == 0;
}

static bool fed_back_by(uint32_t number, uint64_t place) {
    SizhbantoScene lent = lent_scene(&scene);
    const SizhbantoAssessmentLists *own = &lists.assessment;
    SizhbantoFeedbackNumbers got = sizhbanto_feedback_scene(&lent, own->feedback_ids, own->feedback_ids_length);
    return same(got.number, got.place, number, place) && got.feedback + got.reasons == 0;
}

static bool checked_by(uint32_t number, uint64_t place) {
    SizhbantoScene lent = lent_scene(&scene);
    SizhbantoCheckedNumbers got = sizhbanto_check_scene(&lent, 0, NULL, 0);
    return same(got.number, got.place, number, place);
}

// All calls refuse the scene alike.
#define REFUSED(number, place)                                                                      \
    take_back();                                                                                    \
    lend_lists(&lists, &scene, 1);                                                                  \
    CHECK(analyzed_by(number, place) && described_by(number, place) && assessed_by(number, place)); \
    CHECK(fed_back_by(number, place) && checked_by(number, place) && all_kept())

static void sizes(void) {
    good();
    while (scene.n[0] <= SIZHBANTO_MAX_COMPONENTS) {
        component(&scene, 1, 99, 999);
    }
    REFUSED(SIZHBANTO_REFUSAL_NUMBER_TOO_MANY_COMPONENTS, 513);
    good();
    while (scene.m[0] <= SIZHBANTO_MAX_CONNECTIONS) {
        connection(&scene, 1, 99);
    }
    REFUSED(SIZHBANTO_REFUSAL_NUMBER_TOO_MANY_CONNECTIONS, 2049);
}

static void components(void) {
    good();
    scene.ids[2] = 1;
    REFUSED(SIZHBANTO_REFUSAL_NUMBER_ID_USED_EARLIER, 2);
    scene.kinds[2] = 13;
    REFUSED(SIZHBANTO_REFUSAL_NUMBER_COMPONENT_OUT_OF_RANGE, 2);
    good();
    scene.delays[1] = 257;
    REFUSED(SIZHBANTO_REFUSAL_NUMBER_COMPONENT_OUT_OF_RANGE, 1);
    good();
    scene.locked[0] = 2;
    REFUSED(SIZHBANTO_REFUSAL_NUMBER_COMPONENT_OUT_OF_RANGE, 0);
}

static void connections(void) {
    good();
    scene.transfers[1] = 7;
    REFUSED(SIZHBANTO_REFUSAL_NUMBER_TRANSFER_OUT_OF_RANGE, 1);
    scene.sinks[0] = 4;
    REFUSED(SIZHBANTO_REFUSAL_NUMBER_END_MISSING, 0);
    good();
    scene.sources[1] = 0;
    REFUSED(SIZHBANTO_REFUSAL_NUMBER_END_MISSING, 1);
}

static void lengths(void) {
    for (size_t k = 0; k < 10; k += 1) {
        good();
        if (k < 7) {
            scene.n[k] -= 1;
        } else {
            scene.m[k - 7] -= 1;
        }
        REFUSED(SIZHBANTO_REFUSAL_NUMBER_LENGTHS_DIFFER, k < 7 ? 0 : 1);
    }
}

// Each number list by itself one entry too short.
static void rooms(void) {
    good();
    take_back();
    lend_lists(&lists, &scene, 0);
#define SHORT(refused, list, name)                                     \
    lists.name##_length -= 1;                                          \
    CHECK(refused(SIZHBANTO_REFUSAL_NUMBER_LIST_TOO_SHORT, list));     \
    CHECK(analyzed_by(SIZHBANTO_REFUSAL_NUMBER_LIST_TOO_SHORT, list)); \
    lists.name##_length += 1;
#define SHORT_DESCRIBED(list, name) SHORT(described_by, list, name)
#define SHORT_ASSESSED(list, name) SHORT(assessed_by, list, name)
    DESCRIPTION_LISTS(SHORT_DESCRIBED)
    ASSESSMENT_LISTS(SHORT_ASSESSED)
    SHORT(fed_back_by, 4, assessment.feedback_ids)
    CHECK(all_kept());
    SizhbantoScene lent = lent_scene(&scene);
    for (size_t k = 0; k < 9; k += 1) {
        size_t room = need(&scene, k) - 1;
        SizhbantoCheckedNumbers got = sizhbanto_check_scene(&lent, k, &room, 1);
        CHECK(got.number == SIZHBANTO_REFUSAL_NUMBER_LIST_TOO_SHORT && got.place == k);
    }
}

// Where many lists are too short, the first is named; those of the other part are not tested by a part.
static void many_short(void) {
#define SHORTEN(list, name) lists.name##_length -= 1;
#define FIRST_NAMED(list, name)                                        \
    CHECK(analyzed_by(SIZHBANTO_REFUSAL_NUMBER_LIST_TOO_SHORT, list)); \
    lists.name##_length += 1;
    good();
    take_back();
    lend_lists(&lists, &scene, 0);
    DESCRIPTION_LISTS(SHORTEN)
    ASSESSMENT_LISTS(SHORTEN)
    CHECK(assessed_by(SIZHBANTO_REFUSAL_NUMBER_LIST_TOO_SHORT, 3));
    DESCRIPTION_LISTS(FIRST_NAMED)
    ASSESSMENT_LISTS(FIRST_NAMED)
    CHECK(all_kept());
}

// One torch and no connection, and list 3 alone is too short: the first part writes lists 1 and 2, the other is
// refused, and so is the one call, which writes nothing.
static void other_part_short(void) {
    memset(&scene, 0, sizeof scene);
    component(&scene, 8, SIZHBANTO_BLOCK_KIND_REDSTONE_TORCH, NO_DELAY);
    take_back();
    lend_lists(&lists, &scene, 0);
    lists.assessment.reasons.maximums_length = 2;
    CHECK(analyzed_by(SIZHBANTO_REFUSAL_NUMBER_LIST_TOO_SHORT, 3));
    CHECK(assessed_by(SIZHBANTO_REFUSAL_NUMBER_LIST_TOO_SHORT, 3));
    CHECK(all_kept());
    SizhbantoScene lent = lent_scene(&scene);
    SizhbantoDescriptionNumbers got = describe(&lent, &lists.description);
    CHECK(got.number == 0 && got.timed_edges == 0 && got.devices == 1 && got.evidence == 1);
    HOLDS(uint64_t, lists.description.devices.components, 8);
    HOLDS(uint8_t, lists.description.evidence.kinds, SIZHBANTO_TEMPORAL_EVIDENCE_DEVICE_SEMANTICS);
    HOLDS(uint64_t, lists.description.evidence.components, 8);
}

void check_scene_refusals(void) {
    sizes();
    components();
    connections();
    lengths();
    rooms();
    many_short();
    other_part_short();
}
