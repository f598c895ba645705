// A scene in its ten lists, the lists that the scene calls write, and the calls; each must leave the structs of lists
// as they were.
#ifndef SCENE_H
#define SCENE_H

#include "sizhbanto.h"
#include "check.h"

enum { SCENE_ROOM = 600, CONNECTION_ROOM = 2100, NO_DELAY = SIZHBANTO_ABSENT_DELAY };

// n and m are the lengths that the lists are lent with: seven of components, three of connections.
typedef struct Scene {
    size_t n[7], m[3];
    uint64_t ids[SCENE_ROOM], sources[CONNECTION_ROOM], sinks[CONNECTION_ROOM];
    uint8_t kinds[SCENE_ROOM], locked[SCENE_ROOM], transfers[CONNECTION_ROOM];
    uint16_t delays[SCENE_ROOM];
    int32_t xs[SCENE_ROOM], ys[SCENE_ROOM], zs[SCENE_ROOM];
} Scene;

void component(Scene *scene, uint64_t id, uint8_t kind, uint16_t delay);
void connection(Scene *scene, uint64_t source, uint64_t sink);

// The number lists of the two parts, each with the number of the list that it is a field of.
#define DESCRIPTION_LISTS(EACH)              \
    EACH(0, description.edges.sources)       \
    EACH(0, description.edges.sinks)         \
    EACH(0, description.edges.minimums)      \
    EACH(0, description.edges.maximums)      \
    EACH(0, description.edges.behaviors)     \
    EACH(1, description.devices.components)  \
    EACH(1, description.devices.xs)          \
    EACH(1, description.devices.ys)          \
    EACH(1, description.devices.zs)          \
    EACH(1, description.devices.semantics)   \
    EACH(1, description.devices.delays)      \
    EACH(2, description.evidence.kinds)      \
    EACH(2, description.evidence.sources)    \
    EACH(2, description.evidence.sinks)      \
    EACH(2, description.evidence.components) \
    EACH(2, description.evidence.blocks)
#define ASSESSMENT_LISTS(EACH)             \
    EACH(3, assessment.reasons.kinds)      \
    EACH(3, assessment.reasons.components) \
    EACH(3, assessment.reasons.blocks)     \
    EACH(3, assessment.reasons.minimums)   \
    EACH(3, assessment.reasons.maximums)   \
    EACH(4, assessment.feedback_ids)       \
    EACH(5, assessment.marks)              \
    EACH(6, assessment.projected.sources)  \
    EACH(6, assessment.projected.sinks)    \
    EACH(6, assessment.projected.inverted) \
    EACH(6, assessment.projected.minimums) \
    EACH(6, assessment.projected.maximums) \
    EACH(6, assessment.projected.starts)   \
    EACH(6, assessment.projected.lengths)  \
    EACH(7, assessment.projected.path_ids) \
    EACH(8, assessment.labels.settled)     \
    EACH(8, assessment.labels.lows)        \
    EACH(8, assessment.labels.highs)

// What output list k needs.
size_t need(const Scene *scene, size_t k);
// Lends the lists as long as they need to be, with so many entries more.
void lend_lists(SizhbantoSceneLists *lists, const Scene *scene, size_t more);

SizhbantoScene lent_scene(const Scene *scene);
SizhbantoAnalysisNumbers analyze(const SizhbantoScene *scene, SizhbantoSceneLists *lists);
SizhbantoDescriptionNumbers describe(const SizhbantoScene *scene, SizhbantoDescriptionLists *lists);
SizhbantoSceneNumbers assess(const SizhbantoScene *scene, SizhbantoAssessmentLists *lists);

// The builds that several checks use.
void lever_repeater_lamp(Scene *scene);

#endif
