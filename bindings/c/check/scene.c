#include <string.h>

#include "scene.h"

void component(Scene *scene, uint64_t id, uint8_t kind, uint16_t delay) {
    size_t i = scene->n[0];
    scene->ids[i] = id;
    scene->kinds[i] = kind;
    scene->delays[i] = delay;
    for (size_t k = 0; k < 7; k += 1) {
        scene->n[k] = i + 1;
    }
}

void connection(Scene *scene, uint64_t source, uint64_t sink) {
    size_t j = scene->m[0];
    scene->sources[j] = source;
    scene->sinks[j] = sink;
    scene->transfers[j] = SIZHBANTO_TRANSFER_KIND_DIRECT_SIGNAL;
    for (size_t k = 0; k < 3; k += 1) {
        scene->m[k] = j + 1;
    }
}

size_t need(const Scene *scene, size_t k) {
    size_t n = scene->n[0], m = scene->m[0];
    const size_t needs[] = {m, n, m + n, 2 * n + 1, n, n, m, 2 * m + n, n};
    return needs[k];
}

void lend_lists(SizhbantoSceneLists *lists, const Scene *scene, size_t more) {
#define LEND(list, name)                             \
    lists->name##_length = need(scene, list) + more; \
    lists->name = lend(lists->name##_length, sizeof *lists->name);
    DESCRIPTION_LISTS(LEND)
    ASSESSMENT_LISTS(LEND)
}

SizhbantoScene lent_scene(const Scene *scene) {
    return (SizhbantoScene){
        .components = {.ids = scene->ids, .ids_length = scene->n[0],
                       .kinds = scene->kinds, .kinds_length = scene->n[1],
                       .delays = scene->delays, .delays_length = scene->n[2],
                       .locked = scene->locked, .locked_length = scene->n[3],
                       .xs = scene->xs, .xs_length = scene->n[4],
                       .ys = scene->ys, .ys_length = scene->n[5],
                       .zs = scene->zs, .zs_length = scene->n[6]},
        .connections = {.sources = scene->sources, .sources_length = scene->m[0],
                        .sinks = scene->sinks, .sinks_length = scene->m[1],
                        .transfers = scene->transfers, .transfers_length = scene->m[2]},
    };
}

SizhbantoAnalysisNumbers analyze(const SizhbantoScene *scene, SizhbantoSceneLists *lists) {
    const SizhbantoSceneLists before = *lists;
    SizhbantoAnalysisNumbers got = sizhbanto_analyze_scene(scene, lists);
    CHECK(memcmp(&before, lists, sizeof before) == 0);
    return got;
}

SizhbantoDescriptionNumbers describe(const SizhbantoScene *scene, SizhbantoDescriptionLists *lists) {
    const SizhbantoDescriptionLists before = *lists;
    SizhbantoDescriptionNumbers got = sizhbanto_describe_scene(scene, lists);
    CHECK(memcmp(&before, lists, sizeof before) == 0);
    return got;
}

SizhbantoSceneNumbers assess(const SizhbantoScene *scene, SizhbantoAssessmentLists *lists) {
    const SizhbantoAssessmentLists before = *lists;
    SizhbantoSceneNumbers got = sizhbanto_assess_scene(scene, lists);
    CHECK(memcmp(&before, lists, sizeof before) == 0);
    return got;
}

void lever_repeater_lamp(Scene *scene) {
    component(scene, 1, SIZHBANTO_BLOCK_KIND_LEVER, NO_DELAY);
    component(scene, 2, SIZHBANTO_BLOCK_KIND_REPEATER, 4);
    component(scene, 3, SIZHBANTO_BLOCK_KIND_REDSTONE_LAMP, NO_DELAY);
    connection(scene, 1, 2);
    connection(scene, 2, 3);
}
