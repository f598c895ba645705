// The passes that have no limit of size.
#include "sizhbanto.h"
#include "check.h"

static void sorted_and_found(void) {
    const uint64_t keys[] = {7, UINT64_MAX, 7, 0};
    take_back();
    size_t *order = lend(5, sizeof(size_t)), *scratch = lend(4, sizeof(size_t));
    CHECK(!sizhbanto_sort_positions(keys, 4, order, 3, scratch, 4));
    CHECK(!sizhbanto_sort_positions(keys, 4, order, 5, scratch, 3));
    CHECK(all_kept());
    CHECK(sizhbanto_sort_positions(keys, 4, order, 5, scratch, 4));
    HOLDS(size_t, order, 3, 0, 2, 1);
    SizhbantoFoundNumbers seven = sizhbanto_find_position(keys, 4, order, 4, 7);
    CHECK(seven.found && seven.position == 0);
    SizhbantoFoundNumbers largest = sizhbanto_find_position(keys, 4, order, 4, UINT64_MAX);
    CHECK(largest.found && largest.position == 1);
    SizhbantoFoundNumbers missing = sizhbanto_find_position(keys, 4, order, 4, 8);
    CHECK(!missing.found && missing.position == 0);
}

// 0 and 1 lead to one another, 2 to itself, and 1 to 3.
static void marked(void) {
    const size_t sources[] = {0, 1, 2, 1}, sinks[] = {1, 0, 2, 3};
    take_back();
    uint8_t *marks = lend(4, 1);
    size_t *head = lend(4, sizeof(size_t)), *next = lend(4, sizeof(size_t));
    size_t *order = lend(4, sizeof(size_t)), *group = lend(4, sizeof(size_t));
    CHECK(!sizhbanto_mark_shared_components(sources, 4, sinks, 3, marks, 4, head, 4, next, 4, order, 4, group, 4));
    CHECK(!sizhbanto_mark_shared_components(sources, 4, sinks, 4, marks, 4, head, 3, next, 4, order, 4, group, 4));
    CHECK(!sizhbanto_mark_shared_components(sources, 4, sinks, 4, marks, 4, head, 4, next, 3, order, 4, group, 4));
    CHECK(!sizhbanto_mark_shared_components(sources, 4, sinks, 4, marks, 4, head, 4, next, 4, order, 3, group, 4));
    CHECK(!sizhbanto_mark_shared_components(sources, 4, sinks, 4, marks, 4, head, 4, next, 4, order, 4, group, 3));
    CHECK(!sizhbanto_mark_shared_components(sources, 4, sinks, 4, marks, 3, head, 4, next, 4, order, 4, group, 4));
    CHECK(all_kept());
    CHECK(sizhbanto_mark_shared_components(sources, 4, sinks, 4, marks, 4, head, 4, next, 4, order, 4, group, 4));
    HOLDS(uint8_t, marks, 1, 1, 0, 0);
}

// 0 leads to 2 by itself and by 1, which takes 3 or 5; 3 leads to itself.
static void reconverged(void) {
    const size_t sources[] = {0, 0, 1, 3}, sinks[] = {1, 2, 2, 3}, order[] = {3, 2, 1, 0};
    const uint32_t low[] = {1, 3, 0, 0}, high[] = {1, 5, 0, 0};
    take_back();
    uint8_t *settled = lend(4, 1);
    uint32_t *smallest = lend(4, sizeof(uint32_t)), *largest = lend(4, sizeof(uint32_t));
    size_t *unequal = lend(4, sizeof(size_t)), *work[5];
    for (size_t k = 0; k < 5; k += 1) {
        work[k] = lend(4, sizeof(size_t));
    }
    for (size_t nodes = 3; nodes <= 4; nodes += 1) {
        SizhbantoReconverged got = sizhbanto_reconvergent_delay_reasons(
            sources, 4, sinks, 4, low, 4, high, 4, order, 4, settled, 4, smallest, 4, largest, nodes, unequal, 4,
            work[0], 4, work[1], 4, work[2], 4, work[3], 4, work[4], 4);
        CHECK(got.fits == (nodes == 4) && got.unequal == (nodes == 4));
        CHECK(got.fits || all_kept());
    }
    HOLDS(uint8_t, settled, 1, 1, 1, 0);
    HOLDS(uint32_t, smallest, 0, 1, 1, 0);
    HOLDS(uint32_t, largest, 0, 1, 6, 0);
    HOLDS(size_t, unequal, 2);
}

// The pointer of every list without entries may be NULL.
static void empty_without_lists(void) {
    CHECK(sizhbanto_sort_positions(NULL, 0, NULL, 0, NULL, 0));
    CHECK(!sizhbanto_find_position(NULL, 0, NULL, 0, 0).found);
    CHECK(sizhbanto_mark_shared_components(NULL, 0, NULL, 0, NULL, 0, NULL, 0, NULL, 0, NULL, 0, NULL, 0));
    SizhbantoReconverged got = sizhbanto_reconvergent_delay_reasons(
        NULL, 0, NULL, 0, NULL, 0, NULL, 0, NULL, 0, NULL, 0, NULL, 0, NULL, 0, NULL, 0, NULL, 0, NULL, 0, NULL, 0,
        NULL, 0, NULL, 0);
    CHECK(got.fits && got.unequal == 0);
    CHECK(sizhbanto_projected_path(NULL, 0, NULL, 0, NULL, 0, 0).length == 0);
}

void check_passes(void) {
    empty_without_lists();
    sorted_and_found();
    marked();
    reconverged();
    take_back();
}
