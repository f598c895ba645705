// Broken stand-ins for the exports, to see that fuzz finds what is wrong with them. Linked by `-Wl,--wrap`, each
// calls the export, with copies of its structs, and does one misdeed besides: FUZZ_MISDEED says which, at which list or
// struct of which export, as `write_past_end:sizhbanto_sort_positions:order`. What is exchanged is two, as
// `exchange:sizhbanto_analyze_scene:edges.sources+edges.sinks`, of the answer's numbers in order as `0+1`.
#include "exports.h"
#include "sizhbanto.h"

#include <stdio.h>
#include <stdlib.h>
#include <string.h>

struct handed {
    const char *name;
    unsigned char *list;
    size_t length, width;
    unsigned char *row; // where its pointer and length lie in a struct, or null
};

// An answer's refusal, if it has one, and its numbers.
struct answered {
    uint32_t *number;
    uint64_t *place;
    uint64_t *counts[9];
    uint8_t *codes[3];
};

// What the misdeed was told, split at the colons and the plus.
static struct told {
    char misdeed[40], export[60], list[40], other[40];
} told;

static bool does(const char *misdeed)
{
    return strcmp(told.misdeed, misdeed) == 0;
}

static struct handed *named(struct handed *lists, size_t count, const char *name)
{
    for (size_t i = 0; i < count; i++)
        if (strcmp(name, lists[i].name) == 0)
            return &lists[i];
    return NULL;
}

// The list that is meant, or null where the call is not.
static struct handed *meant(const char *export, struct handed *lists, size_t count)
{
    const char *words = getenv("FUZZ_MISDEED");
    if (words == NULL
        || sscanf(words, "%39[^:]:%59[^:]:%39[^+]+%39s", told.misdeed, told.export, told.list, told.other) < 3)
        exit(2);
    return strcmp(told.export, export) == 0 ? named(lists, count, told.list) : NULL;
}

static void touch(volatile unsigned char *byte, bool write)
{
    unsigned char held = *byte;
    if (write)
        *byte = held ^ 0x40;
}

// Misdeeds at the ends of a list, whatever was answered.
static void misbehave_at_ends(const struct handed *handed)
{
    unsigned char *end = handed->list + handed->length * handed->width;
    if (does("write_past_end") || does("read_past_end"))
        touch(end, does("write_past_end"));
    if (does("write_before") || does("read_before"))
        touch(handed->list - handed->width, does("write_before"));
    if (does("memset_past_end"))
        memset(end, 0x40, handed->width);
    if (does("change_pointer"))
        touch(handed->row, true);
    if (does("change_length"))
        touch(handed->row + sizeof(void *), true);
    if (does("never_return"))
        for (;;)
            touch((unsigned char *)&told, false);
}

// Misdeeds of what the export is handed: another list's entries, or another length.
static void mislead(const char *export, struct handed *lists, size_t count)
{
    struct handed *list = named(lists, count, told.list), *other = named(lists, count, told.other);
    if (strcmp(told.export, export) != 0)
        return;
    for (size_t i = 0; i < count; i++)
        lists[i].length = does("cut_to_16_bits")   ? (uint16_t)lists[i].length
                          : does("cut_to_32_bits") ? (uint32_t)lists[i].length
                                                   : lists[i].length;
    if (does("exchange")) {
        struct handed held = *list;
        list->list = other->list, list->length = other->length;
        other->list = held.list, other->length = held.length;
    }
    if (does("shorten") && list->length > 0)
        list->length--;
    if (does("lengthen"))
        list->length++;
}

// What is left on the stack by those who had it before.
static unsigned char __attribute__((noinline)) left_on_stack(void)
{
    unsigned char frames[40000], *at = frames;
    __asm__ volatile("" : "+r"(at) : : "memory");
    return at[sizeof frames / 2];
}

// Misdeeds within a list that has entries; `before` is the first byte that it held before the call.
static void misbehave_within(const struct handed *handed, bool accepted, unsigned char before)
{
    static unsigned char calls;
    if (handed->length == 0)
        return;
    if (does("change_read") || (does("change_refused") && !accepted))
        touch(handed->list, true);
    if (does("change_unused") && accepted)
        touch(handed->list + (handed->length - 1) * handed->width, true);
    if (does("show_stack") && accepted)
        handed->list[0] = left_on_stack();
    if (does("depend_on_old") && accepted)
        handed->list[0] ^= before;
    if (does("count_calls") && accepted)
        handed->list[0] = ++calls;
}

static unsigned char first_byte(const struct handed *handed)
{
    return handed != NULL && handed->length > 0 && does("depend_on_old") ? handed->list[0] : 0;
}

static void misbehave(const struct handed *handed, bool accepted, unsigned char before)
{
    if (handed == NULL)
        return;
    misbehave_at_ends(handed);
    misbehave_within(handed, accepted, before);
}

// Misdeeds of the numbers after the refusal.
static void miscount(const struct answered *answered)
{
    size_t count = 0, one = strtoul(told.list, NULL, 10), other = strtoul(told.other, NULL, 10);
    while (count < 9 && answered->counts[count] != NULL)
        count++;
    if (does("exchange_counts") && (answered->number == NULL || *answered->number == 0)) {
        uint64_t held = *answered->counts[one];
        *answered->counts[one] = *answered->counts[other];
        *answered->counts[other] = held;
    }
    if (does("exchange_codes")) {
        uint8_t held = *answered->codes[one];
        *answered->codes[one] = *answered->codes[other];
        *answered->codes[other] = held;
    }
    if (does("count_refused") && *answered->number != 0)
        *answered->counts[count - 1] += 1;
    if (does("count_too_many") && *answered->number == 0)
        *answered->counts[count - 1] += 100000;
}

// Misdeeds of an answer.
static void misanswer(const char *export, const struct answered *answered)
{
    uint32_t *number = answered->number;
    uint64_t *place = answered->place;
    if (strcmp(told.export, export) != 0)
        return;
    miscount(answered);
    if (does("foreign_number"))
        *number = 14;
    if (does("large_number") && *number != 0)
        *number += 1u << 16;
    if (does("wrong_place") && *number != 0)
        *place += 1;
    if (does("place_accepted") && *number == 0)
        *place += 1;
    if (does("accept_refused"))
        *number = 0, *place = 0;
}

#define TYPE_first size_t
#define TYPE_edge size_t
#define TYPE_key uint64_t
#define TYPE_held SizhbantoTransientRecord

// The parameters, and the call; the rows begin with a comma, and what is before it is nothing.
#define PARAMETER(role, type, name, of) , role##_POINTER(type) name, size_t name##_length
#define PARAMETER_NUMBER(name) , TYPE_##name name
#define PARAMETER_STRUCT(role, type, name, FIELDS) , role##_POINTER(type) name
#define HANDED(role, type, name, of) , (role##_POINTER(type))entries[AT_##name].list, entries[AT_##name].length
#define HANDED_NUMBER(name) , name
#define HANDED_STRUCT(role, type, name, FIELDS) , &copy_of_##name
#define APPLY(function, ...) APPLY_PAST_COMMA(function, __VA_ARGS__)
#define APPLY_PAST_COMMA(function, nothing, ...) function(__VA_ARGS__)

// The lists, then the structs.
#define ENTRY(role, type, name, of) {#name, (unsigned char *)name, name##_length, sizeof(type), NULL},
#define ENTRY_FIELD(at, role, type, path, name, of) \
    {#path, (unsigned char *)at path, at path##_length, sizeof(type), (unsigned char *)&at path},
#define ENTRIES(role, type, name, FIELDS) FIELDS(ENTRY_FIELD, name->)
#define ENTRY_STRUCT(role, type, name, FIELDS) {#name, (unsigned char *)name, sizeof(type), 1, NULL},
#define PUT(at, role, type, path, name, of) \
    at path = (role##_POINTER(type))entries[AT_##name].list, at path##_length = entries[AT_##name].length;
#define COPY(role, type, name, FIELDS) \
    type copy_of_##name = *name; \
    FIELDS(PUT, copy_of_##name.)

#define STAND_IN(answer, export, ROWS, accepted, ...) \
    answer APPLY(__real_##export, ROWS(PARAMETER, PARAMETER_NUMBER, PARAMETER_STRUCT)); \
    answer APPLY(__wrap_##export, ROWS(PARAMETER, PARAMETER_NUMBER, PARAMETER_STRUCT)); \
    answer APPLY(__wrap_##export, ROWS(PARAMETER, PARAMETER_NUMBER, PARAMETER_STRUCT)) \
    { \
        PLACES(ROWS); \
        struct handed entries[] = {ROWS(ENTRY, NO_NUMBER, ENTRIES) ROWS(NO_LIST, NO_NUMBER, ENTRY_STRUCT)}; \
        const struct handed *list = meant(#export, entries, COUNT); \
        unsigned char before = first_byte(list); \
        mislead(#export, entries, COUNT); \
        ROWS(NO_LIST, NO_NUMBER, COPY) \
        answer r = APPLY(__real_##export, ROWS(HANDED, HANDED_NUMBER, HANDED_STRUCT)); \
        const struct answered answered = {__VA_ARGS__}; \
        misbehave(list, accepted, before); \
        misanswer(#export, &answered); \
        return r; \
    }

#define DESCRIPTION_COUNTS &r.timed_edges, &r.devices, &r.evidence
#define ASSESSMENT_COUNTS &r.reasons, &r.feedback, &r.retained, &r.compressed, &r.projected, &r.path_ids
#define CODES {&r.scope, &r.pattern, &r.confidence}
#define TALLIES(tallies) &tallies[0], &tallies[1], &tallies[2], &tallies[3], &tallies[4]
#define NUMBERED(export, answer, ROWS, ...) \
    STAND_IN(answer, export, ROWS, r.number == 0, &r.number, &r.place, __VA_ARGS__)
#define WITHOUT_NUMBER(export, answer, ROWS, accepted, ...) \
    STAND_IN(answer, export, ROWS, accepted, NULL, NULL, {__VA_ARGS__}, {NULL})

NUMBERED(sizhbanto_check_scene, SizhbantoCheckedNumbers, CHECK_SCENE, {NULL}, {NULL})
NUMBERED(sizhbanto_feedback_scene, SizhbantoFeedbackNumbers, FEEDBACK_SCENE, {&r.feedback, &r.reasons}, {NULL})
NUMBERED(sizhbanto_describe_scene, SizhbantoDescriptionNumbers, DESCRIBE_SCENE, {DESCRIPTION_COUNTS}, {NULL})
NUMBERED(sizhbanto_assess_scene, SizhbantoSceneNumbers, ASSESS_SCENE, {ASSESSMENT_COUNTS}, CODES)
NUMBERED(sizhbanto_analyze_scene, SizhbantoAnalysisNumbers, ANALYZE_SCENE, {DESCRIPTION_COUNTS, ASSESSMENT_COUNTS},
    CODES)
NUMBERED(sizhbanto_assess_transients, SizhbantoAssessedTrace, ASSESS_TRANSIENTS,
    {&r.findings, &r.contracts_applied, TALLIES(r.tallies)}, {NULL})
NUMBERED(sizhbanto_record_trace, SizhbantoRecordedTrace, RECORD_TRACE,
    {&r.findings, &r.contracts_applied, &r.held.traces, &r.held.findings, TALLIES(r.held.tallies)}, {NULL})
WITHOUT_NUMBER(sizhbanto_projected_path, SizhbantoPathPart, PROJECTED_PATH, r.length > 0, &r.start, &r.length)
WITHOUT_NUMBER(sizhbanto_sort_positions, bool, SORT_POSITIONS, r, NULL)
WITHOUT_NUMBER(sizhbanto_find_position, SizhbantoFoundNumbers, FIND_POSITION, r.found, NULL)
WITHOUT_NUMBER(sizhbanto_mark_shared_components, bool, MARK_SHARED_COMPONENTS, r, NULL)
WITHOUT_NUMBER(sizhbanto_reconvergent_delay_reasons, SizhbantoReconverged, RECONVERGENT_DELAY_REASONS, r.fits, NULL)
