// Refusals 7 to 13 and 15 by the trace call and by recording; every list and the record must be as they were.
#include <string.h>

#include "trace.h"

static Trace trace;
static SizhbantoFindings findings;
static SizhbantoTransientRecord held;

// A trace with two contracts, and a record of two traces.
static void good(void) {
    memset(&trace, 0, sizeof trace);
    high_pulse(&trace, 3);
    contract(&trace, 3, SIZHBANTO_SIGNAL_INTENT_STABLE);
    contract(&trace, 5, SIZHBANTO_SIGNAL_INTENT_INTENTIONAL_PULSE);
    held = (SizhbantoTransientRecord){2, 3, {1, 0, 2, 0, 0}};
}

static bool assessed_by(uint32_t number, uint64_t place) {
    SizhbantoTrace lent = lent_trace(&trace);
    SizhbantoAssessedTrace got = assess_trace(&lent, &findings);
    uint64_t sum = got.findings + got.contracts_applied;
    for (size_t k = 0; k < 5; k += 1) {
        sum += got.tallies[k];
    }
    return got.number == number && got.place == place && sum == 0;
}

static bool recorded_by(uint32_t number, uint64_t place) {
    SizhbantoTrace lent = lent_trace(&trace);
    SizhbantoRecordedTrace got = record(held, &lent, &findings);
    return got.number == number && got.place == place && got.findings + got.contracts_applied == 0 &&
           memcmp(&got.held, &held, sizeof held) == 0;
}

#define REFUSED(number, place)                            \
    lend_findings(&findings, held.findings + trace.n[0]); \
    CHECK(assessed_by(number, place) && recorded_by(number, place) && all_kept())

static void sizes(void) {
    good();
    while (trace.n[0] <= SIZHBANTO_MAX_EVENTS) {
        event(&trace, 0, 0, 2);
    }
    REFUSED(SIZHBANTO_REFUSAL_NUMBER_TOO_MANY_EVENTS, 4097);
    good();
    while (trace.c[0] <= SIZHBANTO_MAX_CONTRACTS) {
        contract(&trace, 0, 9);
    }
    REFUSED(SIZHBANTO_REFUSAL_NUMBER_TOO_MANY_CONTRACTS, 513);
}

static void lengths(void) {
    for (size_t k = 0; k < 10; k += 1) {
        good();
        if (k < 3) {
            trace.n[k] -= 1;
        } else {
            trace.c[k - 3] -= 1;
        }
        REFUSED(SIZHBANTO_REFUSAL_NUMBER_LENGTHS_DIFFER, k < 3 ? 2 : 3);
    }
}

static void codes(void) {
    good();
    trace.unit = 2;
    REFUSED(SIZHBANTO_REFUSAL_NUMBER_TRACE_OUT_OF_RANGE, 0);
    good();
    trace.powered[2] = 2;
    REFUSED(SIZHBANTO_REFUSAL_NUMBER_TRACE_OUT_OF_RANGE, 2);
    good();
    trace.intents[1] = 4;
    REFUSED(SIZHBANTO_REFUSAL_NUMBER_TRACE_OUT_OF_RANGE, 1);
    good();
    trace.wanted[0] = 2;
    REFUSED(SIZHBANTO_REFUSAL_NUMBER_TRACE_OUT_OF_RANGE, 0);
    good();
    trace.polarities[1] = 2;
    REFUSED(SIZHBANTO_REFUSAL_NUMBER_TRACE_OUT_OF_RANGE, 1);
    good();
    trace.units[1] = 2;
    REFUSED(SIZHBANTO_REFUSAL_NUMBER_TRACE_OUT_OF_RANGE, 1);
    good();
    trace.contract_components[1] = 3;
    REFUSED(SIZHBANTO_REFUSAL_NUMBER_CONTRACTS_NOT_RISING, 1);
}

// Fields that an intent doesn't use are not read.
static void unused_fields(void) {
    good();
    trace.polarities[0] = trace.units[0] = trace.wanted[1] = 255;
    lend_findings(&findings, held.findings + trace.n[0]);
    SizhbantoTrace lent = lent_trace(&trace);
    CHECK(assess_trace(&lent, &findings).findings == 1);
}

// Each number list of list 9 by itself one entry too short.
static void rooms(void) {
    good();
    lend_findings(&findings, held.findings + trace.n[0]);
#define SHORT(name)                                                 \
    findings.name##_length -= 1;                                    \
    CHECK(recorded_by(SIZHBANTO_REFUSAL_NUMBER_LIST_TOO_SHORT, 9)); \
    findings.name##_length = trace.n[0] - 1;                        \
    CHECK(assessed_by(SIZHBANTO_REFUSAL_NUMBER_LIST_TOO_SHORT, 9)); \
    findings.name##_length = held.findings + trace.n[0];
    FINDING_LISTS(SHORT)
    CHECK(all_kept());
}

static void records(void) {
    good();
    lend_findings(&findings, 10);
    held.traces = SIZHBANTO_MAX_TRACES;
    CHECK(recorded_by(SIZHBANTO_REFUSAL_NUMBER_RECORD_FULL, 0));
    held.tallies[4] = 1;
    CHECK(recorded_by(SIZHBANTO_REFUSAL_NUMBER_RECORD_FALSE, 0));
    held = (SizhbantoTransientRecord){1, 4097, {4097, 0, 0, 0, 0}};
    CHECK(recorded_by(SIZHBANTO_REFUSAL_NUMBER_RECORD_FALSE, 0));
    CHECK(all_kept());
}

void check_trace_refusals(void) {
    sizes();
    lengths();
    codes();
    unused_fields();
    rooms();
    records();
}
