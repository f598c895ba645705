// The trace call and recording on traces of document 01, every entry of list 9.
#include <string.h>

#include "trace.h"

static Trace trace;
static SizhbantoFindings findings;

static SizhbantoAssessedTrace assess_it(void) {
    SizhbantoTrace lent = lent_trace(&trace);
    return assess_trace(&lent, &findings);
}

static void new_trace(void) {
    memset(&trace, 0, sizeof trace);
}

static bool tallied(const uint64_t tallies[5], uint64_t observed, uint64_t deviation, uint64_t candidate,
                    uint64_t confirmed, uint64_t intentional) {
    const uint64_t wanted[5] = {observed, deviation, candidate, confirmed, intentional};
    return memcmp(tallies, wanted, sizeof wanted) == 0;
}

static bool found(SizhbantoAssessedTrace got, uint64_t count) {
    return got.number == 0 && got.place == 0 && got.findings == count && got.contracts_applied == trace.c[0];
}

static void one_pulse(void) {
    new_trace();
    trace.unit = SIZHBANTO_TRACE_TIME_UNIT_GAME_TICK;
    event(&trace, 11, 9, 1);
    high_pulse(&trace, 3);
    lend_findings(&findings, 6);
    SizhbantoAssessedTrace got = assess_it();
    CHECK(found(got, 1) && tallied(got.tallies, 0, 0, 1, 0, 0));
    HOLDS(uint64_t, findings.components, 3);
    HOLDS(uint8_t, findings.polarities, SIZHBANTO_PULSE_POLARITY_HIGH);
    HOLDS(uint8_t, findings.units, SIZHBANTO_TRACE_TIME_UNIT_GAME_TICK);
    HOLDS(uint64_t, findings.start_ticks, 12);
    HOLDS(uint64_t, findings.end_ticks, 14);
    HOLDS(uint64_t, findings.widths, 2);
    HOLDS(uint8_t, findings.steady, 0);
    HOLDS(size_t, findings.baselines, 1);
    HOLDS(size_t, findings.starts, 2);
    HOLDS(size_t, findings.ends, 3);
    HOLDS(uint8_t, findings.verdicts, SIZHBANTO_TRANSIENT_VERDICT_HAZARD_CANDIDATE);
    HOLDS(uint8_t, findings.rationales, SIZHBANTO_RATIONALE_NO_INTENT);
}

// "first tick 20: same; third tick 12: no pulse"
static void ticks(void) {
    new_trace();
    high_pulse(&trace, 3);
    trace.ticks[0] = 20;
    lend_findings(&findings, 3);
    CHECK(found(assess_it(), 1));
    HOLDS(uint64_t, findings.widths, 2);
    trace.ticks[2] = 12;
    lend_findings(&findings, 3);
    CHECK(found(assess_it(), 0));
    CHECK(all_kept());
}

// The contracts are listed from component 0 on, so that a component is its own index.
static void widths(uint8_t intent, uint64_t component, uint64_t smallest, uint64_t largest) {
    contract(&trace, component, intent);
    trace.smallest[component] = smallest;
    trace.largest[component] = largest;
}

// A pulse of width 2 under each intent, each verdict and each rationale.
static void intents(void) {
    new_trace();
    for (uint64_t component = 0; component < 7; component += 1) {
        high_pulse(&trace, component);
    }
    contract(&trace, 0, SIZHBANTO_SIGNAL_INTENT_STEADY_STATE_ONLY);
    contract(&trace, 1, SIZHBANTO_SIGNAL_INTENT_STABLE);
    contract(&trace, 2, SIZHBANTO_SIGNAL_INTENT_STABLE);
    trace.wanted[2] = 1;
    widths(SIZHBANTO_SIGNAL_INTENT_INTENTIONAL_PULSE, 3, 2, 2);
    widths(SIZHBANTO_SIGNAL_INTENT_INTENTIONAL_PULSE, 4, 3, 2);
    widths(SIZHBANTO_SIGNAL_INTENT_MAXIMUM_PULSE_WIDTH, 5, 9, 2);
    widths(SIZHBANTO_SIGNAL_INTENT_MAXIMUM_PULSE_WIDTH, 6, 0, 1);
    lend_findings(&findings, 30);
    SizhbantoAssessedTrace got = assess_it();
    CHECK(found(got, 7) && tallied(got.tallies, 1, 1, 0, 4, 1));
    HOLDS(uint64_t, findings.components, 0, 1, 2, 3, 4, 5, 6);
    HOLDS(uint8_t, findings.verdicts, SIZHBANTO_TRANSIENT_VERDICT_TRANSIENT_DEVIATION,
          SIZHBANTO_TRANSIENT_VERDICT_HAZARD_CONFIRMED, SIZHBANTO_TRANSIENT_VERDICT_HAZARD_CONFIRMED,
          SIZHBANTO_TRANSIENT_VERDICT_INTENTIONAL_PULSE, SIZHBANTO_TRANSIENT_VERDICT_HAZARD_CONFIRMED,
          SIZHBANTO_TRANSIENT_VERDICT_PULSE_OBSERVED, SIZHBANTO_TRANSIENT_VERDICT_HAZARD_CONFIRMED);
    HOLDS(uint8_t, findings.rationales, SIZHBANTO_RATIONALE_STEADY_STATE_ONLY,
          SIZHBANTO_RATIONALE_UNPOWERED_BUT_HIGH, SIZHBANTO_RATIONALE_POWERED_BUT_HIGH, SIZHBANTO_RATIONALE_PULSE_FITS,
          SIZHBANTO_RATIONALE_PULSE_DIFFERS, SIZHBANTO_RATIONALE_WITHIN_TOLERANCE, SIZHBANTO_RATIONALE_PAST_TOLERANCE);
}

static void low_pulses(void) {
    new_trace();
    for (uint64_t component = 0; component < 2; component += 1) {
        high_pulse(&trace, component);
        contract(&trace, component, SIZHBANTO_SIGNAL_INTENT_STABLE);
    }
    for (size_t i = 0; i < trace.n[0]; i += 1) {
        trace.powered[i] = !trace.powered[i];
    }
    trace.wanted[1] = 1;
    lend_findings(&findings, 6);
    CHECK(found(assess_it(), 2));
    HOLDS(uint8_t, findings.polarities, SIZHBANTO_PULSE_POLARITY_LOW, SIZHBANTO_PULSE_POLARITY_LOW);
    HOLDS(uint8_t, findings.steady, 1, 1);
    HOLDS(uint8_t, findings.rationales, SIZHBANTO_RATIONALE_UNPOWERED_BUT_LOW,
          SIZHBANTO_RATIONALE_POWERED_BUT_LOW);
}

// Polarity and unit of an intentional pulse are told apart: both fit, or one is wrong.
static void polarity_and_unit(void) {
    for (size_t wrong = 0; wrong < 3; wrong += 1) {
        new_trace();
        trace.unit = SIZHBANTO_TRACE_TIME_UNIT_GAME_TICK;
        high_pulse(&trace, 0);
        widths(SIZHBANTO_SIGNAL_INTENT_INTENTIONAL_PULSE, 0, 0, UINT64_MAX);
        trace.polarities[0] = wrong == 1 ? SIZHBANTO_PULSE_POLARITY_LOW : SIZHBANTO_PULSE_POLARITY_HIGH;
        trace.units[0] = wrong == 2 ? SIZHBANTO_TRACE_TIME_UNIT_REDSTONE_TICK : SIZHBANTO_TRACE_TIME_UNIT_GAME_TICK;
        lend_findings(&findings, 3);
        CHECK(found(assess_it(), 1));
        HOLDS(uint8_t, findings.rationales, wrong ? SIZHBANTO_RATIONALE_PULSE_DIFFERS : SIZHBANTO_RATIONALE_PULSE_FITS);
    }
}

static void recording(void) {
    SizhbantoTransientRecord held = {0, 0, {0}};
    new_trace();
    high_pulse(&trace, 3);
    contract(&trace, 3, SIZHBANTO_SIGNAL_INTENT_STABLE);
    contract(&trace, 5, SIZHBANTO_SIGNAL_INTENT_STABLE);
    lend_findings(&findings, 6);
    SizhbantoTrace lent = lent_trace(&trace);
    SizhbantoRecordedTrace got = record(held, &lent, &findings);
    CHECK(got.number == 0 && got.place == 0 && got.findings == 1 && got.contracts_applied == 2);
    CHECK(got.held.traces == 1 && got.held.findings == 1 && tallied(got.held.tallies, 0, 0, 0, 1, 0));
    trace.contract_components[0] = 4;
    trace.components[0] = trace.components[1] = trace.components[2] = 8;
    got = record(got.held, &lent, &findings);
    CHECK(got.number == 0 && got.findings == 1);
    CHECK(got.held.traces == 2 && got.held.findings == 2 && tallied(got.held.tallies, 0, 0, 1, 1, 0));
    HOLDS(uint64_t, findings.components, 3, 8);
    HOLDS(uint64_t, findings.widths, 2, 2);
    HOLDS(size_t, findings.ends, 2, 2);
    HOLDS(uint8_t, findings.verdicts, SIZHBANTO_TRANSIENT_VERDICT_HAZARD_CONFIRMED,
          SIZHBANTO_TRANSIENT_VERDICT_HAZARD_CANDIDATE);
}

// The pointer of every list without entries may be NULL.
static void empty_without_lists(void) {
    SizhbantoTrace nothing;
    SizhbantoFindings none;
    SizhbantoTransientRecord fresh = {0, 0, {0}};
    memset(&nothing, 0, sizeof nothing);
    memset(&none, 0, sizeof none);
    CHECK(assess_trace(&nothing, &none).number == 0);
    SizhbantoRecordedTrace got = record(fresh, &nothing, &none);
    CHECK(got.number == 0 && got.held.traces == 1);
}

void check_traces(void) {
    empty_without_lists();
    one_pulse();
    ticks();
    intents();
    low_pulses();
    polarity_and_unit();
    recording();
}
