#include <string.h>

#include "trace.h"

void event(Trace *trace, uint64_t tick, uint64_t component, uint8_t powered) {
    size_t i = trace->n[0];
    trace->ticks[i] = tick;
    trace->components[i] = component;
    trace->powered[i] = powered;
    for (size_t k = 0; k < 3; k += 1) {
        trace->n[k] = i + 1;
    }
}

void contract(Trace *trace, uint64_t component, uint8_t intent) {
    size_t i = trace->c[0];
    trace->contract_components[i] = component;
    trace->intents[i] = intent;
    for (size_t k = 0; k < 7; k += 1) {
        trace->c[k] = i + 1;
    }
}

void high_pulse(Trace *trace, uint64_t component) {
    event(trace, 10, component, 0);
    event(trace, 12, component, 1);
    event(trace, 14, component, 0);
}

void lend_findings(SizhbantoFindings *findings, size_t entries) {
    take_back();
#define LEND_FINDINGS(name)            \
    findings->name##_length = entries; \
    findings->name = lend(entries, sizeof *findings->name);
    FINDING_LISTS(LEND_FINDINGS)
}

SizhbantoTrace lent_trace(const Trace *trace) {
    return (SizhbantoTrace){
        .unit = trace->unit,
        .events = {.ticks = trace->ticks, .ticks_length = trace->n[0],
                   .components = trace->components, .components_length = trace->n[1],
                   .powered = trace->powered, .powered_length = trace->n[2]},
        .contracts = {.components = trace->contract_components, .components_length = trace->c[0],
                      .intents = trace->intents, .intents_length = trace->c[1],
                      .powered = trace->wanted, .powered_length = trace->c[2],
                      .polarities = trace->polarities, .polarities_length = trace->c[3],
                      .units = trace->units, .units_length = trace->c[4],
                      .smallest = trace->smallest, .smallest_length = trace->c[5],
                      .largest = trace->largest, .largest_length = trace->c[6]},
    };
}

SizhbantoAssessedTrace assess_trace(const SizhbantoTrace *trace, SizhbantoFindings *findings) {
    const SizhbantoFindings before = *findings;
    SizhbantoAssessedTrace got = sizhbanto_assess_transients(trace, findings);
    CHECK(memcmp(&before, findings, sizeof before) == 0);
    return got;
}

SizhbantoRecordedTrace record(SizhbantoTransientRecord held, const SizhbantoTrace *trace, SizhbantoFindings *findings) {
    const SizhbantoFindings before = *findings;
    SizhbantoRecordedTrace got = sizhbanto_record_trace(held, trace, findings);
    CHECK(memcmp(&before, findings, sizeof before) == 0);
    return got;
}
