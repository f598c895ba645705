// A trace in its ten lists, list 9, and the calls; each must leave the structs of lists as they were.
#ifndef TRACE_H
#define TRACE_H

#include "sizhbanto.h"
#include "check.h"

enum { EVENT_ROOM = 4200, CONTRACT_ROOM = 600 };

// n and c are the lengths that the lists are lent with: three of events, seven of contracts.
typedef struct Trace {
    size_t n[3], c[7];
    uint8_t unit, powered[EVENT_ROOM];
    uint64_t ticks[EVENT_ROOM], components[EVENT_ROOM];
    uint64_t contract_components[CONTRACT_ROOM], smallest[CONTRACT_ROOM], largest[CONTRACT_ROOM];
    uint8_t intents[CONTRACT_ROOM], wanted[CONTRACT_ROOM], polarities[CONTRACT_ROOM], units[CONTRACT_ROOM];
} Trace;

void event(Trace *trace, uint64_t tick, uint64_t component, uint8_t powered);
// Adds a contract whose fields but these are 0.
void contract(Trace *trace, uint64_t component, uint8_t intent);
// Off at 10, on at 12, off at 14.
void high_pulse(Trace *trace, uint64_t component);

// The number lists of list 9.
#define FINDING_LISTS(EACH) \
    EACH(components)        \
    EACH(polarities)        \
    EACH(units)             \
    EACH(start_ticks)       \
    EACH(end_ticks)         \
    EACH(widths)            \
    EACH(steady)            \
    EACH(baselines)         \
    EACH(starts)            \
    EACH(ends)              \
    EACH(verdicts)          \
    EACH(rationales)

// Takes all lists back and lends list 9 with so many entries.
void lend_findings(SizhbantoFindings *findings, size_t entries);

SizhbantoTrace lent_trace(const Trace *trace);
SizhbantoAssessedTrace assess_trace(const SizhbantoTrace *trace, SizhbantoFindings *findings);
SizhbantoRecordedTrace record(SizhbantoTransientRecord held, const SizhbantoTrace *trace, SizhbantoFindings *findings);

#endif
