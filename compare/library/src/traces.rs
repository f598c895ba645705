//! List 9: the findings of one trace, and of a row of traces that a record runs along with.
use generator::trace::lists::TraceLists;
use generator::trace::record::TransientRecord;
use sizhbanto::raw::{self, lent};

pub use sizhbanto::raw::{AssessedTrace, RecordedTrace};

/// The number lists of list 9.
pub const FINDING_LISTS: usize = 12;

/// Hands a macro, after what it is to get first, the number lists of list 9, each with the name of
/// one entry of it.
#[macro_export]
macro_rules! finding_lists {
    ($declare:ident!($($first:tt)*)) => {
        $declare!($($first)* {
            components: u64 = component,
            polarities: u8 = polarity,
            units: u8 = unit,
            start_ticks: u64 = start_tick,
            end_ticks: u64 = end_tick,
            widths: u64 = width,
            steady: u8 = steady,
            baselines: usize = baseline,
            starts: usize = start,
            ends: usize = end,
            verdicts: u8 = verdict,
            rationales: u8 = rationale,
        });
    };
}

pub fn assess_transients(trace: &TraceLists, findings: &mut lent::Findings) -> AssessedTrace {
    raw::assess_transients(&lent(trace), findings)
}

pub fn record_trace(
    held: TransientRecord,
    trace: &TraceLists,
    findings: &mut lent::Findings,
) -> RecordedTrace {
    raw::record_trace(held, &lent(trace), findings)
}

/// As the calls are lent it.
fn lent(trace: &TraceLists) -> lent::Trace<'_> {
    lent::Trace {
        unit: trace.unit,
        events: lent::Events {
            ticks: (&trace.ticks[..]).into(),
            components: (&trace.components[..]).into(),
            powered: (&trace.powered[..]).into(),
        },
        contracts: lent::Contracts {
            components: (&trace.contract_components[..]).into(),
            intents: (&trace.contract_intents[..]).into(),
            powered: (&trace.contract_powered[..]).into(),
            polarities: (&trace.contract_polarities[..]).into(),
            units: (&trace.contract_units[..]).into(),
            smallest: (&trace.contract_smallest[..]).into(),
            largest: (&trace.contract_largest[..]).into(),
        },
    }
}
