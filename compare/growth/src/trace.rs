//! The findings of a trace in which each three successive events of a component are a pulse.
use generator::rng::Rng;
use generator::trace::contracts;
use generator::trace::events::{Shape, busy_trace, each, few, many};
use generator::trace::lists::TraceLists;
use library::lent::Findings;
use library::traces::{AssessedTrace, assess_transients};
use plain::trace::{Finding, answer};

use crate::run::{CALLS, Outcome, Run, compare};

pub const SHAPES: [Shape; 3] = [("few", few), ("many", many), ("each", each)];

/// A trace of `n` events, 4,096 at most, with a contract for each component or for 512 of them.
pub fn lists(rng: &mut Rng, name: &str, n: usize) -> Option<TraceLists> {
    let shape = SHAPES.iter().find(|shape| shape.0 == name)?;
    let components = shape.1(rng, n);
    let mut lists = busy_trace(rng, components);
    contracts::add_all(rng, &mut lists);
    Some(lists)
}

macro_rules! written_lists {
    ({ $($field:ident: $type:ty = $entry:ident,)* }) => {
        /// List 9.
        struct Written {
            $($field: Vec<$type>,)*
        }

        impl Written {
            /// The largest numbers, so that an entry that is not written shows.
            fn new(n: usize) -> Self {
                Self { $($field: vec![<$type>::MAX; n],)* }
            }

            fn lists(&mut self) -> Findings<'_> {
                Findings { $($field: (&mut self.$field[..]).into(),)* }
            }

            fn compare(&self, findings: &[Finding]) -> Result<(), String> {
                let used = findings.len();
                $(
                    let entries: Vec<$type> = findings.iter().map(|f| f.$entry).collect();
                    compare(&self.$field[..used], &entries)?;
                )*
                Ok(())
            }
        }
    };
}

library::finding_lists!(written_lists!());

pub fn run(lists: &TraceLists) -> Outcome {
    let n = lists.ticks.len();
    let expected = answer(lists);
    let numbers = AssessedTrace {
        findings: expected.findings.len() as u64,
        contracts_applied: expected.contracts_applied,
        tallies: expected.tallies,
        ..AssessedTrace::default()
    };
    let mut written = Written::new(n);
    for _ in 0..CALLS {
        compare(
            &[assess_transients(lists, &mut written.lists())],
            &[numbers],
        )?;
    }
    written.compare(&expected.findings)?;
    Ok(Run {
        calls: CALLS,
        nodes: n,
        edges: 0,
    })
}
