//! The events of different components in another order, those of each component in the same.
use std::collections::BTreeMap;

use generator::rng::Rng;
use generator::trace::lists::TraceLists;
use plain::trace::{Answer, Finding};

use super::expected::same_answer;
use crate::difference::Difference;

/// The trace in another order, and where each event is in it. The event lists are of one length.
pub fn interleave(rng: &mut Rng, lists: &TraceLists) -> (TraceLists, Vec<usize>) {
    let mut places = BTreeMap::<u64, Vec<usize>>::new();
    for (i, component) in lists.components.iter().enumerate().rev() {
        places.entry(*component).or_default().push(i);
    }
    let mut components = lists.components.clone();
    rng.shuffle(&mut components);
    let mut other = TraceLists::default();
    let mut moved = vec![0; components.len()];
    for (now, component) in components.iter().enumerate() {
        let of = places.get_mut(component).and_then(Vec::pop);
        let i = of.expect("an event of the component");
        moved[i] = now;
        other.push_event(lists.ticks[i], *component, lists.powered[i]);
    }
    let other = TraceLists {
        ticks: other.ticks,
        components: other.components,
        powered: other.powered,
        ..lists.clone()
    };
    (other, moved)
}

/// The findings are the same but for the numbers of their events.
pub fn same_findings(one: &Answer, other: &Answer, moved: &[usize]) -> Result<(), Difference> {
    let mut wanted = one.clone();
    for finding in &mut wanted.findings {
        *finding = Finding {
            baseline: moved[finding.baseline],
            start: moved[finding.start],
            end: moved[finding.end],
            ..*finding
        };
    }
    same_answer("two orders of the events", &wanted, other)
}
