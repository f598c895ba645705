//! Path sums and unequal delays.

use sizhbanto::raw;

pub use sizhbanto::raw::Reconverged;

/// A graph by the ends of its edges, and the delays of its nodes.
pub struct TimedGraph {
    pub sources: Vec<usize>,
    pub sinks: Vec<usize>,
    pub low: Vec<u32>,
    pub high: Vec<u32>,
}

/// The lists that are written, answers first; the private ones are lent to work in.
pub struct SumLists {
    pub settled: Vec<u8>,
    pub smallest: Vec<u32>,
    pub largest: Vec<u32>,
    pub unequal: Vec<usize>,
    head: Vec<usize>,
    next: Vec<usize>,
    incoming: Vec<usize>,
    left: Vec<usize>,
    queue: Vec<usize>,
}

impl SumLists {
    /// The answers hold the largest number, so that an entry that is not written shows.
    pub fn new(nodes: usize, edges: usize) -> Self {
        Self {
            settled: vec![u8::MAX; nodes],
            smallest: vec![u32::MAX; nodes],
            largest: vec![u32::MAX; nodes],
            unequal: vec![usize::MAX; nodes],
            head: vec![0; nodes],
            next: vec![0; edges],
            incoming: vec![0; nodes],
            left: vec![0; nodes],
            queue: vec![0; nodes],
        }
    }
}

pub fn reconvergent_delay_reasons(
    graph: &TimedGraph,
    order: &[usize],
    lists: &mut SumLists,
) -> Reconverged {
    raw::reconvergent_delay_reasons(
        &graph.sources,
        &graph.sinks,
        &graph.low,
        &graph.high,
        order,
        &mut lists.settled,
        &mut lists.smallest,
        &mut lists.largest,
        &mut lists.unequal,
        &mut lists.head,
        &mut lists.next,
        &mut lists.incoming,
        &mut lists.left,
        &mut lists.queue,
    )
}
