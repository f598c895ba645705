//! "a label for every component: its smallest and largest path sum if settled, otherwise
//! 'unsettled'", and the components at which path sums differ.
use generator::lists::SceneLists;

use super::graph::Graph;
use super::paths::{Sums, by_every_path};
use super::table::delay;

/// The steps after which going through every path is given up.
const STEPS: usize = 60;

/// By position, in document 01's words.
pub struct Extremes {
    pub settled: Vec<bool>,
    pub sums: Vec<Option<[u32; 2]>>,
}

/// The two ways of finding sums must agree wherever there are few paths.
pub fn extremes(lists: &SceneLists, graph: &Graph) -> Extremes {
    let settled = graph.settled();
    let delays: Vec<_> = (0..graph.size()).map(|i| delay(lists, i)).collect();
    let mut all = Sums::new(graph, &settled, &delays);
    let sums: Vec<_> = (0..graph.size()).map(|v| all.of(v)).collect();
    for (v, sum) in sums.iter().enumerate() {
        if let Some(every) = by_every_path(&all, v, STEPS) {
            assert_eq!(*sum, every, "the path sums of position {v}");
        }
    }
    Extremes { settled, sums }
}

impl Extremes {
    /// Of a settled component the sums, which it has; of another one none.
    pub fn label(&self, v: usize) -> Option<[u32; 2]> {
        self.settled[v].then(|| self.sums[v].expect("a path leads to a settled component"))
    }

    /// "A reason stands where the smallest minimum and largest maximum differ", of two or more
    /// incoming edges.
    pub fn unequal(&self, graph: &Graph, v: usize) -> Option<[u32; 2]> {
        let differ = |[low, high]: &[u32; 2]| low != high && graph.sources[v].len() > 1;
        self.sums[v].filter(differ)
    }
}
