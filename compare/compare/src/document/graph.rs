//! The edges of an accepted scene between positions, and what can be reached along them.
use std::collections::BTreeMap;

use generator::lists::{SUPPORT, SceneLists};

pub struct Graph {
    /// By position: the sources of the edges that end there and the sinks of those that start
    /// there, in list order.
    pub sources: Vec<Vec<usize>>,
    pub sinks: Vec<Vec<usize>>,
    /// `reached[u][v]`: a row of edges, or none at all, leads from u to v.
    pub reached: Vec<Vec<bool>>,
}

impl Graph {
    pub fn new(lists: &SceneLists) -> Self {
        let n = lists.ids.len();
        let position: BTreeMap<u64, usize> = lists.ids.iter().copied().zip(0..).collect();
        let (mut sources, mut sinks) = (vec![Vec::new(); n], vec![Vec::new(); n]);
        for (i, transfer) in lists.transfers.iter().enumerate() {
            if *transfer != SUPPORT {
                let (source, sink) = (position[&lists.sources[i]], position[&lists.sinks[i]]);
                sources[sink].push(source);
                sinks[source].push(sink);
            }
        }
        let reached = (0..n).map(|v| reached_from(&sinks, v)).collect();
        Self {
            sources,
            sinks,
            reached,
        }
    }

    pub fn size(&self) -> usize {
        self.sinks.len()
    }

    /// An edge leads from v to where v is reached from; "a self-edge is a cycle".
    fn on_cycle(&self, v: usize) -> bool {
        self.sinks[v].iter().any(|w| self.reached[*w][v])
    }

    /// "A component is settled if it is on no cycle and not reachable from one".
    pub fn settled(&self) -> Vec<bool> {
        let cycles: Vec<_> = (0..self.size()).filter(|v| self.on_cycle(*v)).collect();
        (0..self.size())
            .map(|v| !cycles.iter().any(|u| self.reached[*u][v]))
            .collect()
    }

    /// Whether v "shares its strongly connected component with a different component".
    pub fn shares(&self, v: usize) -> bool {
        (0..self.size()).any(|u| u != v && self.reached[u][v] && self.reached[v][u])
    }
}

fn reached_from(sinks: &[Vec<usize>], start: usize) -> Vec<bool> {
    let mut reached = vec![false; sinks.len()];
    let mut pending = vec![start];
    while let Some(v) = pending.pop() {
        if !reached[v] {
            reached[v] = true;
            pending.extend(&sinks[v]);
        }
    }
    reached
}
