//! "a path to a component is a row of one or more components ending there, each joined to the next
//! by an edge, whose first has no incoming edge and whose components before the last are settled;
//! its sum adds the delays of all but the last."
use super::graph::Graph;

/// The smallest and the largest path sum of each position; none where no path leads to it.
pub struct Sums<'a> {
    graph: &'a Graph,
    settled: &'a [bool],
    delays: &'a [u32],
    known: Vec<Option<Option<[u32; 2]>>>,
}

impl<'a> Sums<'a> {
    pub fn new(graph: &'a Graph, settled: &'a [bool], delays: &'a [u32]) -> Self {
        let known = vec![None; graph.size()];
        Self {
            graph,
            settled,
            delays,
            known,
        }
    }

    /// A path to v is v alone where no edge ends at v, and otherwise a path to a settled source of
    /// such an edge, with v behind. What leads to a settled component is settled and on no cycle, so
    /// this ends.
    pub fn of(&mut self, v: usize) -> Option<[u32; 2]> {
        if let Some(known) = self.known[v] {
            return known;
        }
        let sources = &self.graph.sources[v];
        let mut sums = sources.is_empty().then_some([0, 0]);
        for &u in sources {
            if self.settled[u]
                && let Some([low, high]) = self.of(u)
            {
                let [low, high] = [low + self.delays[u], high + self.delays[u]];
                let [least, most] = sums.unwrap_or([low, high]);
                sums = Some([least.min(low), most.max(high)]);
            }
        }
        self.known[v] = Some(sums);
        sums
    }
}

/// The same by going through every path, or nothing if there are more than so many: from the last
/// component of a path back to its first, which has no incoming edge.
pub fn by_every_path(sums: &Sums, v: usize, most: usize) -> Option<Option<[u32; 2]>> {
    let mut extremes = None;
    let mut count = 0;
    let mut pending = vec![(v, 0)];
    while let Some((first, sum)) = pending.pop() {
        let sources = &sums.graph.sources[first];
        if sources.is_empty() {
            let [least, greatest] = extremes.unwrap_or([sum, sum]);
            extremes = Some([least.min(sum), greatest.max(sum)]);
        }
        let before = sources.iter().filter(|u| sums.settled[**u]);
        pending.extend(before.map(|u| (*u, sum + sums.delays[*u])));
        count += 1;
        if count > most {
            return None;
        }
    }
    Some(extremes)
}
