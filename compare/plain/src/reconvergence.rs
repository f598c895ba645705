//! Settled nodes by Kahn's algorithm, the smallest and the largest sum of the paths to each node,
//! and the nodes where these differ. The library adds to the sums of an edge's sink when it takes
//! the source; here each node asks its sources.
use generator::sketch::Pair;

/// An entry for each node, but for the last list, which lists nodes.
pub struct Reconvergence {
    pub settled: Vec<u8>,
    pub smallest: Vec<u32>,
    pub largest: Vec<u32>,
    pub unequal: Vec<usize>,
}

/// Of a graph whose nodes have the delays `low` and `high`. Those of the nodes in `order` are listed
/// that have two edges or more into them and two sums that differ.
pub fn reconvergence(edges: &[Pair], low: &[u32], high: &[u32], order: &[usize]) -> Reconvergence {
    let n = low.len();
    let (mut sources, mut sinks) = (vec![Vec::new(); n], vec![Vec::new(); n]);
    for &(source, sink) in edges {
        sources[sink].push(source);
        sinks[source].push(sink);
    }
    let mut nodes = settled_nodes(&sources, &sinks);
    let mut settled = vec![0; n];
    for &v in &nodes {
        settled[v] = 1;
    }
    // the others come last: a sum goes by settled sources alone
    nodes.extend((0..n).filter(|v| settled[*v] == 0));
    let (mut smallest, mut largest) = (vec![0; n], vec![0; n]);
    for v in nodes {
        let before = || sources[v].iter().filter(|u| settled[**u] == 1);
        let lows = before().map(|u| low[*u].saturating_add(smallest[*u]));
        let highs = before().map(|u| high[*u].saturating_add(largest[*u]));
        (smallest[v], largest[v]) = (lows.min().unwrap_or(0), highs.max().unwrap_or(0));
    }
    let differs = |v: &usize| sources[*v].len() > 1 && smallest[*v] != largest[*v];
    let unequal = order.iter().copied().filter(differs).collect();
    Reconvergence {
        settled,
        smallest,
        largest,
        unequal,
    }
}

/// The nodes on no cycle and not reachable from one, each behind the sources of its edges.
fn settled_nodes(sources: &[Vec<usize>], sinks: &[Vec<usize>]) -> Vec<usize> {
    let mut left: Vec<_> = sources.iter().map(Vec::len).collect();
    let mut ready: Vec<_> = (0..left.len()).filter(|v| left[*v] == 0).collect();
    let mut settled = Vec::new();
    while let Some(u) = ready.pop() {
        settled.push(u);
        for &v in &sinks[u] {
            left[v] -= 1;
            if left[v] == 0 {
                ready.push(v);
            }
        }
    }
    settled
}
