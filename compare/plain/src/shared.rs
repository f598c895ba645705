//! Strongly connected components by Tarjan's algorithm, in plain Rust; the library goes by that of
//! Kosaraju and Sharir. It keeps its path in a list, so that it needs no deep stack.
use generator::sketch::Pair;

const UNSEEN: usize = usize::MAX;

struct Tarjan {
    sinks: Vec<Vec<usize>>,
    /// By node: how many were seen before it, and the least such number that its visit met.
    number: Vec<usize>,
    low: Vec<usize>,
    seen: usize,
    /// The nodes whose component is not known yet.
    open: Vec<usize>,
    is_open: Vec<bool>,
    marks: Vec<u8>,
}

/// A mark for each node: 1 where a different node is in its strongly connected component, else 0.
pub fn shared_marks(n: usize, edges: &[Pair]) -> Vec<u8> {
    let mut sinks = vec![Vec::new(); n];
    for &(source, sink) in edges {
        sinks[source].push(sink);
    }
    let mut tarjan = Tarjan {
        sinks,
        number: vec![UNSEEN; n],
        low: vec![UNSEEN; n],
        seen: 0,
        open: Vec::new(),
        is_open: vec![false; n],
        marks: vec![0; n],
    };
    for root in 0..n {
        if tarjan.number[root] == UNSEEN {
            tarjan.visit(root);
        }
    }
    tarjan.marks
}

impl Tarjan {
    fn visit(&mut self, root: usize) {
        self.enter(root);
        let mut path = vec![(root, 0)];
        while let Some((u, k)) = path.pop() {
            let Some(&v) = self.sinks[u].get(k) else {
                self.leave(u, path.last().map(|step| step.0));
                continue;
            };
            path.push((u, k + 1));
            if self.number[v] == UNSEEN {
                self.enter(v);
                path.push((v, 0));
            } else if self.is_open[v] {
                self.low[u] = self.low[u].min(self.number[v]);
            }
        }
    }

    fn enter(&mut self, u: usize) {
        self.number[u] = self.seen;
        self.low[u] = self.seen;
        self.seen += 1;
        self.open.push(u);
        self.is_open[u] = true;
    }

    /// Takes the component of `u` out of the open nodes where `u` was its first.
    fn leave(&mut self, u: usize, before: Option<usize>) {
        if let Some(before) = before {
            self.low[before] = self.low[before].min(self.low[u]);
        }
        if self.low[u] != self.number[u] {
            return;
        }
        let first = self.open.iter().rposition(|v| *v == u).expect("u is open");
        let component = self.open.split_off(first);
        for &v in &component {
            self.is_open[v] = false;
            self.marks[v] = u8::from(component.len() > 1);
        }
    }
}
