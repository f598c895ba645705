//! Strongly connected components.

use sizhbanto::raw;

/// The lists that are lent to work in.
pub struct Scratch {
    head: Vec<usize>,
    next: Vec<usize>,
    order: Vec<usize>,
    group: Vec<usize>,
}

impl Scratch {
    pub fn new(nodes: usize, edges: usize) -> Self {
        Self {
            head: vec![0; nodes],
            next: vec![0; edges],
            order: vec![0; nodes],
            group: vec![0; nodes],
        }
    }
}

pub fn mark_shared_components(
    sources: &[usize],
    sinks: &[usize],
    marks: &mut [u8],
    scratch: &mut Scratch,
) -> bool {
    raw::mark_shared_components(
        sources,
        sinks,
        marks,
        &mut scratch.head,
        &mut scratch.next,
        &mut scratch.order,
        &mut scratch.group,
    )
}
