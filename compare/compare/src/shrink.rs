//! Makes a case that shows a difference smaller, as long as it shows one of the same sort.
use generator::lists::SceneLists;

use crate::calls::{AnalyzeLists, AssessLists, DescribeLists, SceneCall};
use crate::case::Case;

/// Tries no more than so many cases.
const TRIES: usize = 5000;

/// A case that can be made smaller.
pub trait Shrink: Clone {
    /// Smaller or plainer cases, great steps first.
    fn smaller(&self) -> impl Iterator<Item = Self>;
}

/// `differs` says whether a case still shows the difference.
pub fn shrunk<C: Shrink>(case: &C, differs: impl Fn(&C) -> bool) -> C {
    let mut best = case.clone();
    let mut tries = 0;
    loop {
        let smaller = best.smaller().find(|case| {
            tries += 1;
            tries <= TRIES && differs(case)
        });
        match smaller {
            Some(case) => best = case,
            None => return best,
        }
    }
}

impl Shrink for Case {
    fn smaller(&self) -> impl Iterator<Item = Self> {
        let lists = &self.lists;
        let [n, m] = rows(&lists.lengths(), 7);
        let connections = parts(m).map(|(from, to)| without_connections(lists, from, to));
        let components = parts(n).map(|(from, to)| without_components(lists, from, to));
        let left = connections.chain(components).map(|lists| self.with(lists));
        left.chain(plainer(self))
    }
}

/// The rows of the lists before `second`, and of those from there on. Lists of different lengths
/// have no rows that could be left out.
pub fn rows(lengths: &[usize], second: usize) -> [usize; 2] {
    let (one, other) = lengths.split_at(second);
    let even = |lengths: &[usize]| lengths.iter().all(|length| *length == lengths[0]);
    if even(one) && even(other) {
        [one[0], other[0]]
    } else {
        [0, 0]
    }
}

/// Parts of so many rows: halves first, then quarters, and so on to single rows.
pub fn parts(rows: usize) -> impl Iterator<Item = (usize, usize)> {
    let sizes = std::iter::successors(Some(rows.div_ceil(2)), |size| {
        (*size > 1).then_some(size.div_ceil(2))
    });
    sizes.filter(|size| *size > 0).flat_map(move |size| {
        (0..rows)
            .step_by(size)
            .map(move |from| (from, (from + size).min(rows)))
    })
}

/// The lists after each of these changes that changes anything.
pub fn changed<L: Clone + PartialEq, const N: usize>(
    lists: &L,
    changes: [fn(&mut L); N],
) -> impl Iterator<Item = L> {
    let changed = changes.into_iter().map(|change| {
        let mut other = lists.clone();
        change(&mut other);
        other
    });
    changed.filter(move |other| other != lists)
}

/// Numbers from 1 on, in the same order.
pub fn small_numbers<const N: usize>(lists: [&mut Vec<u64>; N]) {
    let mut known: Vec<u64> = lists.iter().flat_map(|list| list.iter().copied()).collect();
    known.sort();
    known.dedup();
    for number in lists.into_iter().flatten() {
        *number = 1 + known.binary_search(number).expect("a known number") as u64;
    }
}

fn without_connections(lists: &SceneLists, from: usize, to: usize) -> SceneLists {
    let mut left = lists.clone();
    left.sources.drain(from..to);
    left.sinks.drain(from..to);
    left.transfers.drain(from..to);
    left
}

/// The connections that name them go with the components.
fn without_components(lists: &SceneLists, from: usize, to: usize) -> SceneLists {
    let gone = &lists.ids[from..to];
    let mut left = lists.clone();
    for i in (0..lists.sources.len()).rev() {
        if gone.contains(&lists.sources[i]) || gone.contains(&lists.sinks[i]) {
            left = without_connections(&left, i, i + 1);
        }
    }
    left.ids.drain(from..to);
    left.kinds.drain(from..to);
    left.delays.drain(from..to);
    left.locked.drain(from..to);
    left.xs.drain(from..to);
    left.ys.drain(from..to);
    left.zs.drain(from..to);
    left
}

/// The same size with plainer numbers, where that changes anything.
fn plainer(case: &Case) -> impl Iterator<Item = Case> {
    let numbers = [
        small_ids,
        no_positions,
        small_delays,
        unlocked,
        one_transfer,
    ];
    let scenes = changed(&case.lists, numbers).map(|lists| case.with(lists));
    let mut exact = case.clone();
    exact.describe = exact_lengths(case, DescribeLists::LISTS, &case.describe);
    exact.assess = exact_lengths(case, AssessLists::LISTS, &case.assess);
    exact.analyze = exact_lengths(case, AnalyzeLists::LISTS, &case.analyze);
    let shorter = exact.describe != case.describe
        || exact.assess != case.assess
        || exact.analyze != case.analyze;
    scenes.chain(shorter.then_some(exact))
}

/// No list is longer than it needs to be.
fn exact_lengths(case: &Case, lists: &[usize], lengths: &[usize]) -> Vec<usize> {
    let pairs = lists.iter().zip(lengths);
    pairs
        .map(|(list, length)| case.need(*list).min(*length))
        .collect()
}

fn small_ids(lists: &mut SceneLists) {
    small_numbers([&mut lists.ids, &mut lists.sources, &mut lists.sinks]);
}

fn no_positions(lists: &mut SceneLists) {
    for list in [&mut lists.xs, &mut lists.ys, &mut lists.zs] {
        list.fill(0);
    }
}

fn small_delays(lists: &mut SceneLists) {
    for delay in &mut lists.delays {
        *delay = (*delay).min(2);
    }
}

fn unlocked(lists: &mut SceneLists) {
    lists.locked.fill(0);
}

fn one_transfer(lists: &mut SceneLists) {
    for transfer in &mut lists.transfers {
        *transfer = if *transfer < 6 { 1 } else { *transfer };
    }
}
