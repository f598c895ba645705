//! "The fifteen refusals": those of a scene.
use generator::lists::{SUPPORT, SceneLists};

/// A refusal's number and place.
pub type Refusal = (u32, u64);

/// The length that an output list needs, for n components and m connections.
pub fn need(n: usize, m: usize, list: usize) -> usize {
    match list {
        0 => m,
        1 => n,
        2 => m + n,
        3 => 2 * n + 1,
        4 => n,
        5 => n,
        6 => m,
        7 => 2 * m + n,
        8 => n,
        _ => 0,
    }
}

/// The refusal of a call that is lent number lists of the output lists named in `room`, each with
/// its length: 8, 1, 2, 7, components one by one (4 then 3), connections one by one (5 then 6).
pub fn expected_refusal(lists: &SceneLists, room: &[(usize, usize)]) -> Option<Refusal> {
    let (n, m) = (lists.ids.len(), lists.sources.len());
    let lengths = lists.lengths();
    if lengths[..7].iter().any(|length| *length != n) {
        return Some((8, 0));
    }
    if lengths[7..].iter().any(|length| *length != m) {
        return Some((8, 1));
    }
    if n > 512 {
        return Some((1, n as u64));
    }
    if m > 2048 {
        return Some((2, m as u64));
    }
    short_output(n, m, room)
        .or_else(|| (0..n).find_map(|i| component_refusal(lists, i)))
        .or_else(|| (0..m).find_map(|i| connection_refusal(lists, i)))
}

/// "7 tests every one" of a list's number lists, and gives the lowest list number.
fn short_output(n: usize, m: usize, room: &[(usize, usize)]) -> Option<Refusal> {
    let short = room
        .iter()
        .filter(|(list, length)| *length < need(n, m, *list));
    short.map(|(list, _)| (7, *list as u64)).min()
}

fn component_refusal(lists: &SceneLists, i: usize) -> Option<Refusal> {
    if lists.kinds[i] > 12 || lists.delays[i] > 256 || lists.locked[i] > 1 {
        return Some((4, i as u64));
    }
    if lists.ids[..i].contains(&lists.ids[i]) {
        return Some((3, i as u64));
    }
    None
}

fn connection_refusal(lists: &SceneLists, i: usize) -> Option<Refusal> {
    if lists.transfers[i] > 6 {
        return Some((5, i as u64));
    }
    let missing = |id| !lists.ids.contains(id);
    if lists.transfers[i] != SUPPORT && (missing(&lists.sources[i]) || missing(&lists.sinks[i])) {
        return Some((6, i as u64));
    }
    None
}
