//! Every scene of up to three components, under small sets or lists of edges.
use crate::kinds::{ALL, LEVER, REPEATER, SOLID, TORCH, WIRE};
use crate::lists::SceneLists;
use crate::sketch::Pair;

const IDS: [[u64; 3]; 6] = [
    [0, 7, u64::MAX],
    [0, u64::MAX, 7],
    [7, 0, u64::MAX],
    [7, u64::MAX, 0],
    [u64::MAX, 0, 7],
    [u64::MAX, 7, 0],
];

fn scene(kinds: &[u8], ids: &[u64], edges: &[Pair]) -> SceneLists {
    let mut lists = SceneLists::default();
    for (kind, id) in kinds.iter().zip(ids) {
        lists.push_component(*id, *kind, 2, 0, [0, 0, 0]);
    }
    for &(a, b) in edges {
        lists.push_connection(ids[a], ids[b], 1);
    }
    lists
}

/// All rows of `length` entries out of `from`.
pub fn rows<T: Copy>(from: &[T], length: usize) -> Vec<Vec<T>> {
    let mut all = vec![Vec::new()];
    for _ in 0..length {
        let longer = |row: &Vec<T>| -> Vec<Vec<T>> {
            from.iter()
                .map(|item| [&row[..], &[*item]].concat())
                .collect()
        };
        all = all.iter().flat_map(longer).collect();
    }
    all
}

/// Up to two components of any kinds, under every list of up to three edges.
pub fn up_to_two() -> impl Iterator<Item = SceneLists> {
    (0..=2usize).flat_map(|n| {
        let edge_lists: Vec<_> = (0..=3).flat_map(|m| rows(&pairs(n), m)).collect();
        rows(&ALL, n).into_iter().flat_map(move |kinds| {
            let scenes: Vec<_> = edge_lists
                .iter()
                .map(|edges| scene(&kinds, &[7, 2], edges))
                .collect();
            scenes
        })
    })
}

/// The edges that there can be between so many components.
fn pairs(n: usize) -> Vec<Pair> {
    let pairs = rows(&(0..n).collect::<Vec<_>>(), 2);
    pairs.iter().map(|pair| (pair[0], pair[1])).collect()
}

/// Three components, each a source, a wire, an inverter or a repeater, under every list of up to
/// three edges: the same edge may come twice, and every order of the list is there.
pub fn three_with_lists() -> impl Iterator<Item = SceneLists> {
    let edge_lists: Vec<_> = (0..=3).flat_map(|m| rows(&pairs(3), m)).collect();
    rows(&[LEVER, WIRE, TORCH, REPEATER], 3)
        .into_iter()
        .flat_map(move |kinds| {
            let scene = |edges: &Vec<Pair>| scene(&kinds, &IDS[3], edges);
            edge_lists.iter().map(scene).collect::<Vec<_>>()
        })
}

/// Three components, each a wire, a conductor or neither, in every order of ids, under every set
/// of edges, self-edges included.
pub fn three() -> impl Iterator<Item = SceneLists> {
    let pairs = pairs(3);
    rows(&[WIRE, SOLID, REPEATER], 3)
        .into_iter()
        .flat_map(move |kinds| {
            let pairs = pairs.clone();
            (0..1usize << pairs.len()).flat_map(move |set| {
                let edges: Vec<_> = (0..pairs.len())
                    .filter(|i| set >> i & 1 == 1)
                    .map(|i| pairs[i])
                    .collect();
                let kinds = kinds.clone();
                IDS.into_iter().map(move |ids| scene(&kinds, &ids, &edges))
            })
        })
}
