//! Texts at and beyond the limits of their length, of their components and of their connections.
use generator::lists::{ABSENT_DELAY, SUPPORT, SceneLists};

use crate::form::LONGEST;
use crate::written::written;

/// A scene of so many plain components and connections; without components the ends are absent.
pub fn plain(n: usize, m: usize, kind: u8) -> SceneLists {
    let mut lists = SceneLists::default();
    for i in 0..n {
        lists.push_component(i as u64, kind, ABSENT_DELAY, 0, [0, 0, 0]);
    }
    for k in 0..m {
        let ends = [k, k * k + 1].map(|v| (v % n.max(1)) as u64);
        lists.push_connection(ends[0], ends[1], (k % 6) as u8);
    }
    lists
}

/// As many as are allowed, one more, and far more, in every way together.
pub fn counts() -> impl Iterator<Item = Vec<u8>> {
    const SIZES: [(usize, usize); 19] = [
        (511, 0),
        (512, 0),
        (513, 0),
        (600, 0),
        (1000, 0),
        (1300, 0),
        (512, 512),
        (512, 1100),
        (513, 1100),
        (600, 700),
        (0, 2047),
        (0, 2048),
        (0, 2049),
        (0, 2200),
        (9, 2047),
        (9, 2048),
        (9, 2049),
        (200, 1600),
        (40, 2048),
    ];
    SIZES.into_iter().map(|(n, m)| written(&plain(n, m, 8)))
}

/// The most bytes of a support's row, and the fewest.
const ROW: [usize; 2] = [65, 27];

/// A good text of exactly so many bytes: supports, which may name any ids, each digit of which is a
/// byte. The last row, or the last two, are as long as is left for them.
pub fn exactly(length: usize) -> Vec<u8> {
    let mut lists = SceneLists::default();
    let left = |lists: &SceneLists| length - written(lists).len();
    while left(&lists) >= ROW[0] + ROW[1] {
        lists.push_connection(u64::MAX, u64::MAX, SUPPORT);
    }
    for _ in 0..left(&lists).div_ceil(ROW[0]) {
        lists.push_connection(0, 0, SUPPORT);
    }
    let mut digits = left(&lists);
    let (sources, sinks) = (&mut lists.sources, &mut lists.sinks);
    for end in sources.iter_mut().rev().zip(sinks.iter_mut().rev()).take(2) {
        for id in [end.0, end.1].into_iter().filter(|id| **id == 0) {
            let more = digits.min(19);
            *id = if more > 0 { 10u64.pow(more as u32) } else { 0 };
            digits -= more;
        }
    }
    let text = written(&lists);
    assert_eq!(text.len(), length);
    text
}

/// Texts as long as they may be, a byte shorter and longer, and far longer; good and broken.
pub fn lengths() -> impl Iterator<Item = Vec<u8>> {
    let good = [LONGEST - 1, LONGEST, LONGEST + 1, LONGEST + 2].map(exactly);
    let longest = exactly(LONGEST);
    let cut = [LONGEST - 1, LONGEST / 2].map(|end| longest[..end].to_vec());
    let more = [&b"\n"[..], b"x", &longest].map(|more| [&longest[..], more].concat());
    let behind = [exactly(LONGEST - 1), b"\n".to_vec()].concat();
    let broken_first = [b"x", &longest[1..]].concat();
    let broken_and_long = [b"x", &longest[..]].concat();
    let of = |byte: u8, lengths: [usize; 4]| lengths.map(|length| vec![byte; length]);
    let sizes = [LONGEST - 1, LONGEST, LONGEST + 1, 1_000_000];
    let digits = [20, 21, 65_000, 65_525].map(|length| {
        let digits = vec![b'1'; length];
        [&b"components="[..], &digits].concat()
    });
    let zeros = [b"components=".to_vec(), vec![b'0'; 65_000], b"\n".to_vec()].concat();
    let mut texts = Vec::new();
    texts.extend(good);
    texts.extend(cut);
    texts.extend(more);
    texts.extend([behind, broken_first, broken_and_long, zeros]);
    for byte in [b'\n', b'0', 0, 0xff] {
        texts.extend(of(byte, sizes));
    }
    texts.extend(digits.iter().map(|text| [text, &b"\n"[..]].concat()));
    texts.extend(digits);
    texts.into_iter()
}
