//! Damage to good texts: to bytes, to lines, to numbers, and to the end.
use generator::rng::Rng;

use crate::written::lines;

/// A name, and the text with the damage made somewhere.
pub type Damage = (&'static str, fn(&mut Rng, &[u8]) -> Vec<u8>);

pub const DAMAGES: [Damage; 24] = [
    ("a byte changed", |rng, text| change(rng, text, any_byte)),
    ("a byte dropped", |rng, text| splice(rng, text, 1, &[])),
    ("a byte doubled", double_byte),
    ("a byte put in", put_in),
    ("a bit changed", |rng, text| change(rng, text, other_bit)),
    ("letters of the other case", |rng, text| {
        change(rng, text, |_, byte| byte ^ 0x20)
    }),
    ("a line dropped", |rng, text| {
        spliced_lines(rng, text, |_, _| Vec::new())
    }),
    ("a line doubled", |rng, text| {
        spliced_lines(rng, text, |_, line| line.repeat(2))
    }),
    ("a line cut", |rng, text| spliced_lines(rng, text, cut_line)),
    ("an empty line put in", |rng, text| {
        spliced_lines(rng, text, |_, line| [b"\n", line].concat())
    }),
    ("two lines joined", |rng, text| {
        spliced_lines(rng, text, |_, line| without_feed(line).to_vec())
    }),
    ("two lines exchanged", |rng, text| {
        exchange(rng, text, false)
    }),
    ("a line and the next exchanged", |rng, text| {
        exchange(rng, text, true)
    }),
    ("the last line feed missing", |_, text| {
        without_feed(text).to_vec()
    }),
    ("cut anywhere", |rng, text| {
        text[..rng.below(text.len())].to_vec()
    }),
    ("cut behind a line", cut_behind_line),
    ("more at the end", more_at_end),
    ("CR LF in every line", |_, text| {
        text.split(|b| *b == b'\n')
            .collect::<Vec<_>>()
            .join(&b"\r\n"[..])
    }),
    ("CR LF in one line", |rng, text| {
        spliced_lines(rng, text, |_, line| [without_feed(line), b"\r\n"].concat())
    }),
    ("a space put in", space_put_in),
    ("a leading zero", |rng, text| {
        number_changed(rng, text, |_, digits| [b"0", digits].concat())
    }),
    ("a sign", |rng, text| {
        number_changed(rng, text, |rng, digits| {
            [rng.pick(&[&b"-"[..], b"+", b"--", b"-0"]), digits].concat()
        })
    }),
    ("another number", |rng, text| {
        number_changed(rng, text, other_number)
    }),
    ("another count", another_count),
];

/// Bytes that a reader may treat as what they are not.
const TELLING: &[u8] =
    b"\0\n\r\t +-,.:=0123456789Aadeikmnost\x0b\x0c\x1f\x2f\x3a\x7f\x80\xa0\xc3\xff";

fn any_byte(rng: &mut Rng, _: u8) -> u8 {
    if rng.chance(3, 4) {
        rng.pick(TELLING)
    } else {
        rng.word() as u8
    }
}

fn other_bit(rng: &mut Rng, byte: u8) -> u8 {
    byte ^ (1 << rng.below(8))
}

fn change(rng: &mut Rng, text: &[u8], new: fn(&mut Rng, u8) -> u8) -> Vec<u8> {
    let at = rng.below(text.len());
    let mut text = text.to_vec();
    text[at] = new(rng, text[at]);
    text
}

/// Some bytes in the place of `size` bytes anywhere.
fn splice(rng: &mut Rng, text: &[u8], size: usize, new: &[u8]) -> Vec<u8> {
    let at = rng.below(text.len() + 1 - size);
    [&text[..at], new, &text[at + size..]].concat()
}

fn double_byte(rng: &mut Rng, text: &[u8]) -> Vec<u8> {
    let at = rng.below(text.len());
    [&text[..=at], &text[at..]].concat()
}

fn put_in(rng: &mut Rng, text: &[u8]) -> Vec<u8> {
    let byte = any_byte(rng, 0);
    splice(rng, text, 0, &[byte])
}

fn without_feed(line: &[u8]) -> &[u8] {
    line.strip_suffix(b"\n").unwrap_or(line)
}

/// Any line, and something else in its place.
fn spliced_lines(rng: &mut Rng, text: &[u8], new: impl Fn(&mut Rng, &[u8]) -> Vec<u8>) -> Vec<u8> {
    let lines = lines(text);
    let at = rng.below(lines.len());
    let new = new(rng, lines[at]);
    [&lines[..at].concat(), &new, &lines[at + 1..].concat()]
        .map(|part| &part[..])
        .concat()
}

/// A part of a line, its line feed kept.
fn cut_line(rng: &mut Rng, line: &[u8]) -> Vec<u8> {
    let left = without_feed(line);
    [&left[..rng.below(left.len() + 1)], b"\n"].concat()
}

fn exchange(rng: &mut Rng, text: &[u8], next: bool) -> Vec<u8> {
    let mut lines = lines(text);
    let one = rng.below(lines.len());
    let other = if next {
        (one + 1) % lines.len()
    } else {
        rng.below(lines.len())
    };
    lines.swap(one, other);
    lines.concat()
}

fn cut_behind_line(rng: &mut Rng, text: &[u8]) -> Vec<u8> {
    let lines = lines(text);
    lines[..rng.below(lines.len())].concat()
}

fn more_at_end(rng: &mut Rng, text: &[u8]) -> Vec<u8> {
    let more: [&[u8]; 9] = [
        b"\n",
        b"\0",
        b" ",
        b"\r\n",
        b"\n\n\n",
        b"source=1\nsink=1\ntransfer=1\n",
        b"connections=0\n",
        b"x",
        b"\xff",
    ];
    let more = if rng.chance(1, 10) {
        text
    } else {
        rng.pick(&more)
    };
    [text, more].concat()
}

/// Before a line, before or behind its equals sign, or behind its number.
fn space_put_in(rng: &mut Rng, text: &[u8]) -> Vec<u8> {
    spliced_lines(rng, text, |rng, line| {
        let equals = line.iter().position(|byte| *byte == b'=').unwrap_or(0);
        let places = [0, equals, equals + 1, without_feed(line).len()];
        let at = rng.pick(&places).min(line.len());
        let space = rng.pick(&[b' ', b'\t', 0, 0xa0]);
        [&line[..at], &[space], &line[at..]].concat()
    })
}

/// Any line with another value behind its equals sign.
fn number_changed(rng: &mut Rng, text: &[u8], new: fn(&mut Rng, &[u8]) -> Vec<u8>) -> Vec<u8> {
    spliced_lines(rng, text, |rng, line| {
        let line = without_feed(line);
        let equals = line.iter().position(|byte| *byte == b'=');
        let (name, digits) = line.split_at(equals.map_or(0, |equals| equals + 1));
        [name, &new(rng, digits), b"\n"].concat()
    })
}

/// Numbers beside the limits of a width, and now and then any.
fn other_number(rng: &mut Rng, _: &[u8]) -> Vec<u8> {
    let limits: [u128; 12] = [
        0,
        1,
        2,
        6,
        12,
        255,
        1 << 31,
        1 << 32,
        1 << 63,
        1 << 64,
        1 << 65,
        10 * (1 << 64),
    ];
    let near = rng.pick(&limits) + rng.below(3) as u128;
    match rng.below(4) {
        0 => rng.word().to_string().into_bytes(),
        1 => format!("-{}", near.saturating_sub(1)).into_bytes(),
        _ => near.saturating_sub(1).to_string().into_bytes(),
    }
}

/// The number of components or of connections is not the one that is said.
fn another_count(rng: &mut Rng, text: &[u8]) -> Vec<u8> {
    let mut lines: Vec<Vec<u8>> = lines(text).iter().map(|line| line.to_vec()).collect();
    let counts: Vec<usize> = (0..lines.len())
        .filter(|i| lines[*i].starts_with(b"co"))
        .collect();
    if counts.is_empty() {
        return text.to_vec();
    }
    let at = rng.pick(&counts);
    let line = String::from_utf8_lossy(without_feed(&lines[at])).into_owned();
    let (name, count) = line.split_once('=').unwrap_or((&line, "0"));
    let count: u128 = count.parse().unwrap_or(0);
    let count = match rng.below(6) {
        0 => count + 1,
        1 => count.saturating_sub(1),
        2 => count + (1 << 64),
        3 => u128::from(u64::MAX),
        4 => u128::from(rng.word()),
        _ => rng.below(700) as u128,
    };
    lines[at] = format!("{name}={count}\n").into_bytes();
    lines.concat()
}
