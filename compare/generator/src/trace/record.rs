//! The running record of a row of traces, and records of every kind: true, full and false ones.
use crate::rng::Rng;

pub use sizhbanto::raw::TransientRecord;

/// The findings that a record may hold for each trace.
pub const EACH: u64 = 4096;
/// The traces at which a record is full.
pub const FULL: u64 = 64;

/// A true record with room for a trace, which holds at most so many findings.
pub fn open(rng: &mut Rng, most: u64) -> TransientRecord {
    let any = rng.below(FULL as usize) as u64;
    let traces = rng.pick(&[0, 1, 2, 62, 63, any]);
    let most = most.min(EACH * traces);
    let findings = match rng.below(3) {
        0 => most,
        _ => rng.below(most as usize + 1) as u64,
    };
    holding(rng, traces, findings)
}

/// A record whose tallies sum to its findings.
pub fn holding(rng: &mut Rng, traces: u64, findings: u64) -> TransientRecord {
    TransientRecord {
        traces,
        findings,
        tallies: split(rng, findings),
    }
}

/// Five numbers that sum to this one, in any order.
fn split(rng: &mut Rng, findings: u64) -> [u64; 5] {
    let mut tallies = [0; 5];
    let mut rest = findings;
    for tally in &mut tallies[1..] {
        // the modulus is past the largest word where the rest is that word
        let part = u128::from(rng.word()) % (u128::from(rest) + 1);
        *tally = if rng.chance(1, 4) { 0 } else { part as u64 };
        rest -= *tally;
    }
    tallies[0] = rest;
    rng.shuffle(&mut tallies);
    tallies
}

/// A true record that holds 64 traces or more, many of them so many that 4,096 times as many don't
/// fit a word.
pub fn full(rng: &mut Rng) -> TransientRecord {
    let many = [FULL, FULL + 1, 1 << 52, (1 << 52) + 1, 1 << 63, u64::MAX];
    let traces = rng.pick(&many);
    let most = u128::from(EACH) * u128::from(traces);
    let most = most.min(u128::from(u64::MAX)) as u64;
    let any = (u128::from(rng.word()) % (u128::from(most) + 1)) as u64;
    let findings = rng.pick(&[0, 5, 40, most, any]);
    holding(rng, traces, findings)
}

/// A record that is false by one: in a tally, in the findings, or in both by one finding too many
/// for its traces.
pub fn false_by_one(rng: &mut Rng) -> TransientRecord {
    let mut record = if rng.chance(1, 4) {
        full(rng)
    } else {
        open(rng, 40)
    };
    let step = rng.pick(&[1, u64::MAX]);
    match rng.below(3) {
        0 => {
            let tally = &mut record.tallies[rng.below(5)];
            *tally = tally.wrapping_add(step);
        }
        1 => record.findings = record.findings.wrapping_add(step),
        _ => {
            let traces = rng.below(FULL as usize + 1) as u64;
            record = holding(rng, traces, EACH * traces + 1);
        }
    }
    record
}

/// A record whose tallies sum to its findings where the sum wraps; mostly they do not otherwise.
pub fn wrapping(rng: &mut Rng) -> TransientRecord {
    let mut record = if rng.chance(1, 2) {
        full(rng)
    } else {
        open(rng, 40)
    };
    let (a, b) = (rng.below(5), rng.below(4));
    let b = if b < a { b } else { b + 1 };
    let any = rng.word();
    let more = rng.pick(&[1, 2, 1 << 63, u64::MAX, any]);
    record.tallies[a] = record.tallies[a].wrapping_add(more);
    record.tallies[b] = record.tallies[b].wrapping_sub(more);
    record
}

/// Any words, many of them at the ends.
pub fn any(rng: &mut Rng) -> TransientRecord {
    let word = |rng: &mut Rng| {
        let any = rng.word();
        rng.pick(&[0, 0, 1, FULL - 1, FULL, EACH, u64::MAX, u64::MAX - 1, any])
    };
    TransientRecord {
        traces: word(rng),
        findings: word(rng),
        tallies: [(); 5].map(|()| word(rng)),
    }
}

/// Counts of traces, findings and wrong steps of a tally, each with each.
pub fn all() -> impl Iterator<Item = TransientRecord> {
    let many = [0, 1, 2, 62, 63, 64, 65, 1 << 52, (1 << 52) + 1, u64::MAX];
    many.into_iter().flat_map(|traces| {
        let most = traces.wrapping_mul(EACH);
        let counts = [
            0,
            1,
            2,
            5,
            most,
            most.wrapping_add(1),
            most.wrapping_sub(1),
            u64::MAX,
        ];
        // a list for more findings would be long for nothing
        let counts = counts
            .into_iter()
            .filter(move |n| *n < 3 * EACH || *n > 1 << 40 || traces > 63);
        counts.flat_map(move |findings| tallied(traces, findings))
    })
}

/// The findings in one tally or in two, the sum right, false by one, or right only where it wraps.
fn tallied(traces: u64, findings: u64) -> impl Iterator<Item = TransientRecord> {
    let halves = [findings / 2, findings - findings / 2];
    let wraps = [findings.wrapping_add(1), u64::MAX];
    let pairs = [
        [findings, 0],
        halves,
        wraps,
        [findings.wrapping_add(1), 0],
        [findings.wrapping_sub(1), 0],
    ];
    pairs.into_iter().flat_map(move |[one, other]| {
        (0..5).map(move |k| {
            let mut tallies = [0; 5];
            tallies[k] = one;
            tallies[(k + 2) % 5] = other;
            TransientRecord {
                traces,
                findings,
                tallies,
            }
        })
    })
}
