//! Holds the library against the unchanged Rust and against document 01.
//!
//!     compare [--seed SEED] [--rounds ROUNDS]
//!
//! Round k of a seed is round 0 of the seed k higher, so a failing round is replayed alone.
use std::process::exit;

use compare::tally::Tally;
use compare::trace::tally::TraceTally;
use compare::{fixed, round, trace};

const SEED: u64 = 1;
const ROUNDS: u64 = 20;

fn misused(word: &str) -> ! {
    eprintln!("compare [--seed SEED] [--rounds ROUNDS]: {word}?");
    exit(2)
}

/// Seed and rounds.
fn arguments() -> (u64, u64) {
    let (mut seed, mut rounds) = (SEED, ROUNDS);
    let mut words = std::env::args().skip(1);
    while let Some(word) = words.next() {
        let number = words.next().and_then(|text| text.parse().ok());
        match (word.as_str(), number) {
            ("--seed", Some(number)) => seed = number,
            ("--rounds", Some(number)) => rounds = number,
            _ => misused(&word),
        }
    }
    (seed, rounds)
}

fn fail(difference: &str, replay: &str) -> ! {
    println!("DIFFERENCE {difference}\nto replay: compare {replay}");
    exit(1)
}

fn main() {
    let (seed, rounds) = arguments();
    println!("seed {seed}, {rounds} rounds");
    // a panic is told with its case
    std::panic::set_hook(Box::new(|_| {}));
    let (mut scenes, mut traces) = (Tally::default(), TraceTally::default());
    let both = fixed::families(&mut scenes).and_then(|()| trace::fixed::families(&mut traces));
    both.unwrap_or_else(|difference| fail(&difference, "--rounds 0"));
    for k in 0..rounds {
        let seed = seed.wrapping_add(k);
        let scenes = round::round(&mut scenes, seed);
        let both = scenes.and_then(|()| trace::round::round(&mut traces, seed));
        both.unwrap_or_else(|difference| fail(&difference, &format!("--seed {seed} --rounds 1")));
    }
    println!("{scenes}\n{traces}");
    let missing = [scenes.missing(), traces.missing()].concat();
    if !missing.is_empty() {
        println!("TOO LITTLE: {}", missing.join("; "));
        exit(1);
    }
    println!("no difference");
}
