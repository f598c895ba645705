//! Holds the program `report` against the unchanged Rust and against document 01.
//!
//!     texts [--seed SEED] [--rounds ROUNDS]
//!     texts answer            prints what is wanted for the text on standard input
//!     texts sample FOLDER     writes the sample that crates/replay replays
//!
//! A comparison also fails where the sample that is stored there is not the one made today.
//!
//! Round k of a seed is round 0 of the seed k higher, so a failing round is replayed alone.
use std::io::{Read, Write, stdin, stdout};
use std::path::Path;
use std::process::exit;

use texts::answer::answer;
use texts::case::Case;
use texts::examples::examples;
use texts::program::Program;
use texts::tally::Tally;
use texts::{boundaries, fixed, round, run, sample};

const SEED: u64 = 1;
const ROUNDS: u64 = 3;

fn misused(word: &str) -> ! {
    eprintln!("texts [--seed SEED] [--rounds ROUNDS] | answer | sample FOLDER: {word}?");
    exit(2)
}

/// Seed and rounds.
fn arguments(words: &[String]) -> (u64, u64) {
    let (mut seed, mut rounds) = (SEED, ROUNDS);
    for pair in words.chunks(2) {
        let number = pair.get(1).and_then(|text| text.parse().ok());
        match (pair[0].as_str(), number) {
            ("--seed", Some(number)) => seed = number,
            ("--rounds", Some(number)) => rounds = number,
            _ => misused(&pair[0]),
        }
    }
    (seed, rounds)
}

fn fail(told: &str) -> ! {
    println!("{told}");
    exit(1)
}

fn main() {
    let words: Vec<String> = std::env::args().skip(1).collect();
    match &words[..] {
        [word] if word == "answer" => print_answer(),
        [word, folder] if word == "sample" => {
            sample::write(Path::new(folder)).unwrap_or_else(|told| fail(&told));
        }
        _ => compare(arguments(&words)),
    }
}

fn print_answer() {
    let mut text = Vec::new();
    stdin().read_to_end(&mut text).expect("a text");
    let answer = answer(&text).unwrap_or_else(|difference| fail(&difference.told));
    stdout().write_all(&answer.printed()).expect("a reader");
}

fn compare((seed, rounds): (u64, u64)) {
    println!("seed {seed}, {rounds} rounds");
    let program = Program::found().unwrap_or_else(|told| fail(&told));
    std::panic::set_hook(Box::new(|_| {}));
    let mut tally = Tally::default();
    let differ = |told: String, replay: &str| -> ! {
        fail(&format!("DIFFERENCE {told}\nto replay: texts {replay}"))
    };
    let known = known().unwrap_or_else(|told| fail(&told));
    let fixed = [known, fixed::fixed()].concat();
    run::run(&mut tally, &program, &fixed).unwrap_or_else(|told| differ(told, "--rounds 0"));
    for k in 0..rounds {
        let seed = seed.wrapping_add(k);
        let compared = run::run(&mut tally, &program, &round::round(seed));
        compared.unwrap_or_else(|told| differ(told, &format!("--seed {seed} --rounds 1")));
    }
    println!("{tally}");
    let missing = tally.missing();
    if !missing.is_empty() {
        fail(&format!("TOO LITTLE: {}", missing.join("; ")));
    }
    sample::stored().unwrap_or_else(|told| fail(&format!("STALE SAMPLE: {told}")));
    println!("no difference");
}

/// The repository's examples; what stands beside each, and document 01's own report, must be what is
/// wanted.
fn known() -> Result<Vec<Case>, String> {
    let wanted = |name: &str, text: &[u8], report: &[u8]| match answer(text) {
        Ok(answer) if answer.printed() == report => Ok(()),
        Ok(_) => Err(format!("{name}: its report is not what is wanted")),
        Err(difference) => Err(difference.told),
    };
    let (text, report) = (boundaries::TEXT.as_bytes(), boundaries::REPORT.as_bytes());
    wanted("document 01's example", text, report)?;
    let mut cases = Vec::new();
    for example in examples()? {
        wanted(&example.name, &example.text, &example.report)?;
        cases.push(Case::new("examples", example.text));
    }
    Ok(cases)
}
