//! The sample that `crates/replay` replays: texts, each with its report.
use std::collections::{BTreeMap, BTreeSet};
use std::fs;
use std::path::Path;

use compare::fixed::longest_chains;
use compare::order::shuffle_connections;
use compare::round::scene;
use generator::rng::Rng;
use generator::shapes::{SHAPES, Shape};

use crate::answer::{Answer, answer};
use crate::case::Case;
use crate::examples::{examples, repository};
use crate::fixed::fixed;
use crate::lengths::{exactly, plain};
use crate::round::{SHUFFLED, TOO_LONG, faulty, round};
use crate::written::written;

const SEED: u64 = 1;

/// Of each family one text may be longer than the first, and none than the second.
const LONGEST: [usize; 2] = [2_500, 6_000];

/// The longest report that the program that replays has room for.
const ROOM: usize = 262_144;

/// Smallest and largest size of a sketch, and how many scenes of each shape; each of them is
/// there twice, as made and shuffled.
const SIZES: [(usize, usize, usize); 2] = [(2, 8, 3), (9, 24, 1)];

/// Each of these refusals has so many texts or more; 1 and 2 have few, since theirs are long.
const REFUSALS: [u32; 4] = [3, 4, 5, 6];
const OF_EACH: usize = 12;

/// Components and connections that are too many, and the most that are not.
const COUNTS: [(usize, usize); 6] = [(600, 0), (513, 0), (513, 3), (0, 2049), (2, 2049), (512, 0)];

/// How often a text of the sample is made anew where it does not serve.
const TRIES: usize = 10_000;

/// What `stdin` and `stdout` of the program have to be.
pub struct Sample {
    pub stdin: Vec<u8>,
    pub stdout: String,
}

/// Writes the sample to the folder.
pub fn write(folder: &Path) -> Result<(), String> {
    let sample = made()?;
    let stored = fs::write(folder.join("stdin"), &sample.stdin)
        .and_then(|()| fs::write(folder.join("stdout"), &sample.stdout));
    stored.map_err(|error| format!("{}: {error}", folder.display()))?;
    print!("{} bytes, {}", sample.stdin.len(), sample.stdout);
    Ok(())
}

/// Whether the repository's sample is the one that is made today.
pub fn stored() -> Result<(), String> {
    let sample = made()?;
    let folder = repository().join("crates/replay");
    for (name, wanted) in [
        ("stdin", &sample.stdin[..]),
        ("stdout", sample.stdout.as_bytes()),
    ] {
        let path = folder.join(name);
        let got = fs::read(&path).map_err(|error| format!("{}: {error}", path.display()))?;
        if got != wanted {
            return Err(format!(
                "crates/replay/{name} is not the sample that is made today: run `texts sample ../crates/replay`"
            ));
        }
    }
    Ok(())
}

/// The sample as it grows: no text is in it twice.
#[derive(Default)]
struct Growing {
    texts: BTreeSet<Vec<u8>>,
    refused: BTreeMap<u32, usize>,
    bytes: Vec<u8>,
}

impl Growing {
    fn add(&mut self, text: Vec<u8>) -> Result<(), String> {
        if self.texts.contains(&text) {
            return Ok(());
        }
        let answer = answer(&text).map_err(|difference| difference.told)?;
        let printed = answer.printed();
        if printed.len() > ROOM {
            return Err(format!(
                "a report of the sample has {} bytes",
                printed.len()
            ));
        }
        if let Answer::Refused((number, _)) = answer {
            *self.refused.entry(number).or_default() += 1;
        }
        let lengths = format!("{:08} {:08}\n", text.len(), printed.len());
        self.bytes.extend(lengths.bytes());
        self.bytes.extend(&text);
        self.bytes.extend(printed);
        self.texts.insert(text);
        Ok(())
    }

    /// Whether there are fewer texts that are refused by this number than there should be.
    fn wants(&self, number: u32) -> bool {
        let count = self.refused.get(&number).copied().unwrap_or(0);
        REFUSALS.contains(&number) && count < OF_EACH
    }
}

/// The examples, some of every family of a run, scenes of every shape in two orders, those that are
/// about lengths and counts, and as many refused ones as are still wanted.
fn made() -> Result<Sample, String> {
    let mut sample = Growing::default();
    for example in examples()? {
        sample.add(example.text)?;
    }
    let cases = [fixed(), round(SEED)].concat();
    for family in families(&cases) {
        for text in some_of(&cases, family) {
            sample.add(text)?;
        }
    }
    let rng = &mut Rng::new(SEED);
    for shape in &SHAPES {
        for text in of_shape(&sample.texts, rng, shape)? {
            sample.add(text)?;
        }
    }
    for length in [65_536, 65_537] {
        sample.add(exactly(length))?;
    }
    for (n, m) in COUNTS {
        sample.add(written(&plain(n, m, 8)))?;
    }
    sample.add(written(&longest_chains()[1]))?;
    more_refused(&mut sample, rng)?;
    let stdout = format!("{} texts replayed, 0 differ\n", sample.texts.len());
    Ok(Sample {
        stdin: sample.bytes,
        stdout,
    })
}

/// The families of a run in their order, but for those of the shapes, which have `of_shape`.
fn families(cases: &[Case]) -> Vec<&'static str> {
    let shapes = SHAPES.map(|shape| shape.0);
    let mut families = Vec::new();
    for case in cases {
        let family = case.family;
        let by_shape = shapes.contains(&family) || [SHUFFLED, TOO_LONG].contains(&family);
        if !by_shape && !families.contains(&family) {
            families.push(family);
        }
    }
    families
}

/// How many texts of a family: more where they are short.
fn share(family: &str) -> usize {
    match family {
        "values" => 120,
        "names" | "starts of a text" | "bytes of a text" => 40,
        "small faulty scenes" | "faulty scenes" => 36,
        _ => 8,
    }
}

/// Evenly out of all that are short, and a longer one.
fn some_of(cases: &[Case], family: &str) -> Vec<Vec<u8>> {
    let texts = cases.iter().filter(|case| case.family == family);
    let texts = texts.map(|case| case.text.clone());
    let texts = texts.filter(|text| text.len() <= LONGEST[1]);
    let (short, long): (Vec<_>, Vec<_>) = texts.partition(|text| text.len() <= LONGEST[0]);
    let step = short.len().div_ceil(share(family)).max(1);
    let some = short.into_iter().step_by(step);
    some.chain(long.into_iter().take(1)).collect()
}

/// Scenes of a shape, each as made and with its connections in another order.
fn of_shape(
    known: &BTreeSet<Vec<u8>>,
    rng: &mut Rng,
    shape: &Shape,
) -> Result<Vec<Vec<u8>>, String> {
    let mut texts: Vec<Vec<u8>> = Vec::new();
    for (least, most, count) in SIZES {
        for _ in 0..count {
            let pair = (0..TRIES).find_map(|_| {
                let n = rng.between(least, most);
                let lists = scene(rng, shape, n);
                let shuffled = shuffle_connections(rng, &lists);
                let pair = [written(&lists), written(&shuffled)];
                let new = |text| !known.contains(text) && !texts.contains(text);
                let serves = pair[0] != pair[1] && pair[0].len() <= LONGEST[1];
                (serves && pair.iter().all(new)).then_some(pair)
            });
            let name = shape.0;
            texts.extend(pair.ok_or(format!("no two orders of the shape '{name}'"))?);
        }
    }
    Ok(texts)
}

/// Faulty scenes for the refusals that have too few texts.
fn more_refused(sample: &mut Growing, rng: &mut Rng) -> Result<(), String> {
    for _ in 0..TRIES {
        if !REFUSALS.iter().any(|number| sample.wants(*number)) {
            return Ok(());
        }
        let text = faulty(rng);
        let answer = answer(&text).map_err(|difference| difference.told)?;
        if let Answer::Refused((number, _)) = answer
            && sample.wants(number)
            && text.len() <= LONGEST[0]
        {
            sample.add(text)?;
        }
    }
    Err("there are too few texts for a refusal of 3 to 6".to_owned())
}
