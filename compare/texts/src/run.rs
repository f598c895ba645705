//! Runs many texts, some at a time. The first that differs is made small and stored.
use std::fs;
use std::panic::{AssertUnwindSafe, catch_unwind};
use std::sync::Mutex;
use std::sync::atomic::{AtomicUsize, Ordering};
use std::thread;

use compare::shrink::shrunk;

use crate::answer::{Answer, answer};
use crate::case::Case;
use crate::examples::repository;
use crate::program::Program;
use crate::tally::Tally;
use crate::written::lines;

/// The answer that both sides have, or what differs and the two outputs.
struct Differs {
    told: String,
    wanted: Vec<u8>,
    got: Vec<u8>,
}

fn compared(program: &Program, case: &Case) -> Result<Answer, Differs> {
    let told = |told: String| Differs {
        told,
        wanted: Vec::new(),
        got: Vec::new(),
    };
    let answer = catch_unwind(AssertUnwindSafe(|| answer(&case.text)))
        .map_err(|_| told("the expected side panicked".to_owned()))?
        .map_err(|difference| told(format!("{}: {}", difference.what, difference.told)))?;
    let wanted = answer.printed();
    let got = program.printed(&case.text, case.pieces).map_err(told)?;
    if wanted == got {
        return Ok(answer);
    }
    let told = first_difference(&wanted, &got);
    Err(Differs { told, wanted, got })
}

/// The first line in which two outputs differ, and where in it the first byte that does.
fn first_difference(wanted: &[u8], got: &[u8]) -> String {
    let pairs = wanted.iter().zip(got);
    let same = pairs.take_while(|(one, other)| one == other).count();
    let before = &wanted[..same];
    let line = before.iter().filter(|byte| **byte == b'\n').count();
    let of = |output: &[u8]| match lines(output).get(line) {
        Some(line) => shown(line),
        None => "nothing".to_owned(),
    };
    let (line, wanted, got) = (line + 1, of(wanted), of(got));
    format!("line {line} of the output, byte {same}\n  wanted {wanted}\n  got    {got}")
}

/// Bytes in one line, the first of them where there are many.
fn shown(bytes: &[u8]) -> String {
    const MOST: usize = 1000;
    let more = match bytes.len() {
        0..=MOST => String::new(),
        length => format!(".. ({length} bytes)"),
    };
    let bytes = &bytes[..bytes.len().min(MOST)];
    format!("\"{}\"{more}", bytes.escape_ascii())
}

/// Compares all cases and counts them, in their order; the first difference, if any, is told.
pub fn run(tally: &mut Tally, program: &Program, cases: &[Case]) -> Result<(), String> {
    let next = AtomicUsize::new(0);
    let results: Vec<Mutex<Option<Result<Answer, Differs>>>> =
        cases.iter().map(|_| Mutex::default()).collect();
    let work = || {
        loop {
            let at = next.fetch_add(1, Ordering::Relaxed);
            let Some(case) = cases.get(at) else { break };
            let result = compared(program, case);
            if result.is_err() {
                next.store(cases.len(), Ordering::Relaxed);
            }
            *results[at].lock().expect("one thread for each result") = Some(result);
        }
    };
    thread::scope(|scope| {
        for _ in 0..thread::available_parallelism().map_or(1, usize::from) {
            scope.spawn(work);
        }
    });
    for (case, result) in cases.iter().zip(results) {
        match result.into_inner().expect("no thread has panicked") {
            Some(Ok(answer)) => tally.add(case.family, &answer),
            Some(Err(differs)) => return Err(told(program, case, &differs)),
            None => {}
        }
    }
    Ok(())
}

/// The difference in words; its text, as it was and made small, is stored with both outputs.
fn told(program: &Program, case: &Case, differs: &Differs) -> String {
    let small = shrunk(case, |case| compared(program, case).is_err());
    let again = compared(program, &small).err();
    let again = again.as_ref().unwrap_or(differs);
    let folder = repository().join("target/texts");
    let files = [
        ("text", &case.text),
        ("small", &small.text),
        ("small.wanted", &again.wanted),
        ("small.got", &again.got),
    ];
    let stored = fs::create_dir_all(&folder).and_then(|()| {
        let mut files = files.iter();
        files.try_for_each(|(name, bytes)| fs::write(folder.join(name), bytes))
    });
    let stored = match stored {
        Ok(()) => format!(
            "stored in {} as text, small, small.wanted, small.got",
            folder.display()
        ),
        Err(error) => format!("could not be stored: {error}"),
    };
    let (family, text) = (case.family, shown(&small.text));
    format!(
        "in the family '{family}': {}\nmade small: {}\n  text   {text}\n{stored}",
        differs.told, again.told
    )
}
