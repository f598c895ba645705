//! Calls one function of the library a fixed number of times on one input, and holds its answer
//! against a plain computation. The input is made before the first call, so the instructions of
//! the function, divided by the calls, are the cost of one.
mod graphs;
mod mark;
mod reconverge;
mod run;
mod scene;
mod search;
mod sort;
mod trace;

use std::process::exit;
use std::thread;

use generator::rng::Rng;

use run::{Outcome, Run};

/// With `--stack` all of it runs in a thread that has so much stack.
const USAGE: &str = "growth [--stack KIB] sort N SEED
growth [--stack KIB] search N SEED
growth [--stack KIB] mark|reconverge|check|feedback|analyze SHAPE N SEED
growth [--stack KIB] trace TRACE N SEED";

fn misused() -> ! {
    let shapes = graphs::SHAPES.map(|shape| shape.0).join(", ");
    let traces = trace::SHAPES.map(|shape| shape.0).join(", ");
    eprintln!("{USAGE}\nN is 1 or more; shapes: {shapes}; traces: {traces}");
    exit(2)
}

fn number(word: &str) -> u64 {
    word.parse().unwrap_or_else(|_| misused())
}

/// How many nodes or keys, and the random numbers of the seed.
fn input(n: &str, seed: &str) -> (usize, Rng) {
    match number(n) {
        0 => misused(),
        n => (n as usize, Rng::new(number(seed))),
    }
}

fn run(words: &[&str]) -> Outcome {
    match *words {
        [name, n, seed] => {
            let (n, mut rng) = input(n, seed);
            match name {
                "sort" => sort::run(&mut rng, n),
                "search" => search::run(&mut rng, n),
                _ => misused(),
            }
        }
        ["trace", shape, n, seed] => {
            let (n, mut rng) = input(n, seed);
            let lists = trace::lists(&mut rng, shape, n).unwrap_or_else(|| misused());
            trace::run(&lists)
        }
        [name, shape, n, seed] => {
            let (n, mut rng) = input(n, seed);
            let edges = graphs::edges(&mut rng, shape, n).unwrap_or_else(|| misused());
            match name {
                "mark" => mark::run(n, &edges),
                "reconverge" => reconverge::run(&mut rng, n, &edges),
                "check" => scene::check(&mut rng, n, edges),
                "feedback" => scene::feedback(&mut rng, n, edges),
                "analyze" => scene::analyze(&mut rng, n, edges),
                _ => misused(),
            }
        }
        _ => misused(),
    }
}

fn run_words(words: &[String]) -> Outcome {
    let words: Vec<&str> = words.iter().map(String::as_str).collect();
    match *words {
        ["--stack", kib, ref rest @ ..] => thread::scope(|scope| {
            let thread = thread::Builder::new().stack_size(number(kib) as usize * 1024);
            let running = thread.spawn_scoped(scope, || run(rest));
            running.expect("a thread").join().expect("no panic")
        }),
        ref rest => run(rest),
    }
}

fn main() {
    let words: Vec<String> = std::env::args().skip(1).collect();
    match run_words(&words) {
        Ok(Run {
            calls,
            nodes,
            edges,
        }) => println!("{calls} calls, {nodes} nodes, {edges} edges"),
        Err(difference) => {
            println!("DIFFERENCE in {}: {difference}", words.join(" "));
            exit(1)
        }
    }
}
