//! How many times as fast the library is as the unchanged Rust, from one run.
//!
//!     bench [SEED]
//!
//! What either side needs is made before the clock starts. It exits with 1 where an answer is
//! wrong, and for no other reason.
mod clock;
mod deepest;
mod parts;
mod scenes;
mod traces;

use std::process::exit;

use generator::rng::Rng;

fn main() {
    let seed = std::env::args().nth(1).and_then(|word| word.parse().ok());
    let seed = seed.unwrap_or(1);
    println!("seed {seed}");
    let rng = &mut Rng::new(seed);
    let tables = scenes::table(rng)
        .and_then(|()| parts::table(rng))
        .and_then(|()| traces::table(rng))
        .and_then(|()| deepest::table(rng));
    if let Err(wrong) = tables {
        println!("WRONG: {wrong}");
        exit(1);
    }
}
