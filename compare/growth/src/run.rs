//! What a run answers.

/// How often the function was called, and on how much.
pub struct Run {
    pub calls: usize,
    pub nodes: usize,
    pub edges: usize,
}

/// A run, or in what the function differs from the plain computation.
pub type Outcome = Result<Run, String>;

/// How often a function is called that looks at its whole input.
pub const CALLS: usize = 20;

/// The first place where two lists differ, in words.
pub fn compare<T: PartialEq + std::fmt::Debug>(found: &[T], expected: &[T]) -> Result<(), String> {
    if found.len() != expected.len() {
        return Err(format!("{} entries, not {}", found.len(), expected.len()));
    }
    let pairs = found.iter().zip(expected).enumerate();
    for (i, (found, expected)) in pairs {
        if found != expected {
            return Err(format!("{found:?}, not {expected:?}, at {i}"));
        }
    }
    Ok(())
}
