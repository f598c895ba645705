//! The part of list 7 that holds one edge's path.
use generator::rng::Rng;
use library::path::{PathPart, projected_path};

use crate::calls::{AssessEntries, AssessLists};
use crate::difference::{Difference, equal};

const NAME: &str = "sizhbanto_projected_path";
const EMPTY: PathPart = PathPart {
    start: 0,
    length: 0,
};

/// Lists 6 and 7 as a caller may hand them in.
struct Stored {
    paths: Vec<u64>,
    starts: Vec<usize>,
    lengths: Vec<usize>,
}

impl Stored {
    /// As the call has left them, with the entries past those used.
    fn new(lent: &AssessLists) -> Self {
        Self {
            paths: lent.path_ids.entries().to_vec(),
            starts: lent.projected_starts.entries().to_vec(),
            lengths: lent.projected_lengths.entries().to_vec(),
        }
    }

    fn ask(&self, edge: usize) -> PathPart {
        projected_path(&self.paths, &self.starts, &self.lengths, edge)
    }

    /// "An edge number past the end of list 6, or a stored start and length that don't lie within
    /// list 7, gives the empty part."
    fn wanted(&self, edge: usize) -> PathPart {
        let (Some(&start), Some(&length)) = (self.starts.get(edge), self.lengths.get(edge)) else {
            return EMPTY;
        };
        match start.checked_add(length) {
            Some(end) if end <= self.paths.len() => PathPart { start, length },
            _ => EMPTY,
        }
    }
}

/// Each edge in use has its path; the numbers past the end of list 6 have none.
pub fn compare_used(lent: &AssessLists, entries: &AssessEntries) -> Result<(), Difference> {
    let stored = Stored::new(lent);
    for (k, edge) in entries.projected().iter().enumerate() {
        let PathPart { start, length } = stored.ask(k);
        let part = stored.paths.get(start..start.saturating_add(length));
        equal(NAME, &Some(&edge.path[..]), &part)?;
    }
    let end = stored.starts.len();
    for edge in [end, end + 1, usize::MAX] {
        equal(NAME, &EMPTY, &stored.ask(edge))?;
    }
    Ok(())
}

/// Any contents: those past the entries in use, those of a refused call, and damaged ones.
pub fn compare_any(rng: &mut Rng, lent: &AssessLists) -> Result<(), Difference> {
    let mut stored = Stored::new(lent);
    for _ in 0..4 {
        let entry = damage(rng, &mut stored);
        let end = stored.starts.len().max(stored.lengths.len());
        for edge in [entry, rng.below(end + 2), end] {
            let (wanted, got) = (stored.wanted(edge), stored.ask(edge));
            if wanted != got {
                let ids = stored.paths.len();
                let (start, length) = (stored.starts.get(edge), stored.lengths.get(edge));
                let told = format!(
                    "edge {edge} at {start:?}, {length:?} of {ids} ids: wanted {wanted:?}, got {got:?}"
                );
                return Err(Difference::new(NAME, &told));
            }
        }
    }
    Ok(())
}

/// Gives an entry a start and a length about the end of list 7 or of all numbers, and makes a list
/// shorter now and then. The entry's number comes back.
fn damage(rng: &mut Rng, stored: &mut Stored) -> usize {
    let ids = stored.paths.len();
    let most = usize::MAX;
    let starts = [0, 1, ids / 2, ids, ids + 1, most - ids, most - 1, most];
    match rng.below(6) {
        0 => drop(stored.starts.pop()),
        1 => drop(stored.lengths.pop()),
        2 => drop(stored.paths.pop()),
        _ => {}
    }
    let entries = stored.starts.len().min(stored.lengths.len());
    if entries == 0 {
        return 0;
    }
    let k = rng.below(entries);
    let start = rng.pick(&starts);
    let rest = ids.wrapping_sub(start);
    let lengths = [rest, rest.wrapping_add(1), rest.wrapping_sub(1), 0, 1, most];
    stored.starts[k] = start;
    stored.lengths[k] = rng.pick(&lengths);
    k
}
