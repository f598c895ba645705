//! The order of keys, and the search in it.
use sizhbanto::raw;

pub use sizhbanto::raw::sort_positions;

pub fn find_position(keys: &[u64], order: &[usize], key: u64) -> Option<usize> {
    let answer = raw::find_position(keys, order, key);
    answer.found.then_some(answer.position)
}
