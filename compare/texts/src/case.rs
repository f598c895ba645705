//! A text, and how it is handed to the program.
use compare::shrink::{Shrink, parts};

use crate::written::lines;

#[derive(Clone)]
pub struct Case {
    pub family: &'static str,
    pub text: Vec<u8>,
    /// The pieces in which it is written to the pipe.
    pub pieces: usize,
}

impl Case {
    pub fn new(family: &'static str, text: Vec<u8>) -> Self {
        let pieces = 1;
        Self {
            family,
            text,
            pieces,
        }
    }

    fn with(&self, text: Vec<u8>) -> Self {
        Self {
            text,
            ..self.clone()
        }
    }
}

/// All texts of a family.
pub fn cases(
    family: &'static str,
    texts: impl IntoIterator<Item = Vec<u8>>,
) -> impl Iterator<Item = Case> {
    texts.into_iter().map(move |text| Case::new(family, text))
}

/// A text's rows: a line for each field, of a component seven and of a connection three.
const ROWS: [usize; 3] = [7, 3, 1];

impl Shrink for Case {
    /// Without a component or a connection, its count one less; without some lines; without some
    /// bytes.
    fn smaller(&self) -> impl Iterator<Item = Self> {
        let text = &self.text;
        let rows = ROWS.into_iter().flat_map(move |size| {
            let lines = lines(text);
            let starts = 0..lines.len().saturating_sub(size);
            let without = starts.map(move |start| without_row(&lines, start, size));
            without.collect::<Vec<_>>()
        });
        let bytes = parts(text.len()).map(|(from, to)| [&text[..from], &text[to..]].concat());
        let texts = rows.chain(bytes).filter(move |other| other != text);
        texts.map(|text| self.with(text))
    }
}

/// The lines but for so many from `start` on; the last count before them is one less.
fn without_row(lines: &[&[u8]], start: usize, size: usize) -> Vec<u8> {
    let mut left: Vec<Vec<u8>> = lines.iter().map(|line| line.to_vec()).collect();
    left.drain(start..start + size);
    for line in left[..start.min(lines.len() - size)].iter_mut().rev() {
        let text = String::from_utf8_lossy(line);
        if let Some((name @ ("components" | "connections"), count)) =
            text.trim_end().split_once('=')
        {
            if let Ok(count) = count.parse::<u64>()
                && size > 1
            {
                *line = format!("{name}={}\n", count.saturating_sub(1)).into_bytes();
            }
            break;
        }
    }
    left.concat()
}
