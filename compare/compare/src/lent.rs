//! A number list lent to a call: random contents, and entries beside it that no call may touch.
use std::fmt::Debug;

use generator::rng::Rng;

/// Entries beside a lent list, on either side.
const BESIDE: usize = 3;

pub trait Number: Copy + Debug + Eq {
    fn any(rng: &mut Rng) -> Self;
}

macro_rules! number {
    ($($type:ty),*) => {
        $(impl Number for $type {
            fn any(rng: &mut Rng) -> Self {
                rng.word() as Self
            }
        })*
    };
}

number!(u8, u32, u64, i32, usize);

pub struct Lent<T> {
    old: Vec<T>,
    now: Vec<T>,
    length: usize,
}

impl<T: Number> Lent<T> {
    pub fn new(rng: &mut Rng, length: usize) -> Self {
        let old: Vec<T> = (0..length + 2 * BESIDE).map(|_| T::any(rng)).collect();
        let now = old.clone();
        Self { old, now, length }
    }

    pub fn part(&mut self) -> &mut [T] {
        &mut self.now[BESIDE..BESIDE + self.length]
    }

    /// The list as it was lent.
    pub fn before(&self) -> Self {
        Self {
            old: self.old.clone(),
            now: self.old.clone(),
            length: self.length,
        }
    }

    /// What the list holds now, without what is beside it.
    pub fn entries(&self) -> &[T] {
        &self.now[BESIDE..BESIDE + self.length]
    }

    /// Whether another list and what is beside it hold the same now.
    pub fn same(&self, name: &str, other: &Self) -> Result<(), String> {
        if self.now == other.now {
            return Ok(());
        }
        let (wanted, got) = (&self.now, &other.now);
        Err(format!(
            "{name}, with what is beside it\n  wanted {wanted:?}\n  got    {got:?}"
        ))
    }

    /// Whether the list begins with these entries, and all the rest is as it was.
    pub fn holds(&self, name: &str, new: &[T]) -> Result<(), String> {
        self.holds_from(name, 0, new)
    }

    /// Whether these entries are in the list from `start` on, and all the rest is as it was.
    pub fn holds_from(&self, name: &str, start: usize, new: &[T]) -> Result<(), String> {
        let (used, length) = (start + new.len(), self.length);
        if used > length {
            return Err(format!("{name}: {used} entries for a list of {length}"));
        }
        let (from, to) = (BESIDE + start, BESIDE + used);
        let wanted = [&self.old[..from], new, &self.old[to..]];
        let now = [&self.now[..from], &self.now[from..to], &self.now[to..]];
        if now == wanted {
            return Ok(());
        }
        let pairs = now.concat().into_iter().zip(wanted.concat());
        let (i, (now, wanted)) = pairs
            .enumerate()
            .find(|(_, (now, wanted))| now != wanted)
            .expect("a difference");
        let place = i as isize - BESIDE as isize;
        let which = if (from..to).contains(&i) {
            "used"
        } else {
            "unused"
        };
        Err(format!(
            "{name}: the {which} entry {place} of {length}\n  wanted {wanted:?}\n  got    {now:?}"
        ))
    }
}
