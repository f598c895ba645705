//! One case: a scene with the room lent for its answers.
use std::fmt::{self, Display, Formatter};

use generator::lists::SceneLists;

use crate::calls::{AnalyzeLists, AssessLists, DescribeLists, SceneCall};
use crate::document::need;

#[derive(Clone)]
pub struct Case {
    pub lists: SceneLists,
    /// For the check alone: the number of the first output list, and the room of it and the next.
    pub first: usize,
    pub room: Vec<usize>,
    /// The length of the list lent for the Feedback ids alone.
    pub feedback: usize,
    /// The lengths of the number lists lent to the two parts.
    pub describe: Vec<usize>,
    pub assess: Vec<usize>,
    /// And to the one call.
    pub analyze: Vec<usize>,
    /// Gives the lent lists their contents.
    pub contents: u64,
}

impl Case {
    /// What an output list of this scene needs.
    pub fn need(&self, list: usize) -> usize {
        need(self.lists.ids.len(), self.lists.sources.len(), list)
    }

    /// The output lists of the check, each with its room. Past the largest word there is no list.
    pub fn check_room(&self) -> Vec<(usize, usize)> {
        let room = self.room.iter().enumerate();
        room.map_while(|(k, length)| Some((self.first.checked_add(k)?, *length)))
            .collect()
    }

    /// The same case with another scene: every list is as much longer than needed, or shorter, as
    /// it was.
    pub fn with(&self, lists: SceneLists) -> Self {
        let mut case = self.clone();
        case.lists = lists;
        let moved =
            |list, length: usize| (length + case.need(list)).saturating_sub(self.need(list));
        let lengths = |lists: &[usize], lengths: &[usize]| -> Vec<usize> {
            let pairs = lists.iter().zip(lengths);
            pairs.map(|(list, length)| moved(*list, *length)).collect()
        };
        let describe = lengths(DescribeLists::LISTS, &self.describe);
        let assess = lengths(AssessLists::LISTS, &self.assess);
        let analyze = lengths(AnalyzeLists::LISTS, &self.analyze);
        let check = self.check_room();
        let room = check
            .iter()
            .map(|(list, length)| moved(*list, *length))
            .collect();
        let feedback = moved(4, self.feedback);
        Self {
            room,
            feedback,
            describe,
            assess,
            analyze,
            ..case
        }
    }
}

impl Display for Case {
    fn fmt(&self, out: &mut Formatter) -> fmt::Result {
        let lists = &self.lists;
        writeln!(out, "ids {:?}", lists.ids)?;
        writeln!(out, "kinds {:?}", lists.kinds)?;
        writeln!(out, "delays {:?}", lists.delays)?;
        writeln!(out, "locked {:?}", lists.locked)?;
        writeln!(out, "xs {:?}", lists.xs)?;
        writeln!(out, "ys {:?}", lists.ys)?;
        writeln!(out, "zs {:?}", lists.zs)?;
        writeln!(out, "sources {:?}", lists.sources)?;
        writeln!(out, "sinks {:?}", lists.sinks)?;
        writeln!(out, "transfers {:?}", lists.transfers)?;
        writeln!(out, "lengths of the ten lists {:?}", lists.lengths())?;
        writeln!(out, "check: first {}, room {:?}", self.first, self.room)?;
        writeln!(out, "length of list 4 alone: {}", self.feedback)?;
        writeln!(out, "lengths of lists 0 to 2: {:?}", self.describe)?;
        writeln!(out, "lengths of lists 3 to 8: {:?}", self.assess)?;
        writeln!(out, "lengths of lists 0 to 8 together: {:?}", self.analyze)?;
        write!(out, "contents of the lent lists: {}", self.contents)
    }
}
