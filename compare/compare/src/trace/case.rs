//! One case: a trace and a record, with the room lent for the findings.
use std::fmt::{self, Display, Formatter};

use generator::trace::lists::TraceLists;
use generator::trace::record::TransientRecord;
use plain::trace::{recording_need, recording_refusal};

use super::list9::Lengths;

#[derive(Clone)]
pub struct TraceCase {
    pub lists: TraceLists,
    /// What the recording is handed.
    pub held: TransientRecord,
    /// The lengths of the number lists lent to the trace call and to the recording.
    pub assess: Lengths,
    pub record: Lengths,
    /// Gives the lent lists their contents.
    pub contents: u64,
}

impl TraceCase {
    /// What list 9 needs for the trace call.
    pub fn assess_need(&self) -> usize {
        self.lists.ticks.len()
    }

    /// What list 9 needs for the recording; where a record that is refused for itself holds many
    /// findings, what it needs for the trace call.
    pub fn record_need(&self) -> usize {
        const MANY: u64 = 2 * 4096;
        let need = recording_need(&self.held, &self.lists);
        let refused = || recording_refusal(&self.held, &TraceLists::default(), &[]);
        if need > MANY && refused().is_some() {
            return self.assess_need();
        }
        need as usize
    }

    /// Another trace and record: every list is as much longer than needed, or shorter, as it was.
    pub fn with(&self, lists: TraceLists, held: TransientRecord) -> Self {
        let mut case = self.clone();
        case.lists = lists;
        case.held = held;
        let moved = |lengths: Lengths, old: usize, new: usize| {
            lengths.map(|length| (length + new).saturating_sub(old))
        };
        case.assess = moved(self.assess, self.assess_need(), case.assess_need());
        case.record = moved(self.record, self.record_need(), case.record_need());
        case
    }
}

impl Display for TraceCase {
    fn fmt(&self, out: &mut Formatter) -> fmt::Result {
        writeln!(out, "{}", Shown(&self.lists))?;
        writeln!(out, "record {:?}", self.held)?;
        writeln!(out, "lengths of list 9, trace call: {:?}", self.assess)?;
        writeln!(out, "lengths of list 9, recording: {:?}", self.record)?;
        write!(out, "contents of the lent lists: {}", self.contents)
    }
}

/// A trace for a reader.
pub struct Shown<'a>(pub &'a TraceLists);

impl Display for Shown<'_> {
    fn fmt(&self, out: &mut Formatter) -> fmt::Result {
        let lists = self.0;
        writeln!(out, "unit {}", lists.unit)?;
        writeln!(out, "ticks {:?}", lists.ticks)?;
        writeln!(out, "components {:?}", lists.components)?;
        writeln!(out, "powered {:?}", lists.powered)?;
        writeln!(out, "contract components {:?}", lists.contract_components)?;
        writeln!(out, "contract intents {:?}", lists.contract_intents)?;
        writeln!(out, "contract powered {:?}", lists.contract_powered)?;
        writeln!(out, "contract polarities {:?}", lists.contract_polarities)?;
        writeln!(out, "contract units {:?}", lists.contract_units)?;
        writeln!(out, "contract smallest {:?}", lists.contract_smallest)?;
        writeln!(out, "contract largest {:?}", lists.contract_largest)?;
        write!(out, "lengths of the ten lists {:?}", lists.lengths())
    }
}
