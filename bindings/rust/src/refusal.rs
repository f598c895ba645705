//! Why an input was not accepted.
use crate::raw::{
    MAX_COMPONENTS, MAX_CONNECTIONS, MAX_CONTRACTS, MAX_EVENTS, MAX_TRACES, RefusalNumber,
};
use std::error::Error;
use std::fmt::{Display, Formatter, Result as Written};

/// The number of a refusal and its place: an index from 0, a count or a list's number, by the
/// number.
#[derive(Clone, Copy, Debug, Eq, PartialEq)]
pub struct Refusal {
    /// 1 to 15.
    pub number: u32,
    /// Which row it is about, or how many there are.
    pub place: u64,
}

impl Refusal {
    /// What an answer's first two numbers say; 0 is no refusal.
    pub(crate) fn check(number: u32, place: u64) -> Result<(), Self> {
        match number {
            0 => Ok(()),
            _ => Err(Self { number, place }),
        }
    }

    /// Its number by name.
    pub fn name(&self) -> Option<RefusalNumber> {
        RefusalNumber::from_code(u8::try_from(self.number).ok()?)
    }
}

impl Error for Refusal {}

impl Display for Refusal {
    fn fmt(&self, out: &mut Formatter) -> Written {
        use RefusalNumber::*;
        let Self { number, place } = self;
        write!(out, "refusal {number}: ")?;
        match self.name() {
            Some(TooManyComponents) => write!(out, "{place} components, over {MAX_COMPONENTS}"),
            Some(TooManyConnections) => write!(out, "{place} connections, over {MAX_CONNECTIONS}"),
            Some(IdUsedEarlier) => write!(out, "component {place} has an earlier one's id"),
            Some(ComponentOutOfRange) => {
                write!(
                    out,
                    "component {place} has a kind, delay or locked flag out of range"
                )
            }
            Some(TransferOutOfRange) => write!(out, "connection {place} has no such transfer"),
            Some(EndMissing) => write!(out, "connection {place} has an end that is no component"),
            Some(ListTooShort) => write!(out, "list {place} is too short"),
            Some(LengthsDiffer) => write!(out, "the lists of {} differ in length", rows(*place)),
            Some(TooManyEvents) => write!(out, "{place} events, over {MAX_EVENTS}"),
            Some(TooManyContracts) => write!(out, "{place} contracts, over {MAX_CONTRACTS}"),
            Some(TraceOutOfRange) => {
                write!(
                    out,
                    "the unit, or event or contract {place}, has a code out of range"
                )
            }
            Some(ContractsNotRising) => {
                write!(
                    out,
                    "contract {place} is for a component not above the one before"
                )
            }
            Some(RecordFull) => write!(out, "the record holds {MAX_TRACES} traces or more"),
            Some(TextNotInForm) => write!(out, "line {place} of the text is not in its form"),
            Some(RecordFalse) => write!(out, "the record's counts contradict each other"),
            None => write!(out, "place {place}"),
        }
    }
}

fn rows(place: u64) -> &'static str {
    match place {
        0 => "components",
        1 => "connections",
        2 => "events",
        _ => "contracts",
    }
}
