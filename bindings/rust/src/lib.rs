//! The timing analysis behind a redstone overlay, by its proved library: a [`Report`] of a
//! [`Scene`], and what a [`Trace`] of events shows against contracts, alone or in a running
//! [`Record`]. An input that the rules don't accept is answered by a numbered [`Refusal`], and
//! then nothing has changed.
//!
//! Codes of a scene and of a trace are plain numbers, so that whatever a loader reads can be handed
//! over; the enums give their names.
//!
//! ```
//! use sizhbanto::{BlockKind, Component, Connection, Label, Scene, TransferKind};
//!
//! let scene = Scene {
//!     components: vec![
//!         Component::new(1, BlockKind::Lever),
//!         Component::new(2, BlockKind::Repeater).with_delay(4),
//!         Component::new(3, BlockKind::RedstoneLamp),
//!     ],
//!     connections: vec![
//!         Connection::new(1, 2, TransferKind::DirectSignal),
//!         Connection::new(2, 3, TransferKind::DirectionalDevice),
//!     ],
//! };
//! let report = scene.report()?;
//! assert_eq!(report.labels[2], Label::Settled { low: 4, high: 4 });
//! assert_eq!(report.projected[0].physical_path, [1, 2, 3]);
//! # Ok::<(), sizhbanto::Refusal>(())
//! ```
mod assessment;
mod description;
mod findings;
pub mod raw;
mod record;
mod refusal;
mod report;
mod scene;
mod trace;

pub use assessment::{DelayRange, Label, SteadyStateEdge, TimingReason};
pub use description::{TemporalDevice, TemporalEvidence, TimedEdge};
pub use findings::{PulseObservation, Tallies, TransientFinding};
pub use raw::{
    BehaviorPattern, BlockKind, EdgeBehavior, Mark, PulsePolarity, Rationale, RefusalNumber,
    TemporalScope, TemporalSemantics, TraceTimeUnit, TransferKind, TransientVerdict,
};
pub use record::{Record, Recorded};
pub use refusal::Refusal;
pub use report::Report;
pub use scene::{Component, Connection, Pos, Scene};
pub use trace::{BehaviorEvent, Contract, SignalIntent, Trace, TransientAssessment};

/// The value of a code that the library answered.
fn known<T>(value: Option<T>) -> T {
    value.expect("the library answers codes of its header")
}

#[cfg(doctest)]
#[doc = include_str!("../../README.md")]
struct Readme;
