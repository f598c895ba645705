//! Holds the program `report` against the unchanged Rust and against document 01, text by text.
pub mod answer;
pub mod boundaries;
pub mod case;
pub mod damage;
pub mod examples;
pub mod fixed;
pub mod form;
pub mod lengths;
pub mod program;
pub mod report;
pub mod round;
pub mod run;
pub mod sample;
pub mod tally;
pub mod written;
