//! A second program for the scope paper ("01"), written from the paper alone.
//!
//! It shares no code, table or routine with the proved library. Everything here is the
//! plainest form of the paper's sentences; speed matters only where a comparison would
//! not end otherwise.

pub mod agree;
pub mod answer;
pub mod calls;
pub mod cases;
pub mod faults;
pub mod job;
pub mod mend;
pub mod mendjob;
pub mod pairs;
pub mod pattern;
pub mod patternjob;
pub mod random;
pub mod report;
pub mod rules;
pub mod samples;
pub mod script;
pub mod scripts;
pub mod session;
pub mod sheet;
pub mod stdio;
pub mod tables;
pub mod words;
pub mod worked;
