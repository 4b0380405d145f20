//! The original behind the program's line protocol, cases to try it on, and the comparison.

pub mod answer;
pub mod compare;
pub mod host;
pub mod lines;
pub mod make;
pub mod opaque;
pub mod original;
mod planner;
pub mod progress;
mod projected;
pub mod report;
pub mod rng;
#[cfg(test)]
mod rounds;
pub mod sample;
pub mod scalars;
mod shrink;
#[cfg(test)]
mod verdicts;
