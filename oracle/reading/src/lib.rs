//! A reading of document 01, and of the requests of document 02, in plain Rust, written from the
//! documents and not from the sources.
//! It stands beside the port and the original as a third opinion.

pub mod calls;
pub mod conjuncts;
pub mod decode;
pub mod encode;
pub mod frame;
pub mod logical;
pub mod merge;
pub mod nodes;
pub mod physical;
pub mod print;
pub mod program;
pub mod project;
pub mod queues;
pub mod refusal;
pub mod settings;
pub mod verdicts;
pub mod walk;
