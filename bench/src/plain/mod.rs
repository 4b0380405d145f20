//! The yardsticks: the same calls in plain Rust. Each takes bytes, tests them for every refusal of
//! the call, and writes into lent buffers. They allocate nothing.

mod all;
mod check;
mod explain;
mod extract;
mod held;
mod load;
mod merge;
mod nodes;
mod pick;
mod print;
mod project;
mod queues;

pub use all::extract_all;
pub use explain::explain;
pub use extract::extract;
pub use held::{Plain, plans};
pub use load::load;
pub use merge::merge;
pub use print::print;
pub use project::project;
pub use queues::{put, serve};
