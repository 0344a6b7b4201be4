//! Programs with the bench program's interface, over any version of the gate: right ones, and ones that are wrong on purpose.

mod bench;
mod flaws;
mod logs;
mod station;

pub use bench::bench;
pub use flaws::{Flaw, FLAWS};
pub use logs::log;
pub use station::station;
