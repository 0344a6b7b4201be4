//! The conformance pack: cases for any program with the bench program's interface, and for those that take the station program's
//! input; what each has to print is worked out by the plain version, or given by hand and held against it.

pub mod boards;
pub mod by_hand;
pub mod case;
pub mod caught;
pub mod edges;
pub mod facts;
pub mod folder;
pub mod pack;
pub mod pairs;
pub mod program;
pub mod shapes;
pub mod shrink;
pub mod stations;
pub mod text;
pub mod wrong;
