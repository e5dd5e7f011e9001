//! The parts of the program that makes the sets.

pub mod budgets;
pub mod chance;
pub mod draft;
pub mod misfits;
pub mod nests;
pub mod random;
pub mod shapes;
pub mod statistics;
pub mod write;
