//! The first program's C interface. With `fence`, the only unsafe code of
//! this package.
//!
//! Each group of functions is a module of its own and every function here is
//! `#[inline]`: it is made only in the program that calls it, so no program
//! needs a symbol of the archive that it doesn't use.
//!
//! All answers are 0, or 1,000 times the refusal number plus the place, if
//! nothing else is said.

pub mod doubles;
pub mod explain;
pub mod judge;
pub mod lines;
pub mod nation;
pub mod rows;
pub mod tables;
pub mod texts;
