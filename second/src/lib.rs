//! The second program, written from the paper (01) and the requests on abandoned
//! land, on halves, on thinner grass, on savannas, on table 5-2, on reasons, on
//! fuelwood, on more cleared, on the national line, on soils, on scattered trees, on dry
//! matter and on crop residues (02, §1 to §3 and §5 to §14), and from the rules of rows as text, alone: a judge, a reader and a writer of returns, the worksheets, the doubles, the
//! table, the explanations, the heaviest rows, the national line and rows packed from a text, with makers of
//! good and damaged inputs to compare all of it with the first program. The table is
//! read from docs/TABLE52.csv.
//!
//! It shares no code and no definition with the first program. The unit tests
//! (`NILOFERQ_LIB= cargo test --lib`) need nothing else; the comparisons and
//! the benchmark are linked with the first program's archive (see `build.rs`),
//! each with the functions it uses and no others.

#![deny(unsafe_code)]

pub mod answers;
pub mod areas;
pub mod balances;
#[cfg(not(door_missing))]
pub mod both;
pub mod bound;
pub mod burned;
pub mod case;
pub mod cells;
pub mod clashes;
pub mod clearings;
pub mod coverage;
pub mod crop;
pub mod crop_pairs;
pub mod damage;
pub mod decimal;
pub mod doubles;
pub mod drive;
pub mod explain;
pub mod families;
pub mod fault;
pub mod fence;
#[cfg(not(door_missing))]
pub mod ffi;
pub mod figures;
pub mod gases;
pub mod halves;
pub mod heaviest;
pub mod input;
pub mod inputs;
pub mod judge;
pub mod kinds;
pub mod land;
pub mod lent;
pub mod lists;
pub mod make;
pub mod matter;
pub mod mix;
pub mod nation;
pub mod nations;
pub mod order_sweeps;
pub mod pack;
pub mod plots;
pub mod program;
pub mod raised;
pub mod reader;
pub mod reasons;
pub mod request;
pub mod residues;
pub mod retired;
pub mod rng;
pub mod rounding;
pub mod row_sweeps;
pub mod rowlists;
pub mod savanna;
pub mod sentences;
pub mod sheets;
pub mod soil;
pub mod soil_sweeps;
pub mod sorts;
pub mod spoil;
pub mod sweep;
pub mod table52;
pub mod text;
pub mod text_trials;
pub mod texts;
pub mod thinner;
pub mod tilled;
pub mod timing;
pub mod tree_sweeps;
pub mod trees;
pub mod typed;
pub mod uneven;
pub mod units;
pub mod unpack;
pub mod unwritten;
pub mod versions;
pub mod weights;
pub mod whereabouts;
pub mod wood;
pub mod wood_sweeps;
pub mod worst;
pub mod writer;

#[cfg(test)]
mod header_tests;
#[cfg(test)]
mod modules_tests;
