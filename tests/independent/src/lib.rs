//! A second opinion on document 01, written for comparison only.
//!
//! It shares no code with the proved library and goes its own ways: products by
//! shifting and no tables, every system of equations by elimination.
//!
//! A file for each subject:
//! - `answer`: what an operation answers, and the refusals by name
//! - `field`: sum, product, quotient, power
//! - `code`: a code, judged, with its sizes and rows
//! - `system`: elimination
//! - `stripe`: message matrix, encode, help, rebuild
//! - `collect`: collecting a stripe, each kind in its own way
//! - `records`: lengths of records, the reader, writers
//! - `file`: share files judged and cut, slips, answers for a failed node
//! - `batch`: batches of H and whole files rebuilt
//! - `program`: the slips program as a function of its input

pub mod answer;
pub mod batch;
pub mod code;
pub mod collect;
pub mod field;
pub mod file;
pub mod program;
pub mod records;
pub mod stripe;
pub mod system;
