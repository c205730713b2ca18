//! The same jobs in plain Rust, written for speed and not proved: what the library's times stand beside.
//!
//! It judges all that document 01 asks to be judged, takes the same inputs and writes the same outputs. Products go by
//! a table of 65,536 entries that is made once. What depends only on the points is done once per call.
//!
//! - `answer`: what a call answers
//! - `field`: the tables
//! - `code`: a code, judged, and a node's row
//! - `basis`: systems of equations over points
//! - `stripe`: encoding one stripe
//! - `collect`: collecting one stripe
//! - `file`: share files judged, cut and answered from, slips taken
//! - `batch`: a whole file rebuilt
//! - `program`: the slips program

pub mod answer;
mod basis;
pub mod batch;
mod code;
pub mod collect;
mod field;
pub mod file;
pub mod program;
pub mod stripe;
