//! The plain program of the bench, as a library, so that its tests can hold it to the independent program.

pub mod plain;
