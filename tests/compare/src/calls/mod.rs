//! Every operation on both sides: the library's function and the independent one.
//! A file for each layer, since a library may have only some of the functions.

use crate::case::Operation;

#[cfg(feature = "batches")]
pub mod batches;
#[cfg(feature = "field")]
pub mod field;
#[cfg(feature = "files")]
pub mod files;
#[cfg(feature = "judge")]
pub mod judge;
#[cfg(feature = "program")]
pub mod program;
#[cfg(feature = "stripes")]
pub mod stripes;

/// All operations that are linked.
pub fn operations() -> Vec<Operation> {
    let mut operations = Vec::new();
    #[cfg(feature = "field")]
    operations.extend(field::OPERATIONS);
    #[cfg(feature = "judge")]
    operations.push(judge::JUDGE);
    #[cfg(feature = "stripes")]
    operations.extend(stripes::OPERATIONS);
    #[cfg(feature = "files")]
    operations.extend(files::OPERATIONS);
    #[cfg(feature = "batches")]
    operations.extend(batches::OPERATIONS);
    #[cfg(feature = "program")]
    operations.push(program::SLIPS);
    operations
}
