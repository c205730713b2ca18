//! The slips program run as a process, so that the comparison can be tried on itself.

use std::io::{self, Read, Write};

fn main() -> io::Result<()> {
    let mut input = Vec::new();
    io::stdin().read_to_end(&mut input)?;
    io::stdout().write_all(&independent::program::slips(&input))
}
