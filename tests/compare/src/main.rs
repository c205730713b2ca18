//! Compares the proved library and program with the independent program, layer by
//! layer, on many random and damaged inputs. Stops at the first difference.

#![cfg_attr(not(all(feature = "boundary", feature = "field")), allow(dead_code, unused))]

#[cfg(feature = "batches")]
mod batches;
mod boundary;
mod calls;
mod case;
mod codes;
#[cfg(feature = "field")]
mod field;
#[cfg(feature = "files")]
mod files;
#[cfg(feature = "batches")]
mod histories;
#[cfg(feature = "judge")]
mod judge;
mod kept;
#[cfg(feature = "mirror")]
mod mirror;
mod options;
#[cfg(feature = "program")]
mod program;
mod random;
mod shares;
#[cfg(feature = "stripes")]
mod stripes;

use options::Options;
use random::Random;
use std::process::exit;

/// Runs a layer with a random stream of its own.
fn layer(name: &str, options: &Options, run: impl FnOnce(&mut Random, u64) -> u64) {
    let mut random = Random::of_layer(options.seed, name);
    println!("layer {name}: {} cases agree", run(&mut random, options.scale));
}

fn main() {
    let options = Options::read();
    let operations = calls::operations();
    if operations.is_empty() {
        eprintln!("no layer is linked: build with --features boundary, or with some layers of it");
        exit(2);
    }
    println!("seed {}", options.seed);
    layer("kept", &options, |_, _| kept::run(&operations));
    #[cfg(feature = "field")]
    layer("field", &options, |_, _| field::run());
    #[cfg(feature = "judge")]
    layer("judge", &options, judge::run);
    #[cfg(feature = "stripes")]
    layer("stripes", &options, stripes::run);
    #[cfg(feature = "files")]
    layer("files", &options, files::run);
    #[cfg(feature = "batches")]
    layer("batches", &options, batches::run);
    #[cfg(feature = "program")]
    layer("program", &options, program::run);
}
