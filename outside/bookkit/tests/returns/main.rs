//! Returns as reports, without a browser and without a program: what `irdetail` prints is the reference's.

mod digest;
mod figures;
mod hints;
mod inbox;
mod lines;
mod markup;
mod refused;
mod tables;
mod terminal;

use bookkit::{make, something_else, Assessed, Source, Wanted, LONGEST_INPUT};
use reference::irdetail;
use std::fs;
use std::path::PathBuf;

fn example(name: &str) -> Vec<u8> {
    let path = PathBuf::from(env!("CARGO_MANIFEST_DIR")).join("../../examples").join(name);
    fs::read(&path).unwrap_or_else(|error| panic!("{}: {error}", path.display()))
}

/// An input of `examples/runs`, which has texts alone.
fn run(name: &str) -> Vec<u8> {
    make(&example(&format!("runs/{name}.txt"))).expect("a good text")
}

fn input(text: &str) -> Vec<u8> {
    make(text.as_bytes()).expect("a good text")
}

fn source(name: &str, input: &[u8]) -> Source {
    let bytes = input[..input.len().min(LONGEST_INPUT + 1)].to_vec();
    Source { name: name.to_string(), plainly: something_else(&bytes, Wanted::Input), bytes }
}

fn assessed(input: &[u8]) -> Assessed {
    named("a.input", input)
}

fn named(name: &str, input: &[u8]) -> Assessed {
    Assessed::of(source(name, input), &irdetail(input)).expect("what irdetail prints")
}
