//! Compares the depends, the rewrite and the lengths program with a plain reader and a plain writer of plan bytes.
//! Arguments: the three programs, and the file of stored vectors.

mod cases;
mod compare;
mod plans;
mod reader;
mod text;
mod vectors;
mod writer;

use compare::{Comparison, Programs};
use std::process::ExitCode;

fn main() -> ExitCode {
    let words: Vec<String> = std::env::args().collect();
    let [_, depends, rewrite, lengths, stored] = &words[..] else {
        eprintln!("wanted: the depends, the rewrite and the lengths program, the file of vectors");
        return ExitCode::from(2);
    };
    let programs = Programs { depends: depends.clone(), rewrite: rewrite.clone(), lengths: lengths.clone() };
    let mut comparison = Comparison::new(programs);
    vectors::all(&mut comparison, &std::fs::read_to_string(stored).expect("the file of vectors"));
    cases::all(&mut comparison);
    if comparison.close() {
        ExitCode::SUCCESS
    } else {
        ExitCode::FAILURE
    }
}
