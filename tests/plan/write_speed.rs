//! For tests/plan/write_speed: makes the largest plan, and writes it with the plain writer.

#[allow(dead_code)]
mod plans;
#[allow(dead_code)]
mod reader;
mod writer;

use reader::{read, Plan};
use std::hint::black_box;
use std::io::Write;

/// The name by which callgrind finds the call.
#[no_mangle]
#[inline(never)]
pub fn plain_write(plan: &Plan, buffer: &mut [u8]) -> Result<usize, u8> {
    writer::write(plan, buffer)
}

/// 16 sites, 64 nodes, 256 edges, each level the height of its node.
fn largest() -> Vec<u8> {
    plans::Random::new(11).plan(16, 64, 256, 0).bytes()
}

fn main() {
    let words: Vec<String> = std::env::args().skip(1).collect();
    let words: Vec<&str> = words.iter().map(String::as_str).collect();
    match words[..] {
        ["file"] => std::io::stdout().write_all(&largest()).expect("written"),
        ["room", length] => write_into(length.parse().expect("a number")),
        _ => panic!("wanted: file, or room LENGTH"),
    }
}

/// Writes the largest plan into a buffer of some length, and says what was answered.
fn write_into(length: usize) {
    let plan = read(&largest()).plan;
    let mut buffer = vec![0; length];
    let answer = plain_write(black_box(&plan), black_box(&mut buffer));
    println!("{answer:?}");
    assert!(answer.is_err() || buffer.starts_with(&largest()));
}
