//! For tests/plan/speed: makes the largest plan, reads it with the plain reader, and takes times.

#[allow(dead_code)]
mod plans;
#[allow(dead_code)]
mod reader;

use reader::{read, Reading};
use std::fs::File;
use std::hint::black_box;
use std::io::Write;
use std::process::{Command, Stdio};
use std::time::Instant;

/// The name by which callgrind finds the call.
#[no_mangle]
#[inline(never)]
pub fn plain_read(bytes: &[u8]) -> Reading {
    read(bytes)
}

fn main() {
    let words: Vec<String> = std::env::args().skip(1).collect();
    let words: Vec<&str> = words.iter().map(String::as_str).collect();
    match words[..] {
        ["write"] => std::io::stdout().write_all(&largest()).expect("written"),
        ["read", file] => drop(black_box(plain_read(&std::fs::read(file).expect("a file")))),
        ["time", program, file] => times(program, file),
        _ => panic!("wanted: write, read FILE, or time PROGRAM FILE"),
    }
}

/// 16 sites, 64 nodes, 256 edges, each level the height of its node.
fn largest() -> Vec<u8> {
    plans::Random::new(11).plan(16, 64, 256, 0).bytes()
}

/// Prints microseconds: a plain reading, and a run of the program on the file and on no input. Each is a median.
fn times(program: &str, file: &str) {
    let bytes = std::fs::read(file).expect("a file");
    let plain = median((0..1000).map(|_| micros(|| drop(black_box(plain_read(black_box(&bytes)))))));
    let (mut full, mut none) = (Vec::new(), Vec::new());
    for _ in 0..1000 {
        full.push(micros(|| start(program, file)));
        none.push(micros(|| start(program, "/dev/null")));
    }
    println!("{plain:.1} {:.1} {:.1}", median(full), median(none));
}

fn start(program: &str, input: &str) {
    let input = File::open(input).expect("an input");
    let status = Command::new(program).stdin(input).stdout(Stdio::null()).status().expect("the program starts");
    assert!(status.success());
}

fn micros(work: impl FnOnce()) -> f64 {
    let begun = Instant::now();
    work();
    begun.elapsed().as_secs_f64() * 1e6
}

fn median(times: impl IntoIterator<Item = f64>) -> f64 {
    let mut times: Vec<f64> = times.into_iter().collect();
    times.sort_by(f64::total_cmp);
    times[times.len() / 2]
}
