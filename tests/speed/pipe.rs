//! How long a console behind a pipe waits for its line.
//!
//!     pipe PROGRAM PLAN INPUT FIRST
//!
//! INPUT is the bytes of the file PLAN and then commands. The program gets the plan and the first FIRST commands at once, so that the net is as it is on
//! the load, and then one command at a time, each when the line of the last one has come. Prints the number of these, and the median and the 99th
//! hundredth of their times in microseconds.

use std::io::{BufRead, BufReader, Read, Write};
use std::process::{Command, Stdio};
use std::time::Instant;

fn length(kind: u8) -> usize {
    match kind {
        0x10 => 4,
        0x11 => 6,
        _ => 3,
    }
}

/// Writes the bytes and reads on until as many lines have come.
fn trip(to: &mut impl Write, from: &mut impl BufRead, bytes: &[u8], lines: usize) -> std::io::Result<()> {
    to.write_all(bytes)?;
    to.flush()?;
    let mut line = Vec::new();
    for _ in 0..lines {
        line.clear();
        from.read_until(b'\n', &mut line)?;
        assert!(line.ends_with(b"\n"), "the program ended");
    }
    Ok(())
}

fn main() -> std::io::Result<()> {
    let words: Vec<String> = std::env::args().collect();
    let [_, program, plan, input, first] = &words[..] else { panic!("wanted: PROGRAM PLAN INPUT FIRST") };
    let (plan, input) = (std::fs::read(plan)?.len(), std::fs::read(input)?);
    let first: usize = first.parse().expect("a number of commands");
    let mut child = Command::new(program).stdin(Stdio::piped()).stdout(Stdio::piped()).spawn()?;
    let (mut to, mut from) = (child.stdin.take().unwrap(), BufReader::new(child.stdout.take().unwrap()));

    let mut at = plan;
    (0..first).for_each(|_| at += length(input[at]));
    trip(&mut to, &mut from, &input[..at], 1 + first)?;
    let mut times = Vec::new();
    while at < input.len() {
        let end = at + length(input[at]);
        let start = Instant::now();
        trip(&mut to, &mut from, &input[at..end], 1)?;
        times.push(start.elapsed().as_nanos());
        at = end;
    }
    drop(to);
    let mut last = String::new();
    from.read_to_string(&mut last)?;
    assert_eq!(last, format!("done {}\n", first + times.len()));
    child.wait()?;

    times.sort();
    let at = |part: usize| times[times.len() * part / 100] as f64 / 1000.0;
    println!("{} {:.1} {:.1}", times.len(), at(50), at(99));
    Ok(())
}
