//! Running another program on the made inputs, on the wrong rules, and on the written-down vectors.

use crate::bench;
use crate::make::{self, KINDS};
use crate::wrong::{self, Wrong};
use std::collections::BTreeMap;
use std::io::{Read, Write};
use std::process::{Child, Command, Stdio};
use std::sync::mpsc;
use std::time::Duration;

/// What was compared and how it went.
#[derive(Default)]
pub struct Score {
    pub passed: usize,
    pub failed: usize,
}

impl Score {
    pub fn add(&mut self, good: bool) {
        match good {
            true => self.passed += 1,
            false => self.failed += 1,
        }
    }

    /// The last line; answers whether all went well.
    pub fn close(&self) -> bool {
        println!("{} passed, {} failed", self.passed, self.failed);
        self.failed == 0
    }
}

/// The program's output for the input; a program that hangs or dies says so in its output.
fn output_of(program: &str, input: &[u8]) -> String {
    let child = Command::new(program).stdin(Stdio::piped()).stdout(Stdio::piped()).stderr(Stdio::null()).spawn();
    let mut child = match child {
        Ok(child) => child,
        Err(e) => return format!("[cannot run {program}: {e}]\n"),
    };
    let mut to = child.stdin.take().unwrap();
    let mut from = child.stdout.take().unwrap();
    let bytes = input.to_vec();
    // A program may end without reading everything, so a failed write is no fault.
    let writer = std::thread::spawn(move || drop(to.write_all(&bytes)));
    let (send, receive) = mpsc::channel();
    std::thread::spawn(move || {
        let mut out = Vec::new();
        let _ = from.read_to_end(&mut out);
        let _ = send.send(out);
    });
    let out = receive.recv_timeout(Duration::from_secs(30));
    let text = match out {
        Ok(out) => String::from_utf8_lossy(&out).into_owned() + &death(&mut child),
        Err(_) => {
            let _ = child.kill();
            let _ = child.wait();
            "[no end of output after 30 seconds]\n".to_string()
        }
    };
    let _ = writer.join();
    text
}

fn death(child: &mut Child) -> String {
    match child.wait() {
        Ok(status) if status.code().is_some() => String::new(),
        _ => "[the program was ended by a signal]\n".to_string(),
    }
}

/// The things a comparison must have seen.
fn wanted() -> Vec<String> {
    let reader = (1..=9).map(|n| format!("plan R {n}"));
    let commands = (20..=30).map(|n| format!("R {n}"));
    let rest = ["plan", "G", "W", "Q A", "Q W", "Q N", "E admitted", "E 0", "M number", "done", "bad 1", "bad 2"];
    let back = ["X 0", "X R 27", "X 0 R 27", "X R 34", FREED, REUSED];
    reader.chain(commands).chain(rest.iter().chain(&back).map(|r| r.to_string())).collect()
}

/// A parent's return refused 29, a taking back, the same return accepted.
const FREED: &str = "parent freed by X";
/// A start refused 26, a taking back, the same start accepted.
const REUSED: &str = "place used again after X";

/// What three lines in a row show of a taking back between two commands of the same words.
fn shows_around(lines: &[&str]) -> Option<&'static str> {
    let [before, between, after] = lines else { return None };
    let again = |refusal: &str| before.strip_suffix(refusal).is_some_and(|head| after.starts_with(head));
    let accepted = between.starts_with("X ") && !between.contains('R') && !after.contains('R');
    match before.as_bytes()[0] {
        b'E' if accepted && again("R 29") => Some(FREED),
        b'S' if accepted && again("R 26") => Some(REUSED),
        _ => None,
    }
}

/// What a line of the text shows.
fn shows(line: &str) -> String {
    let words: Vec<&str> = line.split(' ').collect();
    let last = words[words.len() - 1];
    match words[0] {
        "plan" if words[1] == "R" => format!("plan R {}", words[2]),
        "plan" | "done" => words[0].to_string(),
        "bad" => format!("bad {}", words[1]),
        "X" if words[1] == "0" => words.join(" "),
        "X" => format!("X {}", words[2..].join(" ")),
        _ if words[words.len() - 2] == "R" => format!("R {last}"),
        "S" | "C" if words[words.len() - 2] == "W" => "W".to_string(),
        "S" | "C" => last.to_string(),
        "E" if last != "0" => "E admitted".to_string(),
        "E" => "E 0".to_string(),
        "M" => "M number".to_string(),
        kind => format!("{kind} {last}"),
    }
}

/// Counts of what was seen.
#[derive(Default)]
struct Seen(BTreeMap<String, usize>, [usize; 5]);

/// The shapes of `Net::shape`, and what each must reach at least.
const SHAPES: [(&str, usize); 5] = [
    ("longest chain", 6),
    ("calls of one chain at one site", 3),
    ("children of one call", 4),
    ("waiting at one site", 50),
    ("levels waiting at one site", 5),
];

impl Seen {
    fn add(&mut self, run: &bench::Run) {
        for line in run.text.lines() {
            *self.0.entry(shows(line)).or_default() += 1;
        }
        let lines: Vec<&str> = run.text.lines().collect();
        for shown in lines.windows(3).filter_map(shows_around) {
            *self.0.entry(shown.to_string()).or_default() += 1;
        }
        self.1 = bench::higher(self.1, run.shape);
    }

    /// Prints the counts; answers how many wanted things were never seen.
    fn close(&self) -> usize {
        let count = |name: &String| self.0.get(name).copied().unwrap_or(0);
        let line: Vec<String> = wanted().iter().map(|n| format!("{n}: {}", count(n))).collect();
        println!("seen: {}", line.join(", "));
        let never: Vec<String> = wanted().into_iter().filter(|n| count(n) == 0).collect();
        never.iter().for_each(|n| println!("never seen: {n}"));
        never.len() + self.close_shapes()
    }
}

impl Seen {
    fn close_shapes(&self) -> usize {
        let all = SHAPES.iter().zip(self.1);
        let line: Vec<String> = all.clone().map(|(s, n)| format!("{}: {n}", s.0)).collect();
        println!("most seen: {}", line.join(", "));
        let low: Vec<&str> = all.filter(|(s, n)| *n < s.1).map(|(s, _)| s.0).collect();
        low.iter().for_each(|s| println!("too low: {s}"));
        low.len()
    }
}

/// Fewest pieces that still show the difference: the shortest beginning, then halves, quarters and so on dropped, and
/// last one piece at a time until no single piece can be dropped.
fn shortest(mut pieces: Vec<Vec<u8>>, differs: impl Fn(&[u8]) -> bool) -> Vec<Vec<u8>> {
    if let Some(n) = shortest_beginning(&pieces, &differs) {
        pieces.truncate(n);
    }
    let mut size = pieces.len().div_ceil(2).max(1);
    loop {
        let mut dropped = false;
        let mut at = pieces.len();
        while at > 0 {
            let from = at.saturating_sub(size);
            let mut fewer = pieces.clone();
            fewer.drain(from..at);
            if differs(&fewer.concat()) {
                pieces = fewer;
                dropped = true;
            }
            at = from.min(pieces.len());
        }
        match size {
            1 if !dropped => return pieces,
            1 => {}
            _ => size = size.div_ceil(2),
        }
    }
}

/// The least number of pieces from the start that differs, looked for among the first 400 and by halving beyond.
fn shortest_beginning(pieces: &[Vec<u8>], differs: &impl Fn(&[u8]) -> bool) -> Option<usize> {
    let shown = |n: usize| differs(&pieces[..n].concat());
    if let Some(n) = (0..=pieces.len().min(400)).find(|n| shown(*n)) {
        return Some(n);
    }
    let (mut no, mut yes) = (400, pieces.len());
    while no + 1 < yes {
        let middle = (no + yes) / 2;
        match shown(middle) {
            true => yes = middle,
            false => no = middle,
        }
    }
    (yes <= pieces.len() && shown(yes)).then_some(yes)
}

pub fn hex(bytes: &[u8]) -> String {
    let two: Vec<String> = bytes.iter().map(|b| format!("{b:02x}")).collect();
    two.join(" ")
}

fn first_difference(right: &str, other: &str) -> String {
    let (mut a, mut b) = (right.split_inclusive('\n'), other.split_inclusive('\n'));
    for number in 1.. {
        match (a.next(), b.next()) {
            (None, None) => break,
            (x, y) if x == y => {}
            (x, y) => return format!("line {number}: due {:?}, given {:?}", x.unwrap_or(""), y.unwrap_or("")),
        }
    }
    "none".to_string()
}

/// Prints the difference and the shortest input that shows it.
fn report(seed: u64, kind: &str, input: &[u8], right: impl Fn(&[u8]) -> String, other: impl Fn(&[u8]) -> String) {
    println!("seed {seed}, kind {kind}: {}", first_difference(&right(input), &other(input)));
    let pieces = shortest(bench::pieces(input), |b| right(b) != other(b));
    let bytes = pieces.concat();
    println!("shortest input, {} bytes in {} pieces:", bytes.len(), pieces.len());
    pieces.iter().for_each(|p| println!("  {}", hex(p)));
    println!("due:\n{}given:\n{}", right(&bytes), other(&bytes));
}

/// Seeds 1 to `seeds`, all kinds, against the program.
pub fn compare(program: &str, seeds: u64) -> bool {
    let (mut score, mut seen, mut shown) = (Score::default(), Seen::default(), false);
    let right = |b: &[u8]| bench::text(b, Wrong::None);
    for seed in 1..=seeds {
        for kind in KINDS {
            let input = make::input(seed, kind);
            let run = bench::run(&input, Wrong::None, true);
            seen.add(&run);
            if let Some(broken) = run.broken {
                println!("seed {seed}, kind {kind}, demand 3: {broken}");
                score.failed += 1;
            }
            let good = output_of(program, &input) == run.text;
            score.add(good);
            if !good && !shown {
                shown = true;
                report(seed, kind, &input, right, |b| output_of(program, b));
            }
        }
    }
    score.failed += seen.close();
    score.close()
}

/// Demand 3 on every state of the made runs, and what they show, without another program.
pub fn states(seeds: u64) -> bool {
    let (mut score, mut seen) = (Score::default(), Seen::default());
    for seed in 1..=seeds {
        for kind in KINDS {
            let run = bench::run(&make::input(seed, kind), Wrong::None, true);
            seen.add(&run);
            score.add(run.broken.is_none());
            if let Some(broken) = run.broken {
                println!("seed {seed}, kind {kind}, demand 3: {broken}");
            }
        }
    }
    score.failed += seen.close();
    score.close()
}

/// Each wrong rule must be told apart by some made input.
pub fn mutants(seeds: u64) -> bool {
    let mut score = Score::default();
    let mut left: Vec<(&str, Wrong)> = wrong::ALL.to_vec();
    for seed in 1..=seeds {
        for kind in KINDS {
            if left.is_empty() {
                break;
            }
            let input = make::input(seed, kind);
            let right = bench::text(&input, Wrong::None);
            left.retain(|(name, rule)| {
                let other = bench::text(&input, *rule);
                let told = other != right;
                if told {
                    println!("{name}: seed {seed}, kind {kind}, {}", first_difference(&right, &other));
                    score.passed += 1;
                }
                !told
            });
        }
    }
    left.iter().for_each(|(name, _)| println!("{name}: NOT told apart"));
    score.failed += left.len();
    score.close()
}

/// The first made input that tells this wrong rule apart, made short.
pub fn explain(rule: Wrong, seeds: u64) -> bool {
    for seed in 1..=seeds {
        for kind in KINDS {
            let input = make::input(seed, kind);
            if bench::text(&input, rule) != bench::text(&input, Wrong::None) {
                report(seed, kind, &input, |b| bench::text(b, Wrong::None), |b| bench::text(b, rule));
                return true;
            }
        }
    }
    false
}

/// One vector: what it shows, the input, and the text, `/` for a newline. A line begins with the hex bytes,
/// `n*(xx xx)` for n times; `{i}` in a repeat is the round's number, `{i,2}` the same in two bytes.
struct Vector {
    name: String,
    rule: Wrong,
    input: Vec<u8>,
    due: String,
}

/// `name | hex | text`, or `name ! rule | hex | text` for the text of a wrong rule.
fn vector(line: &str) -> Option<Vector> {
    let parts: Vec<&str> = line.split('|').map(str::trim).collect();
    let [name, bytes, due] = parts[..] else { return None };
    let (name, rule) = match name.split_once('!') {
        Some((name, rule)) => (name.trim(), wrong::named(rule.trim())?),
        None => (name, Wrong::None),
    };
    let due = due.split('/').map(|l| l.trim().to_string() + "\n").collect();
    Some(Vector { name: name.to_string(), rule, input: bytes_of(bytes)?, due })
}

fn bytes_of(hex: &str) -> Option<Vec<u8>> {
    let mut out = Vec::new();
    let mut rest = hex.trim();
    while !rest.is_empty() {
        let (one, after) = rest.split_once(' ').unwrap_or((rest, ""));
        if let Some((range, _)) = one.split_once('*') {
            let (body, after) = rest.split_once('(')?.1.split_once(')')?;
            let (low, high) = range.split_once('-')?;
            for round in low.parse::<u16>().ok()?..=high.parse::<u16>().ok()? {
                let wide = format!("{:02x} {:02x}", round >> 8, round & 255);
                let body = body.replace("{i,2}", &wide).replace("{i}", &format!("{:02x}", round & 255));
                out.extend(bytes_of(&body)?);
            }
            rest = after.trim();
            continue;
        }
        out.push(u8::from_str_radix(one, 16).ok()?);
        rest = after.trim();
    }
    Some(out)
}

/// A due text may leave lines out with `...`: then only its last lines, after the dots, are due.
fn agrees(due: &str, text: &str) -> bool {
    match due.split_once("...\n") {
        Some((head, tail)) => text.starts_with(head) && text.ends_with(tail),
        None => due == text,
    }
}

/// Every vector of the file against this program's own text, or against another program's.
pub fn vectors(file: &str, program: Option<&str>) -> bool {
    let mut score = Score::default();
    let all = std::fs::read_to_string(file).unwrap_or_default();
    for line in all.lines().filter(|l| !l.trim().is_empty() && !l.starts_with('#')) {
        let Some(v) = vector(line) else {
            println!("cannot be read: {line}");
            score.failed += 1;
            continue;
        };
        let text = match program {
            Some(_) if v.rule != Wrong::None => continue,
            Some(program) => output_of(program, &v.input),
            None => bench::text(&v.input, v.rule),
        };
        let good = agrees(&v.due, &text);
        score.add(good);
        if !good {
            println!("{}: {}\ndue:\n{}given:\n{}", v.name, hex(&v.input), v.due, text);
        }
    }
    score.close()
}

/// The checks of `bench::run` have teeth: under these wrong rules they must find a broken state.
pub fn teeth(seeds: u64) -> bool {
    let mut score = Score::default();
    let loops = "01 00 02 01 01 02 02 00 00 00 02 01 01 00 02 02 01 00 02 03 00 00 03 00 01 03 02 03 04 \
                 10 00 01 00 10 00 02 00 10 00 03 02 10 00 04 02 \
                 11 00 01 00 05 01 11 00 02 00 06 01 11 00 03 00 07 03 11 00 04 00 08 03";
    let stuck = bench::run(&bytes_of(loops).unwrap(), Wrong::StrictLevels, true).broken;
    score.add(stuck.as_deref().is_some_and(|b| b.contains("no active call without an open child")));
    println!("strict-levels: {}", stuck.unwrap_or("nothing broken".to_string()));
    let levels = ["bad-p", "limit-up", "limit-down", "first-waiter", "nobody-served", "no-children", "basic-p"];
    let back = ["back-serves", "back-active", "back-turns", "back-last-moves"];
    for name in levels.into_iter().chain(back) {
        let rule = wrong::named(name).unwrap();
        let broken = (1..=seeds).find_map(|seed| bench::run(&make::input(seed, "levels"), rule, true).broken);
        // What a taking back breaks is found at its own line, not at a later one.
        score.add(broken.as_ref().is_some_and(|b| !back.contains(&name) || b.contains(", X ")));
        println!("{name}: {}", broken.unwrap_or("nothing broken".to_string()));
    }
    score.close()
}
