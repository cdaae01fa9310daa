//! The stored vectors: on each line bytes in hex, an arrow, and the first line that is due. The head of the file says more.

use crate::compare::Comparison;
use crate::plans::{edge, first_pairs, node};

pub fn all(c: &mut Comparison, file: &str) {
    let vectors: Vec<(Vec<u8>, &str)> = file.lines().filter(|line| !line.is_empty() && !line.starts_with('#')).map(vector).collect();
    c.group("stored vectors");
    for (bytes, answer) in &vectors {
        c.first_line(bytes, answer);
    }
    c.group("stored vectors, each length of buffer");
    for (bytes, _) in vectors.iter().filter(|(_, answer)| !answer.starts_with("plan R")) {
        c.each_length(bytes);
    }
}

/// The bytes and the answer of a line.
fn vector(line: &str) -> (Vec<u8>, &str) {
    let (input, answer) = line.split_once("->").unwrap_or_else(|| panic!("no arrow: {line}"));
    (input.split_whitespace().flat_map(word).collect(), answer.trim())
}

/// The bytes of a word: hex digits, or many records at once.
fn word(word: &str) -> Vec<u8> {
    match word.split_once(':') {
        Some(("nodes", count)) => (0..decimal(count)).flat_map(|n| node(n, 0, 0)).collect(),
        Some(("edges", count)) => pairs(decimal(count)),
        _ => hex(word),
    }
}

fn pairs(nodes: u8) -> Vec<u8> {
    first_pairs(nodes, usize::MAX).into_iter().flat_map(|(a, b)| edge(a, b)).collect()
}

fn decimal(word: &str) -> u8 {
    word.parse().unwrap_or_else(|_| panic!("no number: {word}"))
}

fn hex(word: &str) -> Vec<u8> {
    assert!(word.len() % 2 == 0, "an odd number of digits: {word}");
    (0..word.len()).step_by(2).map(|at| u8::from_str_radix(&word[at..at + 2], 16).unwrap_or_else(|_| panic!("no hex: {word}"))).collect()
}
