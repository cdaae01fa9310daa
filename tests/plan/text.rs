//! What the programs are to write for an input, from the plain reader and the plain writer.

use crate::reader::{dependences, read, Plan, Reading, NODES};
use crate::writer::write;

pub struct Expected {
    /// The refusal's number; 0 where the plan is accepted.
    pub number: u8,
    /// What the depends program prints.
    pub text: String,
    /// What the rewrite program writes to standard output, and what it writes to standard error.
    pub file: Vec<u8>,
    pub complaint: String,
}

pub fn expected(bytes: &[u8]) -> Expected {
    let reading = read(bytes);
    let number = reading.answer.map_or_else(|refusal| refusal.number, |_| 0);
    let mut text = first_line(&reading) + "\n";
    if matches!(number, 0 | 7 | 8) {
        text += &dependence_lines(&reading.plan, number);
    }
    let (file, complaint) = rewritten(bytes, &reading);
    Expected { number, text, file, complaint }
}

/// The file of an accepted plan, which is what was read of the input, or the first line of a refused one.
fn rewritten(bytes: &[u8], reading: &Reading) -> (Vec<u8>, String) {
    let Ok(used) = reading.answer else {
        return (Vec::new(), first_line(reading) + "\n");
    };
    let mut file = vec![0; used];
    assert_eq!(write(&reading.plan, &mut file), Ok(used), "the plain writer disagrees with the plain reader");
    assert_eq!(file, bytes[..used], "the plain writer does not give back what the plain reader read");
    (file, String::new())
}

/// A byte that no file has: its numbers are at most 64.
const UNTOUCHED: u8 = 170;

/// What the lengths program shows of an accepted plan: for each length of a buffer up to one more than the file's the answer, and as many bytes.
pub fn each_length(bytes: &[u8]) -> Vec<u8> {
    let reading = read(bytes);
    let file = reading.answer.unwrap_or_else(|refusal| panic!("a plan refused {}", refusal.number));
    let mut text = Vec::new();
    for length in 0..=file + 1 {
        let mut buffer = vec![UNTOUCHED; file + 1];
        let answer = match write(&reading.plan, &mut buffer[..length]) {
            Ok(size) => size.to_string(),
            Err(number) => format!("R {number}"),
        };
        text.extend(format!("{length}: {answer}\n").bytes());
        text.extend(buffer);
        text.push(b'\n');
    }
    text
}

fn first_line(reading: &Reading) -> String {
    match reading.answer {
        Ok(used) => {
            let plan = &reading.plan;
            let sites = plan.threads.iter().filter(|&&threads| threads > 0).count();
            let nodes = plan.nodes.iter().flatten().count();
            format!("plan {sites} {nodes} {} {used}", plan.edge_count)
        }
        Err(refusal) => format!("plan R {} {}", refusal.number, refusal.offset),
    }
}

fn dependence_lines(plan: &Plan, number: u8) -> String {
    let table = dependences(plan);
    let loops = (0..NODES).any(|n| table[n][n]);
    assert_eq!(loops, number > 0, "the plain reader disagrees with its own table");
    (0..NODES).filter(|&n| plan.nodes[n].is_some()).map(|n| line(n, &table[n])).collect()
}

fn line(node: usize, row: &[bool; NODES]) -> String {
    let numbers: String = (0..NODES).filter(|&m| row[m]).map(|m| format!(" {m}")).collect();
    format!("{node}:{numbers}\n")
}
