//! The bench program's text for a whole input.

use crate::net::{Answer, Net};
use crate::plan;
use crate::wrong::Wrong;

pub struct Run {
    pub text: String,
    /// what was broken of demand 3, and after which command
    pub broken: Option<String>,
    /// the hardest shape of the net in each regard
    pub shape: [usize; 5],
}

/// The bytes after the kind byte of a command, or nothing for an unknown kind.
pub fn command_length(kind: u8) -> Option<usize> {
    match kind {
        0x10 => Some(3),
        0x11 => Some(5),
        0x12 | 0x13 | 0x14 | 0x15 => Some(2),
        _ => None,
    }
}

/// "numbers of two bytes high byte first"
fn word(bytes: &[u8], wrong: Wrong) -> u16 {
    match wrong {
        Wrong::LowByteFirst => u16::from_le_bytes([bytes[0], bytes[1]]),
        _ => u16::from_be_bytes([bytes[0], bytes[1]]),
    }
}

/// One command carried out: its line without the newline, and whether it was refused.
fn command(net: &mut Net, kind: u8, b: &[u8], wrong: Wrong) -> (String, bool) {
    let w = |at: usize| word(&b[at..], wrong);
    let (head, answer) = match kind {
        0x10 => (format!("S {}", w(0)), net.start(w(0), b[2])),
        0x11 => (format!("C {} {}", w(0), w(2)), net.call(w(0), w(2), b[4])),
        0x12 => (format!("E {}", w(0)), net.back(w(0))),
        0x13 => (format!("Q {}", w(0)), net.ask(w(0))),
        0x15 => (format!("X {}", w(0)), net.take_back(w(0))),
        _ => (format!("M {} {}", b[0], b[1]), net.room(b[0], b[1])),
    };
    let tail = match answer {
        Answer::Active => "G".to_string(),
        Answer::Waiting(_) if wrong == Wrong::BlockUntold => "W".to_string(),
        Answer::Waiting(level) => format!("W {level}"),
        Answer::Refused(no) => format!("R {no}"),
        Answer::Served(ticket) => ticket.to_string(),
        Answer::TakenBack => "0".to_string(),
        Answer::Asked(c) => c.to_string(),
        Answer::Room(n) => n.to_string(),
    };
    (format!("{head} {tail}"), matches!(answer, Answer::Refused(_)))
}

pub fn text(input: &[u8], wrong: Wrong) -> String {
    run(input, wrong, false).text
}

/// The whole text; with `check`, demand 3 is looked at after every command, and what a taking back has left alone.
pub fn run(input: &[u8], wrong: Wrong, check: bool) -> Run {
    let (plan, used) = match plan::read(input, wrong) {
        // "or `plan R`, refusal, offset, and nothing more"
        Err((no, offset)) => return Run { text: format!("plan R {no} {offset}\n"), broken: None, shape: [0; 5] },
        Ok(read) => read,
    };
    let (sites, nodes, edges) = (plan.sites.len(), plan.nodes.len(), plan.edges.len());
    let mut text = format!("plan {sites} {nodes} {edges} {used}\n");
    let mut net = Net::new(plan, wrong);
    let (mut at, mut count, mut refused, mut broken, mut shape) = (used, 0, 0, None, [0; 5]);
    while let Some(&kind) = input.get(at) {
        let from = if wrong == Wrong::BadOffset { used } else { 0 };
        let Some(length) = command_length(kind) else {
            text += &format!("bad 2 {}\n", at - from);
            return Run { text, broken, shape };
        };
        let Some(body) = input.get(at + 1..at + 1 + length) else {
            if wrong == Wrong::CutDone {
                break;
            }
            text += &format!("bad 1 {}\n", at - from);
            return Run { text, broken, shape };
        };
        let before = (check && kind == 0x15).then(|| net.clone());
        let (line, no) = command(&mut net, kind, body, wrong);
        text += &line;
        text.push('\n');
        count += 1;
        refused += usize::from(no);
        if check {
            shape = higher(shape, net.shape());
        }
        if check && broken.is_none() {
            let gone = (!no).then(|| word(body, wrong));
            let moved = before.and_then(|b| net.moved(&b, gone));
            broken = net.broken().or(moved).map(|b| format!("after command {count}, {line}: {b}"));
        }
        at += 1 + length;
    }
    let shown = if wrong == Wrong::DoneAccepted { count - refused } else { count };
    text += &format!("done {shown}\n");
    Run { text, broken, shape }
}

pub fn higher(a: [usize; 5], b: [usize; 5]) -> [usize; 5] {
    std::array::from_fn(|i| a[i].max(b[i]))
}

/// The input in records and commands, in order; what cannot be told apart is one last piece.
pub fn pieces(input: &[u8]) -> Vec<Vec<u8>> {
    let mut out = Vec::new();
    let (mut at, mut in_plan) = (0, true);
    while let Some(&kind) = input.get(at) {
        let known = (1..=4).contains(&kind);
        let length = match in_plan {
            true => known.then(|| plan::body_length(kind)),
            false => command_length(kind),
        };
        let end = length.map(|l| at + 1 + l).filter(|e| *e <= input.len());
        let end = end.unwrap_or(input.len());
        out.push(input[at..end].to_vec());
        in_plan = in_plan && kind != 4;
        at = end;
    }
    out
}
