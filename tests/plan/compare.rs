//! Groups of inputs. Each input goes to the plain reader and writer, to the depends program and to the rewrite program, and what they write is compared byte
//! for byte; some go to the lengths program too.

use crate::text::{each_length, expected};
use std::io::Write;
use std::process::{Command, Stdio};

/// The depends and the rewrite program take no more bytes than this, and leaves the rest unread.
pub const LONGEST: usize = 1076;
/// So many mismatches of a group are shown in full.
const SHOWN: usize = 3;

/// Where the programs are.
pub struct Programs {
    pub depends: String,
    pub rewrite: String,
    pub lengths: String,
}

pub struct Comparison {
    programs: Programs,
    /// What the lengths program shows on any input, behind what it shows of the plan.
    values: Vec<u8>,
    groups: Vec<Group>,
    /// How often each refusal was seen; place 0 counts the accepted plans.
    seen: [usize; 10],
}

struct Group {
    name: &'static str,
    inputs: usize,
    wrong: usize,
}

impl Comparison {
    pub fn new(programs: Programs) -> Comparison {
        let values = run(&programs.lengths, &[]).out;
        Comparison { programs, values, groups: Vec::new(), seen: [0; 10] }
    }

    /// Begins a group; the inputs that follow belong to it.
    pub fn group(&mut self, name: &'static str) {
        self.close_group();
        self.groups.push(Group { name, inputs: 0, wrong: 0 });
    }

    /// The two readers must agree, and the two writers.
    pub fn same(&mut self, bytes: &[u8]) {
        let want = expected(bytes);
        self.seen[want.number as usize] += 1;
        let shown = run(&self.programs.depends, bytes);
        let rewritten = run(&self.programs.rewrite, bytes);
        let want = format!("{}rewritten: {} {}", want.text, hex(&want.file), want.complaint);
        let got = format!("{}rewritten: {} {}", shown.text(), hex(&rewritten.out), rewritten.complaint);
        self.count(bytes, &want, &got);
    }

    /// A plan that is accepted is written into buffers of each length as the plain writer writes it.
    pub fn each_length(&mut self, bytes: &[u8]) {
        let want = [each_length(bytes), self.values.clone()].concat();
        let got = run(&self.programs.lengths, bytes).out;
        self.count(bytes, &hex(&want), &hex(&got));
    }

    /// The two readers must agree, and the first line is this one.
    pub fn first_line(&mut self, bytes: &[u8], line: &str) {
        let want = expected(bytes).text;
        let ours = want.lines().next().unwrap_or("");
        if ours == line {
            self.same(bytes);
        } else {
            self.count(bytes, line, &format!("{ours} (the plain reader)"));
        }
    }

    pub fn refused(&mut self, bytes: &[u8], number: u8, offset: usize) {
        self.first_line(bytes, &format!("plan R {number} {offset}"));
    }

    /// Every beginning of the bytes, the empty one and the whole included.
    pub fn beginnings(&mut self, bytes: &[u8]) {
        for length in 0..=bytes.len() {
            self.same(&bytes[..length]);
        }
    }

    fn count(&mut self, bytes: &[u8], want: &str, got: &str) {
        let group = self.groups.last_mut().expect("a group was begun");
        group.inputs += 1;
        if want != got {
            group.wrong += 1;
            if group.wrong <= SHOWN {
                println!("{}: input {}\nwanted:\n{want}\ngot:\n{got}", group.name, hex(bytes));
            }
        }
    }

    fn close_group(&self) {
        if let Some(group) = self.groups.last() {
            println!("{}: {} compared, {} mismatches", group.name, group.inputs, group.wrong);
        }
    }

    /// Prints what was seen and the closing line; tells whether all went well.
    pub fn close(self) -> bool {
        self.close_group();
        let refusals: Vec<String> = (1..10).map(|number| format!("{number}: {}", self.seen[number])).collect();
        println!("answers seen: {} accepted; refusals {}", self.seen[0], refusals.join(", "));
        let mut good: Vec<bool> = self.groups.iter().map(|group| group.inputs > 0 && group.wrong == 0).collect();
        good.push(self.seen.iter().all(|&count| count > 0));
        let passed = good.iter().filter(|&&well| well).count();
        println!("{passed} passed, {} failed", good.len() - passed);
        passed == good.len()
    }
}

fn hex(bytes: &[u8]) -> String {
    bytes.iter().map(|byte| format!("{byte:02x}")).collect()
}

/// What a program writes to standard output and to standard error.
struct Written {
    out: Vec<u8>,
    complaint: String,
}

impl Written {
    fn text(&self) -> String {
        String::from_utf8_lossy(&self.out).into_owned() + &self.complaint
    }
}

/// What the program writes for an input; a note beside it where it did not end well.
fn run(program: &str, bytes: &[u8]) -> Written {
    assert!(bytes.len() <= LONGEST, "an input of {} bytes", bytes.len());
    let mut command = Command::new(program);
    let mut child = command.stdin(Stdio::piped()).stdout(Stdio::piped()).stderr(Stdio::piped()).spawn().expect("the program starts");
    let sent = child.stdin.take().expect("a pipe").write_all(bytes);
    let output = child.wait_with_output().expect("the program ends");
    let mut complaint = String::from_utf8_lossy(&output.stderr).into_owned();
    if sent.is_err() || !output.status.success() {
        complaint += &format!("{} ({sent:?})", output.status);
    }
    Written { out: output.stdout, complaint }
}
