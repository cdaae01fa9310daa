//! A second bench program, written from the paper alone, to hold the first against.

mod bench;
mod compare;
mod make;
mod net;
mod plan;
mod wrong;

use std::io::{Read, Write};
use std::process::ExitCode;

const HELP: &str = "table text            the text for the input on standard input (TABLE_WRONG names a wrong rule)
table make SEED KIND  one input; KIND is one of those `table kinds` prints, or `long`
table kinds           the kinds of inputs
table rules           the wrong rules
table compare PROGRAM SEEDS
table states SEEDS    demand 3 on every state of the made runs, and what a taking back leaves alone
table teeth SEEDS     wrong rules that must break these
table mutants SEEDS   wrong rules that must be told apart
table explain RULE SEEDS
table vectors FILE [PROGRAM]
";

fn main() -> ExitCode {
    let args: Vec<String> = std::env::args().skip(1).collect();
    let words: Vec<&str> = args.iter().map(String::as_str).collect();
    match answer(&words) {
        Some(true) => ExitCode::SUCCESS,
        Some(false) => ExitCode::FAILURE,
        None => {
            eprint!("{HELP}");
            ExitCode::from(2)
        }
    }
}

/// Nothing where the words make no sense.
fn answer(words: &[&str]) -> Option<bool> {
    match words {
        ["text"] => text(),
        ["make", seed, kind] => made(seed.parse().ok()?, kind),
        ["kinds"] => Some(lines(&make::KINDS)),
        ["rules"] => Some(lines(&wrong::ALL.map(|r| r.0))),
        ["compare", program, seeds] => Some(compare::compare(program, seeds.parse().ok()?)),
        ["states", seeds] => Some(compare::states(seeds.parse().ok()?)),
        ["teeth", seeds] => Some(compare::teeth(seeds.parse().ok()?)),
        ["mutants", seeds] => Some(compare::mutants(seeds.parse().ok()?)),
        ["explain", rule, seeds] => Some(compare::explain(wrong::named(rule)?, seeds.parse().ok()?)),
        ["vectors", file] => Some(compare::vectors(file, None)),
        ["vectors", file, program] => Some(compare::vectors(file, Some(program))),
        _ => None,
    }
}

fn lines(words: &[&str]) -> bool {
    words.iter().for_each(|w| println!("{w}"));
    true
}

fn text() -> Option<bool> {
    let rule = match std::env::var("TABLE_WRONG") {
        Ok(name) if !name.is_empty() => wrong::named(&name)?,
        _ => wrong::Wrong::None,
    };
    let mut input = Vec::new();
    std::io::stdin().read_to_end(&mut input).ok()?;
    write(bench::text(&input, rule).as_bytes())
}

fn made(seed: u64, kind: &str) -> Option<bool> {
    (kind == make::LONG || make::KINDS.contains(&kind)).then_some(())?;
    write(&make::input(seed, kind))
}

fn write(bytes: &[u8]) -> Option<bool> {
    Some(std::io::stdout().write_all(bytes).is_ok())
}
