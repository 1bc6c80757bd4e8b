//! Compares the verified program with the baseline: `table` their times, `differential` their results.

mod baseline;
mod differential;
mod generate;
mod pairs;
mod random;
mod sheets;
mod sizes;
mod stores;
mod table;
mod verified;

use std::process::ExitCode;

use sizes::NARROW_LINES;

/// What the check of a book ends with: code, line, head steps.
#[repr(C)]
#[derive(Clone, Copy, Debug, PartialEq, Eq)]
pub struct Outcome {
    pub code: u32,
    pub line: u32,
    pub steps: u64,
}

impl Outcome {
    /// How many lines are recorded.
    pub fn recorded(&self) -> usize {
        let line = self.line as usize;
        if self.code == 0 { line } else { line.saturating_sub(1) }
    }
}

/// What a call on an accepted book ends with: code, line, head steps, and the length of the answer that it wrote.
#[repr(C)]
#[derive(Clone, Copy, Debug, PartialEq, Eq)]
pub struct Answer {
    pub code: u32,
    pub line: u32,
    pub steps: u32,
    pub length: u32,
}

fn main() -> ExitCode {
    let arguments: Vec<String> = std::env::args().skip(1).collect();
    let arguments: Vec<&str> = arguments.iter().map(String::as_str).collect();
    let agreed = match arguments[..] {
        ["table"] => table::print(),
        ["table", title] => table::print_one(title),
        ["differential"] => differential::run(),
        ["profile", book, program] => profile(book, program, None),
        ["profile", book, program, lines, limit] => profile(book, program, lines.parse().ok().zip(limit.parse().ok())),
        _ => {
            eprintln!("usage: bench table [<title>] | differential | profile <book> <verified or baseline> [<lines> <limit>]");
            return ExitCode::from(2);
        }
    };
    if agreed { ExitCode::SUCCESS } else { ExitCode::FAILURE }
}

fn profile(book: &str, program: &str, sizes: Option<(usize, u32)>) -> bool {
    let check: table::Check = if program == "verified" { verified::check } else { baseline::check };
    let Some(kind) = generate::Kind::all().find(|k| k.title() == book) else { return false };
    let (lines, limit) = sizes.unwrap_or((NARROW_LINES, kind.limit()));
    table::profile(kind, check, lines, limit);
    true
}
