//! Compares the values of DWARF expressions with those of gimli's `Evaluation`.
//!
//! usage: expressions NUMBER [FIRST]
//!
//! Makes NUMBER expressions, each from its number alone, from FIRST or 0 on, and evaluates each in
//! a frame by both. Prints the first one whose values or errors differ, with status 1; or how many
//! ended with what.
mod by_gimli;
mod made;
mod ours;

use std::collections::BTreeMap;
use std::process::ExitCode;

/// What an evaluation comes to. Errors of a read are numbered as those of `cfi_c.h`.
#[derive(Clone, Copy, Debug, PartialEq, Eq, PartialOrd, Ord)]
pub enum Outcome {
    Value(u64),
    Unreadable(u64),
    Unsupported(u8),
    UnsupportedSize(u8),
    UnknownRegister(u16),
    UnreadableMemory(u64),
    NotEnoughStackItems,
    StackFull,
    DivisionByZero,
    BadBranchTarget,
    TooManyIterations,
}

/// A frame, and what is evaluated in it.
#[derive(Debug)]
pub struct Question {
    pub expression: Vec<u8>,
    pub registers: Vec<u64>,
    pub known: u64,
    pub base: u64,
    pub memory: Vec<u8>,
    pub initial: Option<u64>,
    pub max_iterations: u32,
    pub address_size: u8,
    pub big_endian: bool,
}

/// What outcomes are counted by.
fn kind_of(outcome: Outcome) -> &'static str {
    match outcome {
        Outcome::Value(_) => "values",
        Outcome::Unreadable(_) => "operations that are cut or too long",
        Outcome::Unsupported(_) => {
            "operations that call frames may not have, or that aren't evaluated"
        }
        Outcome::UnsupportedSize(_) => "sizes of memory",
        Outcome::UnknownRegister(_) => "unknown registers",
        Outcome::UnreadableMemory(_) => "unreadable memory",
        Outcome::NotEnoughStackItems => "stacks that are too low",
        Outcome::StackFull => "stacks that are full",
        Outcome::DivisionByZero => "divisions by zero",
        Outcome::BadBranchTarget => "jumps out of the expression",
        Outcome::TooManyIterations => "too many iterations",
    }
}

fn main() -> ExitCode {
    let mut words = std::env::args().skip(1).map(|word| word.parse::<u64>());
    let (Some(Ok(count)), first) = (words.next(), words.next()) else {
        eprintln!("usage: expressions NUMBER [FIRST]");
        return ExitCode::from(2);
    };
    let first = first.and_then(Result::ok).unwrap_or(0);
    let mut counts = BTreeMap::<_, u64>::new();
    for number in first..first + count {
        let question = made::question(number);
        let found = ours::outcome(&question);
        if by_gimli::leaves_out(found) {
            *counts.entry(kind_of(found)).or_default() += 1;
            continue;
        }
        let expected = by_gimli::outcome(&question);
        if found != expected {
            println!("DIFFERENT: number {number}: {question:x?}");
            println!("  expected:  {expected:x?}\n  gimli_cfi: {found:x?}");
            return ExitCode::FAILURE;
        }
        *counts.entry(kind_of(found)).or_default() += 1;
    }
    for (kind, number) in counts {
        println!("{number} {kind}");
    }
    println!("{count} expressions, nothing differs");
    ExitCode::SUCCESS
}
