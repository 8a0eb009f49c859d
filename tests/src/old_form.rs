//! Calls of the old form, in which constants have 16 bits, and what the library answered to them before constants had 24. They are kept in
//! `tests/old_form.txt`: the calls themselves, so that they stay when the random calls change, and of the tables afterwards a digest.
//!
//! - notation: how a table is written there
//! - draw: calls drawn, and the file written
//!
//! A call is a line `operation table; table; lengths = answer digest`, and lines that begin with spaces go on with it: a table for each that the operation
//! reads, and a length for each that it writes, the work area last. Byte i of those is i modulo 251 before the call.

pub mod draw;
mod notation;

use crate::large::has_large;
use crate::operations::{self, Operation};
use crate::{book, compare};
use notation::{number, table, text, Words};

const FILE: &str = include_str!("../old_form.txt");
/// So that a file that lost its calls isn't taken for one whose calls are all answered as before.
const LEAST_CALLS: usize = 3_000;
/// The line before the calls: how many there are.
const COUNT: &str = "calls ";
/// What stands where the number of pairs is put, before the call.
const PAIRS: u64 = 0x0123_4567_89AB_CDEF;

const NAMES: [(&str, Operation); 4] =
    [("list", Operation::List), ("check", Operation::Check), ("sweep", Operation::Sweep), ("rewrite", Operation::Rewrite)];
const BOOK: &str = "book";

/// A call of one of the five operations.
enum OldCall {
    Four(operations::Call),
    Book(book::Call),
}

/// How many calls were answered as before, and as the independent implementation answers them.
pub fn run() -> Result<usize, String> {
    let calls = kept_calls(FILE)?;
    for (number, (line, kept)) in calls.iter().enumerate() {
        check(kept, number % 8).map_err(|wrong| format!("old_form.txt, line {line}: {wrong}\n{kept}"))?;
    }
    Ok(calls.len())
}

/// The calls of a file, each with the number of its first line.
fn kept_calls(file: &str) -> Result<Vec<(usize, String)>, String> {
    let mut lines = file.lines().enumerate().map(|(at, line)| (at + 1, line)).filter(|(_, line)| !line.starts_with('#'));
    let count = lines.next().and_then(|(_, line)| line.strip_prefix(COUNT)?.parse::<usize>().ok());
    let count = count.ok_or("old_form.txt doesn't say how many calls it has")?;
    let mut calls: Vec<(usize, String)> = Vec::new();
    for (number, line) in lines {
        match (line.strip_prefix(' '), calls.last_mut()) {
            (None, _) => calls.push((number, line.into())),
            (Some(more), Some((_, call))) => *call += &format!(" {}", more.trim_start()),
            (Some(_), None) => return Err(format!("old_form.txt, line {number}: goes on with no call")),
        }
    }
    if calls.len() != count || count < LEAST_CALLS {
        return Err(format!("old_form.txt has {} calls, says that it has {count}, and should have {LEAST_CALLS} or more", calls.len()));
    }
    Ok(calls)
}

/// Makes a call, and compares what comes of it with what the line says, and with the independent implementation.
fn check(kept: &str, shift: usize) -> Result<(), String> {
    let (words, outcome) = kept.split_once(" = ").ok_or("no answer")?;
    let mut call = OldCall::from_text(words)?;
    if call.text() != words || !call.is_old_form() {
        return Err("not of the old form, or not written as it would be".into());
    }
    let now = call.outcome(shift);
    if now != outcome {
        return Err(format!("the outcome was '{outcome}', and is '{now}'"));
    }
    call.compare(shift)
}

impl OldCall {
    /// A call of this operation, with empty tables.
    fn named(name: &str) -> Option<OldCall> {
        let [pattern, right, recipe, lines, values, output, work, book] = [const { Vec::new() }; 8];
        if name == BOOK {
            return Some(OldCall::Book(book::Call { book, recipe, output, work, pairs: PAIRS }));
        }
        let (_, operation) = *NAMES.iter().find(|(of, _)| *of == name)?;
        Some(OldCall::Four(operations::Call { operation, pattern, right, recipe, lines, values, output, work }))
    }

    fn name(&self) -> &'static str {
        match self {
            OldCall::Four(call) => NAMES.iter().find(|(_, operation)| *operation == call.operation).expect("a name").0,
            OldCall::Book(_) => BOOK,
        }
    }

    /// The tables that are read, and those that are written.
    fn tables(&mut self) -> (Vec<(Words, &mut Vec<u8>)>, Vec<&mut Vec<u8>>) {
        use Words::*;
        match self {
            OldCall::Book(book::Call { book, recipe, output, work, .. }) => (vec![(Rules, book), (Records, recipe)], vec![output, work]),
            OldCall::Four(operations::Call { operation, pattern, right, recipe, lines, values, output, work }) => match operation {
                Operation::List => (vec![(Records, pattern), (Records, recipe)], vec![lines, values, work]),
                Operation::Check => (vec![(Records, pattern), (Records, recipe), (Entries, lines), (Records, values)], vec![work]),
                Operation::Sweep => (vec![(Records, pattern), (Entries, lines), (Records, values)], vec![output, work]),
                Operation::Rewrite => {
                    (vec![(Records, pattern), (Records, right), (Records, recipe), (Entries, lines), (Records, values)], vec![output, work])
                }
            },
        }
    }

    /// Whether no constant has a second byte.
    fn is_old_form(&mut self) -> bool {
        let (read, _) = self.tables();
        read.iter().all(|(words, table)| matches!(words, Words::Entries) || !has_large(table))
    }

    fn text(&mut self) -> String {
        let name = self.name();
        let (read, written) = self.tables();
        let read: Vec<String> = read.into_iter().map(|(words, table)| text(table, words)).collect();
        let lengths: Vec<String> = written.iter().map(|table| table.len().to_string()).collect();
        format!("{name} {}; {}", read.join("; "), lengths.join(" "))
    }

    fn from_text(words: &str) -> Result<OldCall, String> {
        let (name, words) = words.split_once(' ').ok_or("no tables")?;
        let mut call = OldCall::named(name).ok_or_else(|| format!("no operation: '{name}'"))?;
        let (read, written) = call.tables();
        let fields: Vec<&str> = words.split("; ").collect();
        let (lengths, fields) = fields.split_last().expect("a split has a first");
        let lengths: Vec<&str> = lengths.split(' ').collect();
        if (fields.len(), lengths.len()) != (read.len(), written.len()) {
            return Err(format!("{} tables and {} lengths", fields.len(), lengths.len()));
        }
        for (lent, field) in read.into_iter().zip(fields) {
            *lent.1 = table(field)?;
        }
        for (lent, length) in written.into_iter().zip(lengths) {
            *lent = (0..number(length)?).map(|at| (at % 251) as u8).collect();
        }
        Ok(call)
    }

    /// The library's answer in words, and the digest of all tables afterwards.
    fn outcome(&self, shift: usize) -> String {
        let (answer, pairs, digest) = match self {
            OldCall::Four(call) => {
                let (answer, digest) = compare::answer_and_digest(call, shift);
                (answer, PAIRS, digest)
            }
            OldCall::Book(call) => book::compare::answer_and_digest(call, shift),
        };
        let answer = match (self.name(), answer) {
            (_, ..=-1) => format!("refused {}", -answer),
            ("list", _) => format!("lines {answer}"),
            ("check", 0) => "no".into(),
            ("check", 1) => "yes".into(),
            _ => format!("records {answer}"),
        };
        let pairs = if pairs == PAIRS { String::new() } else { format!(" pairs {pairs}") };
        format!("{answer}{pairs} {digest:016x}")
    }

    /// The difference between the library and the independent implementation, if there is one.
    fn compare(&self, shift: usize) -> Result<(), String> {
        match self {
            OldCall::Four(call) => compare::compare(call, &operations::expected(call, usize::MAX).expect("no step limit"), shift),
            OldCall::Book(call) => book::compare::compare(call, &book::expected_within(call, usize::MAX), shift),
        }
    }
}
