//! Draws calls of the old form, as the random calls are drawn, and writes them to a file with the answers of the library that is linked.

use super::notation::NO_RECORD;
use super::{OldCall, COUNT, PAIRS};
use crate::book::{self, COUNT_BYTES, PLACE_BYTES, SIDE_BYTES, TOO_MANY_STEPS};
use crate::operations::{Call, Operation};
use crate::random::Random;
use crate::tables::{read_entry, write_entry, Refusal, LINE_BYTES, RECORD_BYTES};
use crate::terms::VARIABLES;
use crate::{generate, operations, OPERATIONS};
use std::collections::BTreeMap;

const HEADER: &str = r"# Calls of the old form, in which constants have 16 bits, with the answers that the library gave before constants had 24. tests/run.sh
# makes them and compares. The file was made by
#
#   tests/run.sh LIBRARY 200000 old_form=tests/old_form.txt
#
# with the library as it was before constants had 24 bits: from a later one it would not say what the old form meant.
#
#   list pattern; recipe; bytes of lines, values, work area = lines COUNT
#   check pattern; recipe; line; values; bytes of work area = yes, or no
#   sweep pattern; line; values; bytes of output, work area = records COUNT
#   rewrite left; right; recipe; line; values; bytes of output, work area = records COUNT
#   book rules; recipe; bytes of output, work area = records COUNT pairs COUNT
#
# A refused call has `refused NUMBER` for an answer. The last word is a digest of all tables after the call, FNV-1a of 64 bits. Before the
# call byte i of a table that is given by its length is i modulo 251. Other tables are words of four bytes, and word*n is n of them:
#
#   @ \ #n kn pn    records
#   first+count     an entry of a line, which is - if it is open, or the counts of a rule
#   ~               bytes ee, where a book isn't read
#   x and digits    other bytes
";
/// How many calls of the four operations are drawn, and how many of the book.
const DRAWN: u64 = 150_000;
const DRAWN_BOOKS: u64 = 40_000;
/// So many calls are kept at most that are alike: answered, by operation, and refused.
const MOST_ANSWERED: [usize; 5] = [85, 160, 50, 45, 15];
const MOST_REFUSED: usize = 5;
/// From so many characters on a call is kept only if it is the first of those that are alike, and from so many on it isn't.
const LONG: usize = 150;
const TOO_LONG: usize = 550;
const MOST_COLUMNS: usize = 140;

/// Writes the file; a call that the library and the independent implementation answer differently ends the program.
pub fn write(file: &str, seed: u64, steps: usize) {
    let mut kept = Kept::default();
    for number in 0..DRAWN {
        let mut call = generate::call(&mut Random::for_call(seed, number), steps);
        blank_entries(&mut call);
        if let Some(outcome) = operations::expected(&call, steps) {
            let class = Class::of(call.operation as usize, outcome.refusal, outcome.answer, outcome.sweeps as u64);
            kept.add(OldCall::Four(call), class);
        }
    }
    let steps = steps * book::calls::STEPS;
    for number in 0..DRAWN_BOOKS {
        let mut call = book::generate::call(&mut Random::for_call(!seed, number), steps);
        let outcome = book::expected_within(&call, steps);
        if !outcome.refusal.is_some_and(|refusal| refusal.cause == TOO_MANY_STEPS) {
            call.pairs = PAIRS;
            blank_book(&mut call.book, outcome.refusal);
            kept.add(OldCall::Book(call), Class::of(OPERATIONS.len(), outcome.refusal, outcome.answer, outcome.pairs));
        }
    }
    std::fs::write(file, kept.text()).expect("the file can be written");
}

/// What calls that are alike have in common: the cause of the refusal, or the sizes of the answer and of the number of sweeps or pairs.
#[derive(Clone, Copy, PartialEq, Eq, PartialOrd, Ord)]
struct Class {
    operation: usize,
    refusal: Option<Refusal>,
    sizes: [u32; 2],
}

impl Class {
    fn of(operation: usize, refusal: Option<Refusal>, answer: i64, steps: u64) -> Class {
        let sizes = if refusal.is_some() { [0, 0] } else { [(answer + 1).ilog2(), (steps + 1).ilog2()] };
        Class { operation, refusal, sizes }
    }

    /// How many calls of so many characters are kept.
    fn most(&self, characters: usize) -> usize {
        match self.refusal {
            _ if characters >= TOO_LONG => 0,
            _ if characters >= LONG => 1,
            // 14 is an answer like no.
            Some(refusal) if refusal.number != 14 => MOST_REFUSED,
            _ => MOST_ANSWERED[self.operation],
        }
    }
}

#[derive(Default)]
struct Kept {
    /// The lines, not yet broken, by operation.
    lines: [Vec<String>; 5],
    alike: BTreeMap<Class, usize>,
}

impl Kept {
    /// Keeps a call that is of the old form, not too long, and not one too many.
    fn add(&mut self, mut call: OldCall, class: Class) {
        let text = call.text();
        let alike = self.alike.entry(class).or_default();
        if *alike >= class.most(text.len()) || !call.is_old_form() {
            return;
        }
        *alike += 1;
        let call = OldCall::from_text(&text).expect("it was just written");
        call.compare(0).unwrap_or_else(|difference| panic!("{difference}\n{text}"));
        self.lines[class.operation].push(format!("{text} = {}", call.outcome(0)));
    }

    fn text(&self) -> String {
        let mut text = format!("{HEADER}{COUNT}{}\n", self.lines.iter().map(Vec::len).sum::<usize>());
        for line in self.lines.iter().flatten() {
            wrap(line, &mut text);
        }
        text
    }
}

/// Adds the line, broken between words where it is too long.
fn wrap(line: &str, text: &mut String) {
    let mut row = String::new();
    for word in line.split(' ') {
        if row.is_empty() {
            row = word.into();
        } else if row.len() + 1 + word.len() <= MOST_COLUMNS {
            row += &format!(" {word}");
        } else {
            *text += &(row + "\n");
            row = format!("    {word}");
        }
    }
    *text += &(row + "\n");
}

/// Gives the entries of variables that don't occur, unless they are open, a count of 0: refused if they were read, and short to write.
fn blank_entries(call: &mut Call) {
    if call.operation == Operation::List || call.lines.len() != LINE_BYTES {
        return;
    }
    for variable in 0..VARIABLES {
        if !call.has_variable(variable) && read_entry(&call.lines, variable) != (0, 0) {
            write_entry(&mut call.lines, variable, 9, 0);
        }
    }
}

/// Puts what is no record where a book isn't read: behind the counted records, and behind the first place if its length is refused.
fn blank_book(book: &mut [u8], refusal: Option<Refusal>) {
    if refusal.is_some_and(|refusal| refusal.table == "book") {
        let first = book.len().min(PLACE_BYTES);
        book[first..].fill(NO_RECORD[0]);
    }
    for place in book.chunks_exact_mut(PLACE_BYTES) {
        let (counts, sides) = place.split_at_mut(2 * COUNT_BYTES);
        for (count, side) in counts.chunks(COUNT_BYTES).zip(sides.chunks_mut(SIDE_BYTES)) {
            let counted = u16::from_be_bytes([count[0], count[1]]) as usize * RECORD_BYTES;
            side[counted.min(SIDE_BYTES)..].fill(NO_RECORD[0]);
        }
    }
}
