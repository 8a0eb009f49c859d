//! Makes one call of the library and compares the answer, the number of pairs and every lent table, byte for byte, with what the book should do.

use super::*;
use crate::compare::{digest, hex, no_difference, Lent};
use crate::library;

/// Stands before and behind the number of pairs, where nobody may write.
const GUARD_NUMBER: u64 = 0xC7C7_C7C7_C7C7_C7C7;

/// The tables of a call, each between its guards, and the number of pairs.
struct Tables {
    book: Lent,
    recipe: Lent,
    output: Lent,
    work: Lent,
    numbers: [u64; 3],
}

/// Calls the library: its answer, and the tables as they are then. `shift` sets the addresses of the tables.
fn make(call: &Call, shift: usize) -> (i64, Tables) {
    let mut tables = Tables {
        book: Lent::new(&call.book, shift % 8),
        recipe: Lent::new(&call.recipe, (shift + 1) % 8),
        output: Lent::new(&call.output, (shift + 2) % 8),
        work: Lent::new(&call.work, (shift + 3) % 8),
        numbers: [GUARD_NUMBER, call.pairs, GUARD_NUMBER],
    };
    let Tables { book, recipe, output, work, numbers } = &mut tables;
    let answer = library::book(book.table(), recipe.table(), output.table_mut(), work.table_mut(), &mut numbers[1]);
    (answer, tables)
}

/// The library's answer, the number of pairs, and the digest of all tables as they are then.
pub fn answer_and_digest(call: &Call, shift: usize) -> (i64, u64, u64) {
    let (answer, Tables { book, recipe, output, work, numbers }) = make(call, shift);
    (answer, numbers[1], digest(&[&book, &recipe, &output, &work]))
}

/// Calls the library; the difference if there is one.
pub fn compare(call: &Call, outcome: &Outcome, shift: usize) -> Result<(), String> {
    let (answer, Tables { book, recipe, output, work, numbers }) = make(call, shift);
    let mut differences = Vec::new();
    if answer != outcome.answer {
        differences.push(format!("answer: expected {} {:?}, library {answer}", outcome.answer, outcome.refusal));
    }
    if numbers != [GUARD_NUMBER, outcome.pairs, GUARD_NUMBER] {
        differences.push(format!("pairs: expected {}, library {} between {:x} and {:x}", outcome.pairs, numbers[1], numbers[0], numbers[2]));
    }
    let tables = [
        book.difference("book", &call.book),
        recipe.difference("recipe", &call.recipe),
        output.difference("output", &outcome.output),
        work.difference("work", &outcome.work),
    ];
    differences.extend(tables.into_iter().flatten());
    no_difference(differences)
}

/// The call in hexadecimal, and its rules and its recipe in the notation of document 01 where they can be read.
pub fn describe(call: &Call) -> String {
    let mut text = format!("the book, pairs before the call {}\n", call.pairs);
    for (name, table) in [("book", &call.book), ("recipe", &call.recipe)] {
        text += &format!("  {name} ({} bytes) {}\n", table.len(), hex(table));
    }
    for (name, table) in [("output", &call.output), ("work", &call.work)] {
        text += &format!("  {name} ({} bytes) {}..\n", table.len(), hex(&table[..table.len().min(64)]));
    }
    for (number, place) in call.book.chunks_exact(PLACE_BYTES).enumerate() {
        text += &match read_rule(place) {
            Ok(Rule { left, right }) => format!("    rule {number}: {} becomes {}\n", left.text(), right.text()),
            Err(refusal) => format!("    rule {number}: {refusal:?}\n"),
        };
    }
    if let Ok(recipe) = read_recipe(&call.recipe) {
        text += &format!("    recipe: {}\n", recipe.text());
    }
    text
}
