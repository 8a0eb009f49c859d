//! Makes one call of the library and compares the answer and every lent table, byte for byte, with what the operation should do.

use crate::library;
use crate::lister::Line;
use crate::operations::{answer_listing, outcome_of, Call, Operation, Outcome};
use crate::tables::*;

/// Bytes before and behind each lent table that nobody may touch.
const GUARD: usize = 64;
const GUARD_BYTE: u8 = 0xC7;

/// A table between two guards. The shift moves it to any address, also an odd one.
pub struct Lent {
    buffer: Vec<u8>,
    start: usize,
    length: usize,
}

impl Lent {
    pub fn new(table: &[u8], shift: usize) -> Lent {
        let start = GUARD + shift;
        let mut buffer = Vec::with_capacity(start + table.len() + GUARD);
        buffer.resize(start, GUARD_BYTE);
        buffer.extend_from_slice(table);
        buffer.resize(start + table.len() + GUARD, GUARD_BYTE);
        Lent { buffer, start, length: table.len() }
    }

    pub fn table(&self) -> &[u8] {
        &self.buffer[self.start..self.start + self.length]
    }

    pub fn table_mut(&mut self) -> &mut [u8] {
        &mut self.buffer[self.start..self.start + self.length]
    }

    /// What differs from the expected table or its guards, if anything does.
    pub fn difference(&self, name: &str, expected: &[u8]) -> Option<String> {
        let is_guard = |bytes: &[u8]| bytes.iter().all(|byte| *byte == GUARD_BYTE);
        if !is_guard(&self.buffer[..self.start]) {
            return Some(format!("bytes before the table {name} were written"));
        }
        if !is_guard(&self.buffer[self.start + self.length..]) {
            return Some(format!("bytes behind the table {name} were written"));
        }
        if self.table() == expected {
            return None;
        }
        let at = (0..expected.len()).find(|at| self.table()[*at] != expected[*at]).expect("some byte differs");
        let from = at - at % LINE_BYTES;
        let to = (from + 2 * LINE_BYTES).min(expected.len());
        Some(format!(
            "table {name} differs first at byte {at}; from byte {from}:\n  expected {}\n  library  {}",
            hex(&expected[from..to]),
            hex(&self.table()[from..to])
        ))
    }
}

/// FNV-1a of 64 bits over the bytes of these tables, one table behind the other.
pub fn digest(tables: &[&Lent]) -> u64 {
    let bytes = tables.iter().flat_map(|lent| lent.table());
    bytes.fold(0xCBF2_9CE4_8422_2325, |digest, byte| (digest ^ u64::from(*byte)).wrapping_mul(0x0000_0100_0000_01B3))
}

/// The tables of a call, each between its guards.
struct Tables {
    pattern: Lent,
    right: Lent,
    recipe: Lent,
    lines: Lent,
    values: Lent,
    output: Lent,
    work: Lent,
}

impl Tables {
    /// What differs from the tables that the caller should see, if anything does.
    fn differences(&self, call: &Call, outcome: &Outcome) -> Vec<String> {
        let tables = [
            self.pattern.difference("pattern", &call.pattern),
            self.right.difference("right", &call.right),
            self.recipe.difference("recipe", &call.recipe),
            self.lines.difference("lines", &outcome.lines),
            self.values.difference("values", &outcome.values),
            self.output.difference("output", &outcome.output),
            self.work.difference("work", &outcome.work),
        ];
        tables.into_iter().flatten().collect()
    }
}

/// Calls the library: its answer, and the tables as they are then. `shift` sets the addresses of the tables.
fn make(call: &Call, shift: usize) -> (i64, Tables) {
    let mut tables = Tables {
        pattern: Lent::new(&call.pattern, shift % 8),
        right: Lent::new(&call.right, (shift + 1) % 8),
        recipe: Lent::new(&call.recipe, (shift + 2) % 8),
        lines: Lent::new(&call.lines, (shift + 3) % 8),
        values: Lent::new(&call.values, (shift + 4) % 8),
        output: Lent::new(&call.output, (shift + 5) % 8),
        work: Lent::new(&call.work, (shift + 6) % 8),
    };
    let Tables { pattern, right, recipe, lines, values, output, work } = &mut tables;
    let (pattern, right, recipe) = (pattern.table(), right.table(), recipe.table());
    let answer = match call.operation {
        Operation::List => library::list(pattern, recipe, lines.table_mut(), values.table_mut(), work.table_mut()),
        Operation::Check => library::check(pattern, recipe, lines.table(), values.table(), work.table_mut()),
        Operation::Sweep => library::sweep(pattern, lines.table(), values.table(), output.table_mut(), work.table_mut()),
        Operation::Rewrite => library::rewrite(pattern, right, recipe, lines.table(), values.table(), output.table_mut(), work.table_mut()),
    };
    (answer, tables)
}

/// Calls the library; the difference if there is one.
pub fn compare(call: &Call, outcome: &Outcome, shift: usize) -> Result<(), String> {
    let (answer, tables) = make(call, shift);
    let mut differences = Vec::new();
    if answer != outcome.answer {
        differences.push(format!("answer: expected {} {:?}, library {answer}", outcome.answer, outcome.refusal));
    }
    differences.extend(tables.differences(call, outcome));
    no_difference(differences)
}

/// The library's answer, and the digest of all tables as they are then.
pub fn answer_and_digest(call: &Call, shift: usize) -> (i64, u64) {
    let (answer, Tables { pattern, right, recipe, lines, values, output, work }) = make(call, shift);
    (answer, digest(&[&pattern, &right, &recipe, &lines, &values, &output, &work]))
}

pub fn no_difference(differences: Vec<String>) -> Result<(), String> {
    if differences.is_empty() {
        Ok(())
    } else {
        Err(differences.join("\n"))
    }
}

/// The library's own listing, for a call that the plain lister is too slow for: its lines, or the refusal, 9 or 10. The lines must be laid out as they
/// should, and all other bytes be what they are to be after such an answer; whether the lines are the right ones isn't looked at.
pub fn library_listing(call: &Call, shift: usize) -> Result<Result<Vec<Line>, Refusal>, String> {
    let (code, tables) = make(call, shift);
    let listing = match code {
        -9 => refuse(9, "lines", "too little room"),
        -10 => refuse(10, "values", "too little room"),
        0.. if code as usize * LINE_BYTES <= call.lines.len() => {
            let lines = &tables.lines.table()[..code as usize * LINE_BYTES];
            Ok(read_lines(lines, tables.values.table()).map_err(|refusal| format!("a value that is none: {refusal:?}"))?)
        }
        _ => return Err(format!("the library answers {code}")),
    };
    let answer = match &listing {
        Ok(lines) => answer_listing(call, lines),
        Err(refusal) => Err(*refusal),
    };
    no_difference(tables.differences(call, &outcome_of(call, answer)))?;
    Ok(listing)
}

/// The call in hexadecimal, and its terms in the notation of document 01 where they can be read.
pub fn describe(call: &Call) -> String {
    let mut text = format!("operation {:?}\n", call.operation);
    let tables = [
        ("pattern", &call.pattern),
        ("right", &call.right),
        ("recipe", &call.recipe),
        ("lines", &call.lines),
        ("values", &call.values),
        ("output", &call.output),
        ("work", &call.work),
    ];
    for (name, table) in tables {
        // The whole table, but of a long one to be written or of a work area the beginning will do.
        let is_input = call.operation != Operation::List && (name == "lines" || name == "values");
        let shown = if table.len() > 512 && !is_input { 64 } else { table.len() };
        let more = if shown < table.len() { ".." } else { "" };
        text += &format!("  {name} ({} bytes) {}{more}\n", table.len(), hex(&table[..shown]));
        let term = match name {
            "pattern" | "right" => read_pattern(table, "").ok(),
            "recipe" => read_recipe(table).ok(),
            _ => None,
        };
        if let Some(term) = term {
            text += &format!("    that is {}\n", term.text());
        }
    }
    text
}

pub fn hex(bytes: &[u8]) -> String {
    bytes.iter().map(|byte| format!("{byte:02x}")).collect()
}
