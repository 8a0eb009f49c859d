//! Tables of bytes: records, what makes a table valid, lines, and where values stand.

use crate::lister::Line;
use crate::terms::{abstraction, application, Term, Term::*, VARIABLES};

pub const RECORD_BYTES: usize = 4;
/// Of an entry in a line: first record and count, 16 bits each.
const ENTRY_BYTES: usize = 4;
pub const LINE_BYTES: usize = ENTRY_BYTES * VARIABLES;
pub const MOST_TABLE_BYTES: usize = 65_536;
pub const MOST_PATTERN_RECORDS: usize = 32;
pub const MOST_RECIPE_RECORDS: usize = 96;
pub const MOST_VALUE_RECORDS: usize = 160;
/// The kind of a constant's record: the one whose number has 24 bits, with the top eight in the second byte.
pub const CONSTANT: u8 = 3;
pub const CONSTANT_BITS: u32 = 24;
/// The kinds in which the second byte has to be zero, each with the cause of the refusal if it isn't.
pub const SECOND_BYTE: [(u8, &str); 4] =
    [(0, "second byte, kind 0"), (1, "second byte, kind 1"), (2, "second byte, kind 2"), (4, "second byte, kind 4")];

/// A refusal number, and for the counts at the end: which table it was and what was wrong with it.
#[derive(Clone, Copy, PartialEq, Eq, PartialOrd, Ord, Debug)]
pub struct Refusal {
    pub number: u8,
    pub table: &'static str,
    pub cause: &'static str,
}

pub fn refuse<T>(number: u8, table: &'static str, cause: &'static str) -> Result<T, Refusal> {
    Err(Refusal { number, table, cause })
}

/// The bytes of a term, 4 for each record, the head before the argument.
pub fn encode(term: &Term) -> Vec<u8> {
    let mut bytes = Vec::new();
    encode_into(term, &mut bytes);
    bytes
}

fn encode_into(term: &Term, bytes: &mut Vec<u8>) {
    let mut record = |kind: u8, number: u32| {
        let [over, top, high, low] = number.to_be_bytes();
        assert!(over == 0 && (top == 0 || kind == CONSTANT), "a number of kind {kind} is too large: {number}");
        bytes.extend_from_slice(&[kind, top, high, low]);
    };
    match term {
        Application(head, argument) => {
            record(0, 0);
            encode_into(head, bytes);
            encode_into(argument, bytes);
        }
        Abstraction(body) => {
            record(1, 0);
            encode_into(body, bytes);
        }
        Local(n) => record(2, *n as u32),
        Constant(n) => record(CONSTANT, *n),
        Variable(n) => record(4, *n as u32),
    }
}

/// Three refusal numbers in a row: for the length, for a bad record, for the shape.
struct Numbers {
    length: u8,
    record: u8,
    shape: u8,
}

/// A pattern or right side: refusals 1, 2, 3.
pub fn read_pattern(bytes: &[u8], table: &'static str) -> Result<Term, Refusal> {
    read_term(bytes, MOST_PATTERN_RECORDS, true, &Numbers { length: 1, record: 2, shape: 3 }, table)
}

/// A recipe: refusals 4, 5, 6, 7.
pub fn read_recipe(bytes: &[u8]) -> Result<Term, Refusal> {
    let recipe = read_term(bytes, MOST_RECIPE_RECORDS, false, &Numbers { length: 4, record: 5, shape: 6 }, "recipe")?;
    if !recipe.is_normal() {
        return refuse(7, "recipe", "not normal");
    }
    Ok(recipe)
}

/// The value of one variable, as its entry in the line says: refusal 11.
pub fn read_value(line: &[u8], values: &[u8], variable: usize) -> Result<Term, Refusal> {
    let (first, count) = read_entry(line, variable);
    if count == 0 {
        return refuse(11, "value", if first == 0 { "open" } else { "a count of 0" });
    }
    let start = first * RECORD_BYTES;
    let end = start + count * RECORD_BYTES;
    if end > values.len() {
        return refuse(11, "value", "runs past its table");
    }
    let numbers = Numbers { length: 11, record: 11, shape: 11 };
    let value = read_term(&values[start..end], MOST_VALUE_RECORDS, false, &numbers, "value")?;
    if !value.is_normal() {
        return refuse(11, "value", "not normal");
    }
    Ok(value)
}

fn read_term(bytes: &[u8], most_records: usize, variables: bool, numbers: &Numbers, table: &'static str) -> Result<Term, Refusal> {
    if bytes.is_empty() {
        return refuse(numbers.length, table, "empty");
    }
    if bytes.len() % RECORD_BYTES != 0 {
        return refuse(numbers.length, table, "no multiple of 4");
    }
    if bytes.len() > most_records * RECORD_BYTES {
        return refuse(numbers.length, table, "too long");
    }
    // A bad record anywhere comes before the shape.
    for record in bytes.chunks(RECORD_BYTES) {
        let number = number_at(record, 2);
        if record[0] > 4 {
            return refuse(numbers.record, table, "kind above 4");
        }
        let second_byte = SECOND_BYTE.iter().find(|(kind, _)| *kind == record[0] && record[1] != 0);
        if let Some((_, cause)) = second_byte {
            return refuse(numbers.record, table, cause);
        }
        if record[0] <= 1 && number != 0 {
            return refuse(numbers.record, table, "number not 0");
        }
        if record[0] == 4 && !variables {
            return refuse(numbers.record, table, "variable");
        }
        if record[0] == 4 && number >= VARIABLES {
            return refuse(numbers.record, table, "variable too high");
        }
    }
    let mut rest = bytes;
    let Some(term) = read_tree(&mut rest) else {
        return refuse(numbers.shape, table, "ends early");
    };
    if !rest.is_empty() {
        return refuse(numbers.shape, table, "records left over");
    }
    if !term.is_closed() {
        return refuse(numbers.shape, table, "local without binder");
    }
    Ok(term)
}

/// Takes one tree off the front of the records; nothing if they end early.
fn read_tree(rest: &mut &[u8]) -> Option<Term> {
    if rest.is_empty() {
        return None;
    }
    let (record, behind) = rest.split_at(RECORD_BYTES);
    *rest = behind;
    let number = number_at(record, 2);
    Some(match record[0] {
        0 => {
            let head = read_tree(rest)?;
            application(head, read_tree(rest)?)
        }
        1 => abstraction(read_tree(rest)?),
        2 => Local(number),
        CONSTANT => Constant(constant_at(record)),
        _ => Variable(number),
    })
}

/// The number of a constant's record: 24 bits, the top byte first.
pub fn constant_at(record: &[u8]) -> u32 {
    u32::from_be_bytes([0, record[1], record[2], record[3]])
}

/// A 16-bit number, high byte first.
fn number_at(bytes: &[u8], at: usize) -> usize {
    u16::from_be_bytes([bytes[at], bytes[at + 1]]) as usize
}

/// The first record and the count of a variable's entry.
pub fn read_entry(line: &[u8], variable: usize) -> (usize, usize) {
    let at = ENTRY_BYTES * variable;
    (number_at(line, at), number_at(line, at + 2))
}

pub fn write_entry(line: &mut [u8], variable: usize, first: usize, count: usize) {
    let at = ENTRY_BYTES * variable;
    line[at..at + 2].copy_from_slice(&(first as u16).to_be_bytes());
    line[at + 2..at + 4].copy_from_slice(&(count as u16).to_be_bytes());
}

/// Sorts lines: by variable 0, then 1, to the last; open before assigned; two values by their bytes.
pub fn sort_lines(lines: &mut [Line]) {
    lines.sort_by_cached_key(|line| line.clone().map(|entry| entry.map(|value| encode(&value))));
}

/// The bytes of sorted lines and of their values, each value behind the one before it.
pub fn lay_out(lines: &[Line]) -> (Vec<u8>, Vec<u8>) {
    let mut line_bytes = vec![0; lines.len() * LINE_BYTES];
    let mut value_bytes = Vec::new();
    for (line, bytes) in lines.iter().zip(line_bytes.chunks_mut(LINE_BYTES)) {
        for (variable, entry) in line.iter().enumerate() {
            if let Some(value) = entry {
                write_entry(bytes, variable, value_bytes.len() / RECORD_BYTES, value.size());
                value_bytes.extend(encode(value));
            }
        }
    }
    (line_bytes, value_bytes)
}

/// The lines that stand in a line table; the refusal of the first value that isn't one.
pub fn read_lines(lines: &[u8], values: &[u8]) -> Result<Vec<Line>, Refusal> {
    let read_line = |line: &[u8]| {
        let mut entries = Line::default();
        for (variable, entry) in entries.iter_mut().enumerate() {
            if read_entry(line, variable) != (0, 0) {
                *entry = Some(read_value(line, values, variable)?);
            }
        }
        Ok(entries)
    };
    lines.chunks(LINE_BYTES).map(read_line).collect()
}
