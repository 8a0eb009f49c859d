//! How a table is written in the file of calls of the old form: a row of words, each of four bytes.
//!
//! Records are written as in document 01, the entries of a line and the counts of a rule as `first+count`, an open entry as `-`; four bytes ee, which stand in
//! a book where nothing is read, as `~`; and all other bytes as `x` and their hexadecimal digits. `word*n` is n such words.

use crate::book::PLACE_BYTES;
use crate::compare::hex;
use crate::tables::RECORD_BYTES;

/// Stands in a book where nothing is read.
pub const NO_RECORD: [u8; RECORD_BYTES] = [0xEE; RECORD_BYTES];
const EMPTY: &str = "empty";
/// So many equal words, or more, are written as one.
const LEAST_REPEATED: usize = 4;
/// No number in the file is above this one, so that a wrong one takes no memory.
const MOST: usize = 1 << 20;

/// What the words of a table are.
#[derive(Clone, Copy)]
pub enum Words {
    Records,
    Entries,
    /// Of each place the counts, an entry, and then the records.
    Rules,
}

pub fn text(table: &[u8], words: Words) -> String {
    let word = |(number, bytes): (usize, &[u8])| match words {
        Words::Entries => entry(bytes),
        Words::Rules if number % (PLACE_BYTES / RECORD_BYTES) == 0 => entry(bytes),
        _ => record(bytes),
    };
    let words: Vec<String> = table.chunks(RECORD_BYTES).enumerate().map(word).collect();
    let runs: Vec<String> = words.chunk_by(|word, next| word == next).map(repeated).collect();
    if runs.is_empty() {
        return EMPTY.into();
    }
    runs.join(" ")
}

fn repeated(run: &[String]) -> String {
    if run.len() < LEAST_REPEATED {
        run.join(" ")
    } else {
        format!("{}*{}", run[0], run.len())
    }
}

fn record(bytes: &[u8]) -> String {
    match *bytes {
        [0, 0, 0, 0] => "@".into(),
        [1, 0, 0, 0] => "\\".into(),
        [2, 0, high, low] => format!("#{}", u16::from_be_bytes([high, low])),
        [3, 0, high, low] => format!("k{}", u16::from_be_bytes([high, low])),
        [4, 0, high, low] => format!("p{}", u16::from_be_bytes([high, low])),
        _ => other(bytes),
    }
}

fn entry(bytes: &[u8]) -> String {
    match *bytes {
        [0, 0, 0, 0] => "-".into(),
        [first, low_first, count, low_count] if bytes != NO_RECORD => {
            format!("{}+{}", u16::from_be_bytes([first, low_first]), u16::from_be_bytes([count, low_count]))
        }
        _ => other(bytes),
    }
}

fn other(bytes: &[u8]) -> String {
    if bytes == NO_RECORD {
        "~".into()
    } else {
        format!("x{}", hex(bytes))
    }
}

/// The table that is written so; what is wrong with the text otherwise.
pub fn table(text: &str) -> Result<Vec<u8>, String> {
    if text == EMPTY {
        return Ok(Vec::new());
    }
    let mut table = Vec::new();
    for run in text.split(' ') {
        let (word, count) = run.split_once('*').unwrap_or((run, "1"));
        let bytes = bytes(word).ok_or_else(|| format!("no word: '{run}'"))?;
        table.extend(bytes.repeat(number(count)?));
    }
    Ok(table)
}

pub fn number(digits: &str) -> Result<usize, String> {
    digits.parse().ok().filter(|number| *number <= MOST).ok_or_else(|| format!("no number, or too large: '{digits}'"))
}

fn bytes(word: &str) -> Option<Vec<u8>> {
    let two_bytes = |digits: &str| digits.parse().ok().map(u16::to_be_bytes);
    let of_kind = |kind: u8| two_bytes(&word[1..]).map(|[high, low]| vec![kind, 0, high, low]);
    if let Some((first, count)) = word.split_once('+') {
        return Some([two_bytes(first)?, two_bytes(count)?].concat());
    }
    match word.chars().next()? {
        '@' | '-' if word.len() == 1 => Some(vec![0, 0, 0, 0]),
        '\\' if word.len() == 1 => Some(vec![1, 0, 0, 0]),
        '~' if word.len() == 1 => Some(NO_RECORD.to_vec()),
        '#' => of_kind(2),
        'k' => of_kind(3),
        'p' => of_kind(4),
        'x' => word[1..].as_bytes().chunks(2).map(|digits| u8::from_str_radix(std::str::from_utf8(digits).ok()?, 16).ok()).collect(),
        _ => None,
    }
}
