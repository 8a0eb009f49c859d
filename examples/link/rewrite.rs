//! rewrite FOLDER: applies a rule to a recipe by the first match, and prints what rewrite.c prints.
//!
//! From the top of the repository: rustc --edition 2021 -O examples/link/rewrite.rs -L crates/exports/out -l static=exports -o rewrite
use std::process::ExitCode;

// include/onestep.h, in Rust: each table is a pointer and a length in bytes.
#[rustfmt::skip]
extern "C" {
    fn onestep_list(
        pattern: *const u8, pattern_length: usize, recipe: *const u8, recipe_length: usize, lines: *mut u8, lines_length: usize,
        values: *mut u8, values_length: usize, work: *mut u8, work_length: usize,
    ) -> i64;
    fn onestep_rewrite(
        left: *const u8, left_length: usize, right: *const u8, right_length: usize, recipe: *const u8, recipe_length: usize, line: *const u8,
        line_length: usize, values: *const u8, values_length: usize, output: *mut u8, output_length: usize, work: *mut u8, work_length: usize,
    ) -> i64;
}

const RECORD: usize = 4;
const ENTRY: usize = 4;
const VARIABLES: usize = 8;
const LINE: usize = ENTRY * VARIABLES;
const TABLE: usize = 65_536;

const CAUSES: [&str; 19] = [
    "the pattern or right side has no record, more than 32, or a record cut short",
    "a record of the pattern or right side is bad",
    "the pattern or right side is not one term, or a local has no binder",
    "the recipe has no record, more than 96, or a record cut short",
    "a record of the recipe is bad, or a variable",
    "the recipe is not one term, or a local has no binder",
    "the recipe is not normal",
    "a lent table has a wrong length",
    "there are more matches than the line table has room for",
    "the values of the matches need more room than the value table has",
    "a variable has no usable value",
    "a swept form is above 256 records",
    "the output table is too short",
    "the line is not a match of the left side",
    "64 sweeps reach no normal form",
    "the book has no place, or more than 64",
    "the new recipe is above 96 records",
    "the shelf has no such buoy, or no recipe of it",
    "the shelf has no room for the recipe",
];

/// A count, or why the operation refused.
fn answer(operation: &str, code: i64) -> Result<usize, String> {
    usize::try_from(code).map_err(|_| format!("{operation} refused {}: {}", -code, CAUSES[(-code - 1) as usize]))
}

/// Safe: Rust keeps the slices alive and apart during the call, and each pointer goes with its own length. The same holds for `rewrite`.
#[rustfmt::skip]
fn list(pattern: &[u8], recipe: &[u8], lines: &mut [u8], values: &mut [u8], work: &mut [u8]) -> Result<usize, String> {
    answer("list", unsafe {
        onestep_list(
            pattern.as_ptr(), pattern.len(), recipe.as_ptr(), recipe.len(), lines.as_mut_ptr(), lines.len(),
            values.as_mut_ptr(), values.len(), work.as_mut_ptr(), work.len(),
        )
    })
}

#[rustfmt::skip]
fn rewrite(left: &[u8], right: &[u8], recipe: &[u8], line: &[u8], values: &[u8], output: &mut [u8], work: &mut [u8]) -> Result<usize, String> {
    answer("rewrite", unsafe {
        onestep_rewrite(
            left.as_ptr(), left.len(), right.as_ptr(), right.len(), recipe.as_ptr(), recipe.len(), line.as_ptr(), line.len(),
            values.as_ptr(), values.len(), output.as_mut_ptr(), output.len(), work.as_mut_ptr(), work.len(),
        )
    })
}

/// A 16-bit number, high byte first.
fn number(bytes: &[u8]) -> usize {
    usize::from(bytes[0]) * 256 + usize::from(bytes[1])
}

/// The number of a record, three bytes behind the kind. The first of them is the top byte of a constant, and 0 in every other kind.
fn record_number(record: &[u8]) -> usize {
    usize::from(record[1]) * 65_536 + number(&record[2..])
}

/// A term in document 01's notation.
fn text(records: &[u8]) -> String {
    let word = |r: &[u8]| match (r[0], record_number(r)) {
        (0, _) => "@".to_string(),
        (1, _) => "\\".to_string(),
        (kind, n) => format!("{}{n}", ["#", "k", "p"][usize::from(kind) - 2]),
    };
    records.chunks(RECORD).map(word).collect::<Vec<_>>().join(" ")
}

fn print_line(i: usize, line: &[u8], values: &[u8]) {
    // An entry with a count of 0 is open: any value will do.
    let assigned: Vec<_> = line.chunks(ENTRY).enumerate().filter(|(_, entry)| number(&entry[2..]) > 0).collect();
    for (variable, entry) in &assigned {
        let (first, count) = (number(entry), number(&entry[2..]));
        println!("line {i}: p{variable} = {}", text(&values[RECORD * first..RECORD * (first + count)]));
    }
    if assigned.is_empty() {
        println!("line {i}: assigns nothing");
    }
}

fn apply(left: &[u8], right: &[u8], recipe: &[u8]) -> Result<(), String> {
    let (mut lines, mut values, mut output, mut work) = (vec![0; TABLE], vec![0; TABLE], vec![0; TABLE], vec![0; TABLE]);
    let matches = list(left, recipe, &mut lines, &mut values, &mut work)?;
    println!("matches {matches}");
    for (i, line) in lines.chunks(LINE).take(matches).enumerate() {
        print_line(i, line, &values);
    }
    if matches > 0 {
        let records = rewrite(left, right, recipe, &lines[..LINE], &values, &mut output, &mut work)?;
        println!("rewritten: {}", text(&output[..RECORD * records]));
    }
    Ok(())
}

fn main() -> ExitCode {
    let read = |name| std::env::args().nth(1).and_then(|folder| std::fs::read(format!("{folder}/{name}")).ok());
    let (Some(left), Some(right), Some(recipe)) = (read("pattern.rec"), read("right.rec"), read("recipe.rec")) else {
        eprintln!("usage: rewrite FOLDER (with pattern.rec, right.rec and recipe.rec in it)");
        return ExitCode::from(2);
    };
    match apply(&left, &right, &recipe) {
        Ok(()) => ExitCode::SUCCESS,
        Err(refusal) => {
            println!("{refusal}");
            ExitCode::FAILURE
        }
    }
}
