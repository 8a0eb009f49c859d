//! Calls with constants of 24 bits: the ends of their range, constants that differ in one byte, order by the top byte, and second bytes that aren't zero.

use super::*;
use crate::cases::{compare_listing, ListCase};

/// The ends of 16 and of 24 bits, and numbers that differ in the low, the high or the top byte alone.
const NUMBERS: [u32; 10] = [0, 1, 256, 65_535, 65_536, 65_537, 65_792, 131_073, 16_711_681, 16_777_215];

/// The top byte decides the order of the last two lines; the low 16 bits alone would turn it round.
#[rustfmt::skip]
const ORDERED: [ListCase; 3] = [
    ("@ p1 p0", "@ k65536 k2", &[
        &[(1, r"\ @ k65536 k2")],
        &[(0, "@ k65536 k2"), (1, r"\ #0")],
        &[(0, "k2"), (1, "k65536")],
        &[(0, "k65536"), (1, r"\ @ #0 k2")],
    ]),
    ("@ p1 p0", "@ k65535 k65536", &[
        &[(1, r"\ @ k65535 k65536")],
        &[(0, "@ k65535 k65536"), (1, r"\ #0")],
        &[(0, "k65535"), (1, r"\ @ #0 k65536")],
        &[(0, "k65536"), (1, "k65535")],
    ]),
    ("@ p1 p0", "@ k16711680 k131073", &[
        &[(1, r"\ @ k16711680 k131073")],
        &[(0, "@ k16711680 k131073"), (1, r"\ #0")],
        &[(0, "k131073"), (1, "k16711680")],
        &[(0, "k16711680"), (1, r"\ @ #0 k131073")],
    ]),
];

/// One of the tables of a call.
type Table = fn(&mut Call) -> &mut Vec<u8>;

/// How many calls were compared.
pub fn run() -> Result<usize, String> {
    assert_eq!(encode(&Constant(66_051)), [3, 1, 2, 3], "the bytes of a constant");
    ORDERED.iter().try_for_each(compare_listing)?;
    let calls = [equal_or_not(), second_bytes()].concat();
    calls.iter().try_for_each(compare_answer)?;
    Ok(ORDERED.len() + calls.len())
}

/// A constant is itself and no other one.
fn equal_or_not() -> Vec<(Call, i64)> {
    let (p0, k9) = (Variable(0), Constant(9));
    let mut calls = Vec::new();
    for first in NUMBERS.map(Constant) {
        for second in NUMBERS.map(Constant) {
            let is_same = first == second;
            let same = i64::from(is_same);
            calls.push((list(&first, &second), same));
            // Beside the line that drops the argument; and with it once or twice in the recipe, as in case 4 of document 01.
            let flexible = application(p0.clone(), first.clone());
            calls.push((list(&flexible, &application(k9.clone(), second.clone())), 1 + same));
            calls.push((list(&flexible, &application(application(k9.clone(), first.clone()), second.clone())), 2 + 2 * same));
            calls.push((check(&p0, &second, &[first.clone()]), same));
            calls.push((rewrite_by(&first, &p0, &second, &[first.clone()]), if is_same { 1 } else { -14 }));
        }
        calls.push((sweep(&p0, &[first]), 1));
    }
    calls
}

/// In one table the second byte of all records of one kind is 1: refused, or for constants answered with these others.
fn second_bytes() -> Vec<(Call, i64)> {
    let pattern = Term::from_text(r"@ @ k1 \ #0 p0");
    let recipe = Term::from_text(r"@ @ k1 \ #0 @ k2 \ #0");
    let values = [Term::from_text(r"@ k2 \ #0")];
    // Each with its answer, and with its answer if there are other constants in one table.
    let sound = [
        (list(&pattern, &recipe), 1, 0),
        (check(&pattern, &recipe, &values), 1, 0),
        (sweep(&pattern, &values), 9, 9),
        (rewrite_by(&pattern, &pattern, &recipe, &values), 9, -14),
    ];
    let tables: [(Table, i64); 3] = [(|call| &mut call.pattern, -2), (|call| &mut call.recipe, -5), (|call| &mut call.values, -11)];
    let mut calls = Vec::new();
    for (call, answer, with_others) in sound {
        for (table, refusal) in tables {
            for kind in 0..=4 {
                calls.extend(with_second_byte(&call, table, kind).map(|call| (call, if kind == CONSTANT { with_others } else { refusal })));
            }
        }
        for kind in 0..=4 {
            let right: Table = |call| &mut call.right;
            calls.extend(with_second_byte(&call, right, kind).map(|call| (call, if kind == CONSTANT { answer } else { -2 })));
        }
        calls.push((call, answer));
    }
    calls
}

/// Nothing if the table has no record of the kind.
fn with_second_byte(call: &Call, table: Table, kind: u8) -> Option<Call> {
    let mut other = call.clone();
    let mut is_other = false;
    for record in table(&mut other).chunks_exact_mut(RECORD_BYTES).filter(|record| record[0] == kind) {
        record[1] = 1;
        is_other = true;
    }
    is_other.then_some(other)
}

fn check(pattern: &Term, recipe: &Term, values: &[Term]) -> Call {
    Call { operation: Operation::Check, recipe: encode(recipe), output: Vec::new(), ..sweep(pattern, values) }
}

fn rewrite_by(left: &Term, right: &Term, recipe: &Term, values: &[Term]) -> Call {
    Call { operation: Operation::Rewrite, right: encode(right), recipe: encode(recipe), ..sweep(left, values) }
}
