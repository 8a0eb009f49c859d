//! Fixed calls of the shelf, with their answers worked out by hand: both sides of each limit, the order of the refusals, and the ceiling
//! of the count.

use super::compare::{compare, compare_all, describe, make, Tables};
use super::*;
use crate::compare::no_difference;
use crate::limits::abstractions;
use crate::random::Random;
use crate::terms::{Term, Term::Constant};

/// A call and its answer.
type Step = (Call, i64);

/// How many calls were compared.
pub fn run() -> Result<usize, String> {
    let random = &mut Random::for_call(0, 0);
    let mut calls = 0;
    for steps in [few_recipes(), full_shelf(), order()] {
        calls += walk(steps, Shelf::default(), Tables::of_new_shelf(random), random)?;
    }
    let count = CEILING - 2;
    calls += walk(ceiling(), Shelf { count, ..Shelf::default() }, layout::with_count(count, random), random)?;
    Ok(calls + counts_of_records(random)?)
}

/// Makes the calls, each on what the one before left; every one is compared, and then all buoys are read.
fn walk(steps: Vec<Step>, shelf: Shelf, tables: Tables, random: &mut Random) -> Result<usize, String> {
    let (mut shelf, mut tables, count) = (shelf, tables, steps.len());
    for (shift, (call, answer)) in steps.into_iter().enumerate() {
        let text = describe(&call, &shelf);
        let outcome = shelf.apply(&call);
        assert_eq!(outcome.answer, answer, "{text}");
        compare(&call, &outcome, &mut tables, shift).map_err(|difference| format!("{difference}\n{text}"))?;
        if outcome.is_change(&call) {
            layout::compare_change(&call, &shelf, &mut tables).map_err(|difference| format!("{difference}\n{text}"))?;
        }
    }
    Ok(count + compare_all(&shelf, &tables, random)? as usize)
}

fn few_recipes() -> Vec<Step> {
    let text = |buoy: usize, text: &str| put(buoy, encode(&Term::from_text(text)));
    vec![
        (count(), 0),
        (read(0, 4), -18),
        (take_out(0), -18),
        (text(0, "k1"), 1),
        (read(0, 4), 1),
        (read(0, 0), -13),
        (count(), 1),
        (text(199, r"\ @ k2 @ #0 k16777215"), 1),
        (text(100, "@ k3 k4"), 1),
        (read(199, 24), 6),
        (read(199, 20), -13),
        (read(99, 24), -18),
        (read(200, 24), -18),
        // In the place of a shorter one, of one as long and of a longer one.
        (text(0, "@ @ k1 k2 k3"), 1),
        (text(0, "@ @ k3 k2 k1"), 1),
        (text(0, "k5"), 1),
        (read(0, 65_536), 1),
        (read(100, 12), 3),
        (read(199, 24), 6),
        (count(), 6),
        // What is refused isn't counted.
        (text(0, r"@ \ #0 k1"), -7),
        (take_out(1), -18),
        (count(), 6),
        (take_out(100), 1),
        (take_out(100), -18),
        (read(100, 24), -18),
        (read(199, 24), 6),
        (take_out(0), 1),
        (take_out(199), 1),
        (count(), 9),
        (read(199, 24), -18),
    ]
}

/// 170 recipes of 96 records leave 64.
fn full_shelf() -> Vec<Step> {
    let mut steps: Vec<Step> = (0..170).map(|buoy| (put(buoy, recipe(96)), 1)).collect();
    steps.extend([
        (put(199, recipe(65)), -19),
        (put(199, recipe(64)), 1),
        (put(198, recipe(1)), -19),
        (put(199, recipe(65)), -19),
        (put(199, recipe(64)), 1),
        (put(0, recipe(96)), 1),
        (read(199, 256), 64),
        (put(0, recipe(95)), 1),
        (put(198, recipe(2)), -19),
        (put(198, recipe(1)), 1),
        (put(0, recipe(96)), -19),
        (read(198, 4), 1),
        (read(199, 256), 64),
        (take_out(169), 1),
        (put(169, recipe(97)), -4),
        (put(197, recipe(96)), 1),
        (put(169, recipe(1)), -19),
        (count(), 177),
    ]);
    steps
}

/// Refusals that meet, on a full shelf: buoys 0 to 169 have 96 records each, and buoy 199 has 64.
fn order() -> Vec<Step> {
    let mut steps: Vec<Step> = (0..170).map(|buoy| (put(buoy, recipe(96)), 1)).collect();
    steps.push((put(199, recipe(64)), 1));
    steps.extend(order_of_put());
    steps.extend(order_of_take_out_and_read());
    steps.extend([(short_directory(count()), -8), (count(), 171)]);
    steps
}

/// 18; 8; 4 to 7; 19.
fn order_of_put() -> Vec<Step> {
    let not_normal = || encode(&Term::from_text(r"@ \ #0 k1"));
    vec![
        (put(200, recipe(1)), -18),
        (put(usize::MAX, recipe(1)), -18),
        (short_directory(put(200, recipe(1))), -18),
        (short_records(put(200, recipe(1))), -18),
        (put(200, vec![]), -18),
        (short_directory(put(0, vec![])), -8),
        (short_records(put(0, vec![])), -8),
        (short_directory(put(198, recipe(1))), -8),
        (short_records(put(198, recipe(1))), -8),
        (put(198, recipe(97)), -4),
        (put(198, vec![5, 0, 0, 0]), -5),
        (put(198, vec![2, 0, 0, 0]), -6),
        (put(198, not_normal()), -7),
        (put(198, recipe(1)), -19),
    ]
}

/// 18 of the number; 8 of the directory; 18 without a recipe; 8 of the record table. Of a read then 8 of the output; 13.
fn order_of_take_out_and_read() -> Vec<Step> {
    vec![
        (short_records(short_directory(take_out(200))), -18),
        (short_directory(take_out(198)), -8),
        (short_directory(take_out(199)), -8),
        (short_records(take_out(198)), -18),
        (short_records(take_out(199)), -8),
        (short_records(short_directory(read(200, 3))), -18),
        (short_directory(read(198, 3)), -8),
        (short_records(read(198, 3)), -18),
        (read(198, 3), -18),
        (read(198, 65_540), -18),
        (short_records(read(199, 0)), -8),
        (short_directory(read(199, 0)), -8),
        (read(199, 255), -8),
        (read(199, 65_540), -8),
        (read(199, 65_537), -8),
        (read(199, 252), -13),
        (read(199, 256), 64),
    ]
}

/// From two below the ceiling.
fn ceiling() -> Vec<Step> {
    vec![
        (count(), 4_294_967_293),
        (put(7, recipe(3)), 1),
        (count(), 4_294_967_294),
        (take_out(7), 1),
        (count(), 4_294_967_295),
        (put(7, recipe(2)), 1),
        (count(), 4_294_967_295),
        (put(7, recipe(1)), 1),
        (take_out(7), 1),
        (take_out(7), -18),
        (count(), 4_294_967_295),
    ]
}

/// Directories whose counts fill the record table to the last record, and exceed it by one. Document 02 leaves these free; by the
/// contract the second kind gets 8, behind 18 of the number.
fn counts_of_records(random: &mut Random) -> Result<usize, String> {
    let mut directory = vec![0; DIRECTORY_BYTES];
    directory[..64].fill(255);
    directory[64] = 64;
    let mut above = directory.clone();
    above[65] = 1;
    let exact = [(count(), 0), (read(0, 1020), 255), (read(64, 256), 64), (put(64, recipe(65)), -19), (put(65, recipe(1)), -19)];
    let too_many = [(count(), -8), (read(0, 1020), -8), (take_out(66), -8), (put(64, vec![]), -8), (take_out(200), -18)];
    let calls = exact.len() + too_many.len();
    for (directory, steps) in [(directory, exact), (above, too_many)] {
        let mut tables = Tables::new(directory, random.bytes(RECORD_TABLE_BYTES), 0);
        for (call, answer) in steps {
            let (given, _, mut differences) = make(&call, &mut tables, 0);
            differences.extend(tables.differences());
            if given != answer {
                differences.push(format!("answer: expected {answer}, library {given}"));
            }
            no_difference(differences).map_err(|difference| format!("{difference}\n{}", describe(&call, &Shelf::default())))?;
        }
    }
    Ok(calls)
}

/// So many records.
fn recipe(records: usize) -> Vec<u8> {
    encode(&abstractions(records - 1, &Constant(records as u32)))
}

fn put(buoy: usize, recipe: Vec<u8>) -> Call {
    Call { operation: Put, recipe, ..take_out(buoy) }
}

fn take_out(buoy: usize) -> Call {
    let (directory_length, records_length) = (DIRECTORY_BYTES, RECORD_TABLE_BYTES);
    Call { operation: TakeOut, buoy, recipe: Vec::new(), directory_length, records_length, output: Vec::new() }
}

fn read(buoy: usize, output_length: usize) -> Call {
    Call { operation: Read, output: vec![9; output_length], ..take_out(buoy) }
}

fn count() -> Call {
    Call { operation: Count, ..take_out(0) }
}

fn short_directory(call: Call) -> Call {
    Call { directory_length: DIRECTORY_BYTES - 1, ..call }
}

fn short_records(call: Call) -> Call {
    Call { records_length: RECORD_TABLE_BYTES - 1, ..call }
}
