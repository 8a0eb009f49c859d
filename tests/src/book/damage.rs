//! Damage to a call of the book: lengths, counts, records and shapes. Several damages together test the order of the refusals.

use super::*;
use crate::damage::damage_term;
use crate::random::Random;

/// Damages one of the tables.
pub fn damage(random: &mut Random, call: &mut Call) {
    match random.below(100) {
        0..=49 => damage_rule(random, &mut call.book),
        50..=69 => damage_term(random, &mut call.recipe, MOST_RECIPE_RECORDS),
        70..=84 => damage_book_length(random, &mut call.book),
        85..=92 => {
            let length = call.output.len();
            let length = random.pick(&[length + 1, length + 2, length + 3, length.saturating_sub(1), MOST_TABLE_BYTES + 1, MOST_TABLE_BYTES + 4]);
            call.output.resize(length, 0x55);
        }
        _ => {
            let length = random.pick(&[0, 1, 4, 32_768, 65_532, 65_535, 65_537, 65_540, 131_072]);
            call.work.resize(length, 0x55);
        }
    }
}

/// Damages one side of a rule: its count alone, or its records and with them the count. Now and then both counts become 0.
fn damage_rule(random: &mut Random, book: &mut [u8]) {
    let places = book.len() / PLACE_BYTES;
    if places == 0 {
        return;
    }
    let at = random.below(places) * PLACE_BYTES;
    let (counts, sides) = book[at..at + PLACE_BYTES].split_at_mut(2 * COUNT_BYTES);
    if random.chance(3) {
        counts.fill(0);
        return;
    }
    let side = random.below(2);
    let count = &mut counts[side * COUNT_BYTES..(side + 1) * COUNT_BYTES];
    let records = &mut sides[side * SIDE_BYTES..(side + 1) * SIDE_BYTES];
    let counted = u16::from_be_bytes([count[0], count[1]]) as usize;
    let new_count = if random.chance(35) {
        random.pick(&[0, 0, 1, 31, 32, 33, 34, 255, 256, 65_535, counted + 256, counted + 1, counted.saturating_sub(1), counted << 8])
    } else {
        let mut table = records[..(counted * RECORD_BYTES).min(SIDE_BYTES)].to_vec();
        damage_term(random, &mut table, MOST_PATTERN_RECORDS);
        let kept = table.len().min(SIDE_BYTES);
        records[..kept].copy_from_slice(&table[..kept]);
        table.len() / RECORD_BYTES
    };
    count.copy_from_slice(&(new_count as u16).to_be_bytes());
}

/// A length that is no multiple of 260, no place, as many places as there may be, or more.
fn damage_book_length(random: &mut Random, book: &mut Vec<u8>) {
    let places = book.len() / PLACE_BYTES;
    let whole = |places: usize| places * PLACE_BYTES;
    let length = match random.below(10) {
        0..=1 => 0,
        2 => random.below(book.len() + 1),
        3 => book.len() + random.between(1, PLACE_BYTES - 1),
        4 => random.pick(&[1, RECORD_BYTES, 256, PLACE_BYTES - 1, PLACE_BYTES + 1, whole(MOST_PLACES) + 1, whole(MOST_PLACES + 1) - 1]),
        5 => whole(MOST_PLACES + 1),
        6 => whole(MOST_PLACES + random.pick(&[1, 2, 64, 200])),
        7 => whole(MOST_PLACES),
        _ => whole(places + 1),
    };
    // What is added repeats the rules, or is anything.
    if places > 0 && random.chance(70) {
        while book.len() < length {
            let (from, to) = (book.len() - whole(places), (book.len() - whole(places) + PLACE_BYTES).min(book.len()));
            book.extend_from_within(from..to);
        }
    }
    while book.len() < length {
        book.extend(random.bytes(PLACE_BYTES));
    }
    book.truncate(length);
}
