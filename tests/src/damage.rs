//! Damage to a call, for every refusal number: lengths, records, shapes, entries and values. Several damages together test the order of the refusals.
//! A constant in the place of another damages nothing, and is here too.

use crate::operations::{Call, Operation};
use crate::palette::near;
use crate::random::Random;
use crate::tables::*;
use crate::terms::VARIABLES;

/// Puts a constant that differs in one byte in the place of another. A call that was sound stays so, but what was a match may be none.
pub fn confuse(random: &mut Random, call: &mut Call) {
    let table = match random.below(4) {
        0 => &mut call.pattern,
        1 => &mut call.recipe,
        2 if call.operation == Operation::Rewrite => &mut call.right,
        _ if call.operation == Operation::List => &mut call.recipe,
        _ => &mut call.values,
    };
    if let Some(at) = record_of_kind(random, table, CONSTANT) {
        let other = near(random, constant_at(&table[at..]), CONSTANT_BITS);
        table[at + 1..at + RECORD_BYTES].copy_from_slice(&other.to_be_bytes()[1..]);
    }
}

/// Where one of the records of this kind stands, if there is one.
fn record_of_kind(random: &mut Random, table: &[u8], kind: u8) -> Option<usize> {
    let records = (0..table.len() / RECORD_BYTES).map(|record| record * RECORD_BYTES);
    let places: Vec<usize> = records.filter(|at| table[*at] == kind).collect();
    (!places.is_empty()).then(|| random.pick(&places))
}

/// Damages one of the tables.
pub fn damage(random: &mut Random, call: &mut Call) {
    let has_recipe = call.operation != Operation::Sweep;
    let is_list = call.operation == Operation::List;
    match random.below(100) {
        0..=29 => damage_term(random, &mut call.pattern, MOST_PATTERN_RECORDS),
        30..=49 if has_recipe => damage_term(random, &mut call.recipe, MOST_RECIPE_RECORDS),
        50..=64 if call.operation == Operation::Rewrite => damage_term(random, &mut call.right, MOST_PATTERN_RECORDS),
        65..=74 => damage_lengths(random, call),
        _ if is_list => damage_term(random, &mut call.pattern, MOST_PATTERN_RECORDS),
        75..=86 => damage_entry(random, call),
        _ => damage_values(random, &mut call.values),
    }
}

/// Damages the table of a term: its length, a record, or its shape.
pub fn damage_term(random: &mut Random, table: &mut Vec<u8>, most_records: usize) {
    let records = table.len() / RECORD_BYTES;
    match random.below(13) {
        0 => {
            let length = random.below(table.len() + 1);
            table.truncate(length);
        }
        1 => table.clear(),
        2 => table.truncate(records.saturating_sub(1) * RECORD_BYTES),
        3 => table.extend_from_slice(&[3, 0, 0, 1]),
        4 => {
            let length = random.between(1, 3);
            table.extend(random.bytes(length));
        }
        5 => {
            let most = if random.chance(80) { most_records + random.below(3) } else { random.pick(&[most_records * 2, 16_384, 16_385, 65_536]) };
            while table.len() / RECORD_BYTES < most {
                table.extend_from_slice(&[3, 0, 0, 1]);
            }
        }
        6 => {
            table.splice(0..0, [0, 0, 0, 0]);
        }
        // Exactly as long as it may be or one more: the term below abstractions.
        7 => {
            let most = most_records + random.below(2);
            while table.len() / RECORD_BYTES < most {
                table.splice(0..0, [1, 0, 0, 0]);
            }
        }
        _ => damage_record(random, table),
    }
}

/// Changes one record.
fn damage_record(random: &mut Random, table: &mut [u8]) {
    let records = table.len() / RECORD_BYTES;
    if records == 0 {
        return;
    }
    let any = random.below(records) * RECORD_BYTES;
    if random.chance(25) {
        // The second byte, which is part of a constant's number and has to be zero in all other kinds; of each kind equally often.
        let kind = random.below(5) as u8;
        let at = record_of_kind(random, table, kind).unwrap_or(any);
        table[at] = kind;
        table[at + 1] = if random.chance(50) { 1 } else { random.between(1, 255) as u8 };
        return;
    }
    let record = &mut table[any..any + RECORD_BYTES];
    match random.below(9) {
        0 => record[0] = random.below(5) as u8,
        1 => record[0] = random.between(5, 255) as u8,
        2 => record[2] = random.between(1, 255) as u8,
        3 => record[3] = random.pick(&[1, VARIABLES - 1, VARIABLES, VARIABLES + 1, 255]) as u8,
        4 => record[3] = record[3].wrapping_add(1),
        5 => record.copy_from_slice(&[2, 0, 0, random.below(6) as u8]),
        6 => record.copy_from_slice(&[4, 0, 0, random.below(VARIABLES + 2) as u8]),
        7 => record.copy_from_slice(&[2, 0, 255, 255]),
        _ => record[random.below(RECORD_BYTES)] ^= 1 << random.below(8),
    }
}

/// Gives one of the written tables, the line or the work area another length.
fn damage_lengths(random: &mut Random, call: &mut Call) {
    let odd = |random: &mut Random, length: usize| match random.below(4) {
        0 => length + random.between(1, 3),
        1 => MOST_TABLE_BYTES + random.pick(&[1, RECORD_BYTES, LINE_BYTES, MOST_TABLE_BYTES]),
        2 => length + random.pick(&[RECORD_BYTES, LINE_BYTES / 2, LINE_BYTES - 1]),
        _ => length.saturating_sub(random.between(1, 5)),
    };
    match (random.below(4), call.operation) {
        (0, Operation::List) => {
            let length = odd(random, call.lines.len());
            call.lines.resize(length, 0x55);
        }
        (0, _) => {
            let length = random.pick(&[0, LINE_BYTES - 4, LINE_BYTES - 1, LINE_BYTES + 1, 2 * LINE_BYTES, MOST_TABLE_BYTES]);
            call.lines.resize(length, 0);
        }
        (1, _) => {
            let length = odd(random, call.values.len());
            call.values.resize(length, 0x55);
        }
        (2, Operation::Sweep | Operation::Rewrite) => {
            let length = odd(random, call.output.len());
            call.output.resize(length, 0x55);
        }
        _ => {
            let length = random.pick(&[0, 1, 4, 32_768, 65_532, 65_535, 65_537, 65_540, 131_072]);
            call.work.resize(length, 0x55);
        }
    }
}

/// Changes one entry of the line.
fn damage_entry(random: &mut Random, call: &mut Call) {
    if call.lines.len() != LINE_BYTES {
        return;
    }
    // An entry that points somewhere, if there is one.
    let pointing: Vec<usize> = (0..VARIABLES).filter(|variable| read_entry(&call.lines, *variable).1 > 0).collect();
    let variable = if pointing.is_empty() { random.below(VARIABLES) } else { random.pick(&pointing) };
    let (first, count) = read_entry(&call.lines, variable);
    let records = call.values.len() / RECORD_BYTES;
    let (first, count) = match random.below(10) {
        0 => (0, 0),
        1 => (first.max(1), 0),
        2 => (first + 1, count),
        3 => (first, count + 1),
        4 => (first, count - count.min(1)),
        5 => (65_535, random.between(1, 3)),
        6 => (records, count),
        7 => (records.saturating_sub(count), count),
        8 => (first, 65_535),
        _ => (random.below(65_536), random.below(65_536)),
    };
    write_entry(&mut call.lines, variable, first, count);
}

/// Changes a record of the value table, or cuts the table.
fn damage_values(random: &mut Random, values: &mut Vec<u8>) {
    if random.chance(20) {
        let records = values.len() / RECORD_BYTES;
        values.truncate(random.below(records + 1) * RECORD_BYTES);
    } else {
        damage_record(random, values);
    }
}
