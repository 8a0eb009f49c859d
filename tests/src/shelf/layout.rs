//! What the library's contract says beyond document 02, which leaves free where recipes lie (crates/storage/specs/Storage.antt): bytes 0
//! to 199 of the directory are the records of each buoy's recipe, the next four the count, high byte first, and the record table begins
//! with all recipes in buoy order, without gaps. Everything else stays as it was. A shelf that is kept in a file rests on this.

use super::compare::Tables;
use super::*;
use crate::compare::no_difference;
use crate::random::Random;

/// Of the count, in the directory.
const COUNT_AT: usize = BUOYS;
const COUNT_BYTES: usize = 4;

/// Compares all bytes of both tables behind a put or a take-out; `shelf` is what the shelf has then. What was seen before is moved on.
pub fn compare_change(call: &Call, shelf: &Shelf, tables: &mut Tables) -> Result<(), String> {
    tables.seen_directory[call.buoy] = shelf.records_of(call.buoy) as u8;
    write_count(&mut tables.seen_directory, shelf.count);
    let mut at = 0;
    for recipe in shelf.recipes.values() {
        tables.seen_records[at..at + recipe.len()].copy_from_slice(recipe);
        at += recipe.len();
    }
    no_difference(tables.differences().into_iter().map(|difference| format!("layout: {difference}")).collect())
}

/// The tables of an empty shelf whose count isn't 0. What the library has no use for yet is any bytes.
pub fn with_count(count: u64, random: &mut Random) -> Tables {
    let mut directory = random.bytes(DIRECTORY_BYTES);
    directory[..BUOYS].fill(0);
    write_count(&mut directory, count);
    Tables::new(directory, random.bytes(RECORD_TABLE_BYTES), random.below(8))
}

fn write_count(directory: &mut [u8], count: u64) {
    let count = u32::try_from(count).expect("not above the ceiling");
    directory[COUNT_AT..COUNT_AT + COUNT_BYTES].copy_from_slice(&count.to_be_bytes());
}
