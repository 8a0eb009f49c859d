//! Makes one call of the library on the tables of a shelf and compares the answer and every lent table with what the map says. What a put
//! or a take-out leaves in the shelf's own tables the map can't say: reads show it.

use super::*;
use crate::compare::{hex, no_difference, Lent};
use crate::library;
use crate::random::Random;

/// Stands in tables that are longer than a shelf's.
const FILLING: u8 = 0x55;
/// One record more than the longest recipe has.
const READ_BYTES: usize = (MOST_RECIPE_RECORDS + 1) * RECORD_BYTES;

/// The two tables of a shelf, and what was last seen in them.
pub struct Tables {
    pub directory: Lent,
    pub records: Lent,
    pub seen_directory: Vec<u8>,
    pub seen_records: Vec<u8>,
}

impl Tables {
    /// `shift` sets their addresses.
    pub fn new(directory: Vec<u8>, records: Vec<u8>, shift: usize) -> Tables {
        Tables {
            directory: Lent::new(&directory, shift % 8),
            records: Lent::new(&records, (shift + 3) % 8),
            seen_directory: directory,
            seen_records: records,
        }
    }

    /// Those of a new, empty shelf: the directory is zero, and the record table may have any bytes.
    pub fn of_new_shelf(random: &mut Random) -> Tables {
        Tables::new(vec![0; DIRECTORY_BYTES], random.bytes(RECORD_TABLE_BYTES), random.below(8))
    }

    /// What they have now was seen.
    pub fn see(&mut self) {
        self.seen_directory.copy_from_slice(self.directory.table());
        self.seen_records.copy_from_slice(self.records.table());
    }

    /// What differs from what was last seen.
    pub fn differences(&self) -> Vec<String> {
        let directory = self.directory.difference("directory", &self.seen_directory);
        let records = self.records.difference("records", &self.seen_records);
        directory.into_iter().chain(records).collect()
    }
}

/// A table of another length than a shelf's: a beginning of the shelf's own, or all of it and more.
struct Other {
    lent: Lent,
    bytes: Vec<u8>,
}

impl Other {
    /// Nothing if the length is the shelf's.
    fn of_length(length: usize, own: &[u8], shift: usize) -> Option<Other> {
        (length != own.len()).then(|| {
            let mut bytes = own[..length.min(own.len())].to_vec();
            bytes.resize(length, FILLING);
            Other { lent: Lent::new(&bytes, shift % 8), bytes }
        })
    }
}

/// Calls the library: its answer, the output table, and what it changed that no call may change.
pub fn make(call: &Call, tables: &mut Tables, shift: usize) -> (i64, Lent, Vec<String>) {
    let mut other_directory = Other::of_length(call.directory_length, &tables.seen_directory, shift);
    let mut other_records = Other::of_length(call.records_length, &tables.seen_records, shift + 1);
    let recipe = Lent::new(&call.recipe, (shift + 2) % 8);
    let mut output = Lent::new(&call.output, (shift + 3) % 8);
    let directory = other_directory.as_mut().map_or(&mut tables.directory, |other| &mut other.lent);
    let records = other_records.as_mut().map_or(&mut tables.records, |other| &mut other.lent);
    let answer = match call.operation {
        Put => library::shelf_put(call.buoy, recipe.table(), directory.table_mut(), records.table_mut()),
        TakeOut => library::shelf_take_out(call.buoy, directory.table_mut(), records.table_mut()),
        Read => library::shelf_read(call.buoy, directory.table(), records.table(), output.table_mut()),
        Count => library::shelf_count(directory.table()),
    };
    let differences = [
        recipe.difference("recipe", &call.recipe),
        other_directory.and_then(|other| other.lent.difference("directory", &other.bytes)),
        other_records.and_then(|other| other.lent.difference("records", &other.bytes)),
        // What stands around the shelf's own tables; what stands in them is for the caller to compare.
        tables.directory.difference("directory", tables.directory.table()),
        tables.records.difference("records", tables.records.table()),
    ];
    (answer, output, differences.into_iter().flatten().collect())
}

/// Calls the library; the difference if there is one. Unless a put or a take-out was done, both tables of the shelf stay as they were,
/// byte for byte.
pub fn compare(call: &Call, outcome: &Outcome, tables: &mut Tables, shift: usize) -> Result<(), String> {
    let (answer, output, mut differences) = make(call, tables, shift);
    if answer != outcome.answer {
        differences.push(format!("answer: expected {} {:?}, library {answer}", outcome.answer, outcome.refusals));
    }
    differences.extend(output.difference("output", &outcome.output));
    if !outcome.is_change(call) {
        differences.extend(tables.differences());
    }
    no_difference(differences)
}

/// Reads all buoys, and the count: how many calls that took, or the first difference from the map.
pub fn compare_all(shelf: &Shelf, tables: &Tables, random: &mut Random) -> Result<u64, String> {
    let filling = random.next() as u8;
    for buoy in 0..BUOYS {
        let mut output = Lent::new(&[filling; READ_BYTES], buoy % 8);
        let answer = library::shelf_read(buoy, tables.directory.table(), tables.records.table(), output.table_mut());
        let recipe = shelf.recipes.get(&buoy);
        let expected = recipe.map_or(-18, |recipe| (recipe.len() / RECORD_BYTES) as i64);
        if answer != expected {
            return Err(format!("read of buoy {buoy} among all: expected {expected}, library {answer}"));
        }
        let mut bytes = recipe.map_or(Vec::new(), |recipe| recipe.to_vec());
        bytes.resize(READ_BYTES, filling);
        if let Some(difference) = output.difference("output", &bytes) {
            return Err(format!("read of buoy {buoy} among all: {difference}"));
        }
    }
    let count = library::shelf_count(tables.directory.table());
    if count != shelf.count as i64 {
        return Err(format!("count: expected {}, library {count}", shelf.count));
    }
    no_difference(tables.differences())?;
    Ok(BUOYS as u64 + 1)
}

/// The call, and what the shelf has.
pub fn describe(call: &Call, shelf: &Shelf) -> String {
    let Call { operation, buoy, recipe, directory_length, records_length, output } = call;
    let lengths = format!("directory of {directory_length} bytes, record table of {records_length} bytes");
    let mut text = format!("{operation:?} of the shelf, buoy {buoy}, {lengths}\n");
    if *operation == Put {
        text += &format!("  recipe ({} bytes) {}\n", recipe.len(), hex(&recipe[..recipe.len().min(512)]));
        if let Ok(term) = read_recipe(recipe) {
            text += &format!("    that is {}\n", term.text());
        }
    }
    if *operation == Read {
        text += &format!("  output ({} bytes) {}..\n", output.len(), hex(&output[..output.len().min(64)]));
    }
    let sizes: Vec<String> = shelf.recipes.keys().map(|buoy| format!("{buoy}:{}", shelf.records_of(*buoy))).collect();
    text + &format!("  the shelf: count {}, {} records, buoys with their records {}\n", shelf.count, shelf.records(), sizes.join(" "))
}
