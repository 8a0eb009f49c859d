//! The shelf of document 02 as a plain map: for a call, the answer, the output table, and what the shelf has afterwards. Where recipes
//! lie isn't known here.
//!
//! - compare: one call of the library on the tables of a shelf compared with the map
//! - layout: what the library's contract says beyond the document, each byte of the two tables
//! - generate: random calls from what the shelf has
//! - walks: random calls from a new shelf, each handed what the one before left, compared
//! - coverage: what the walks met, and what they must have met
//! - anything: tables of any bytes, where nothing but safety is compared
//! - limits: fixed calls

mod anything;
mod compare;
mod coverage;
mod generate;
mod layout;
pub mod limits;
mod walks;

use crate::tables::*;
use crate::Options;
use std::collections::BTreeMap;
use std::rc::Rc;
use Operation::*;

/// Buoys are numbered from 0 to one less than this.
const BUOYS: usize = 200;
const SHELF_RECORDS: usize = 16_384;
const RECORD_TABLE_BYTES: usize = SHELF_RECORDS * RECORD_BYTES;
const DIRECTORY_BYTES: usize = 24_576;
/// Where the count stays.
const CEILING: u64 = 4_294_967_295;

/// Makes and compares all random calls of the shelf, or one walk; a difference ends the program.
pub fn run(options: &Options) {
    walks::run(options);
    if options.walk.is_none() {
        anything::run(options);
    }
}

#[derive(Clone, Copy, PartialEq, Eq, PartialOrd, Ord, Debug)]
pub enum Operation {
    Put,
    TakeOut,
    Read,
    Count,
}

/// A call but for the bytes of the shelf's two tables, which are those that the call before left. A length that isn't a shelf's stands
/// for another table. Only put has a recipe, and only read an output table; count has no buoy and no record table.
#[derive(Clone)]
pub struct Call {
    pub operation: Operation,
    pub buoy: usize,
    pub recipe: Vec<u8>,
    pub directory_length: usize,
    pub records_length: usize,
    pub output: Vec<u8>,
}

/// What the caller sees afterwards, but for the shelf's two tables.
pub struct Outcome {
    /// 1 for yes, records written, a count, or minus a refusal number.
    pub answer: i64,
    /// Every cause of a refusal that holds, in the documents' order: the first decides, and the others show that it came first.
    pub refusals: Vec<Refusal>,
    pub output: Vec<u8>,
}

impl Outcome {
    /// A put or a take-out that was done.
    pub fn is_change(&self, call: &Call) -> bool {
        self.refusals.is_empty() && matches!(call.operation, Put | TakeOut)
    }
}

/// All that a shelf has.
#[derive(Clone, Default)]
pub struct Shelf {
    /// Shared, so that a copy of a shelf costs little.
    pub recipes: BTreeMap<usize, Rc<[u8]>>,
    /// Of puts and take-outs done.
    pub count: u64,
}

impl Shelf {
    /// The records of all recipes.
    pub fn records(&self) -> usize {
        self.recipes.values().map(|recipe| recipe.len() / RECORD_BYTES).sum()
    }

    /// The records that the buoy's recipe has, 0 without one.
    pub fn records_of(&self, buoy: usize) -> usize {
        self.recipes.get(&buoy).map_or(0, |recipe| recipe.len() / RECORD_BYTES)
    }

    /// The records that a recipe of the buoy may have beside those of the other buoys.
    pub fn room(&self, buoy: usize) -> usize {
        SHELF_RECORDS - (self.records() - self.records_of(buoy))
    }

    /// What is expected of a call; the shelf then has what it has behind the call.
    pub fn apply(&mut self, call: &Call) -> Outcome {
        let refusals = self.refusals(call);
        let mut output = call.output.clone();
        let answer = match (refusals.first(), call.operation) {
            (Some(refusal), _) => -i64::from(refusal.number),
            (None, Put) => {
                self.recipes.insert(call.buoy, call.recipe.as_slice().into());
                self.count_change()
            }
            (None, TakeOut) => {
                self.recipes.remove(&call.buoy);
                self.count_change()
            }
            (None, Read) => {
                let recipe = &self.recipes[&call.buoy];
                output[..recipe.len()].copy_from_slice(recipe);
                (recipe.len() / RECORD_BYTES) as i64
            }
            (None, Count) => self.count as i64,
        };
        Outcome { answer, refusals, output }
    }

    /// Gives the yes.
    fn count_change(&mut self) -> i64 {
        self.count = CEILING.min(self.count + 1);
        1
    }

    /// Every cause that holds, in the documents' order.
    fn refusals(&self, call: &Call) -> Vec<Refusal> {
        let buoy = cause_if(call.buoy >= BUOYS, 18, "buoy", "above 199");
        let directory = cause_if(call.directory_length != DIRECTORY_BYTES, 8, "directory", "length");
        let records = cause_if(call.records_length != RECORD_TABLE_BYTES, 8, "records", "length");
        let kept = cause_if(!self.recipes.contains_key(&call.buoy), 18, "kept", "no recipe");
        let rows = match call.operation {
            Put => {
                let recipe = read_recipe(&call.recipe).err();
                let is_above = call.recipe.len() / RECORD_BYTES > self.room(call.buoy);
                vec![buoy, directory, records, recipe, cause_if(is_above, 19, "shelf", "no room")]
            }
            TakeOut => vec![buoy, directory, kept, records],
            Read => {
                let is_short = call.output.len() / RECORD_BYTES < self.records_of(call.buoy);
                let is_odd = cause_if(call.output.len() % RECORD_BYTES != 0, 8, "output", "no multiple of 4");
                let is_long = cause_if(call.output.len() > MOST_TABLE_BYTES, 8, "output", "above 65536 bytes");
                let is_short = cause_if(is_short, 13, "output", "too short for the recipe");
                vec![buoy, directory, kept, records, is_odd.or(is_long), is_short]
            }
            Count => vec![directory],
        };
        rows.into_iter().flatten().collect()
    }
}

fn cause_if(holds: bool, number: u8, table: &'static str, cause: &'static str) -> Option<Refusal> {
    holds.then_some(Refusal { number, table, cause })
}
