//! Two shelves of recipes that answer alike: the library's, and a baseline in plain Rust.

use crate::library::{self, DIRECTORY, TABLE};
use crate::terms::*;

pub const BUOYS: usize = 200;

/// Answers are those of the library's functions: a number, or minus the number of a refusal.
pub trait Shelf {
    fn new() -> Self;
    fn put(&mut self, buoy: usize, recipe: &[u8]) -> i64;
    fn take_out(&mut self, buoy: usize) -> i64;
    fn read(&self, buoy: usize, output: &mut [u8]) -> i64;
    fn count(&self) -> i64;
    /// Becomes a copy of another one.
    fn copy_from(&mut self, other: &Self);
}

/// The library's two tables.
pub struct Proved {
    directory: Vec<u8>,
    table: Vec<u8>,
}

impl Shelf for Proved {
    fn new() -> Proved {
        Proved { directory: vec![0; DIRECTORY], table: vec![0; TABLE] }
    }

    fn put(&mut self, buoy: usize, recipe: &[u8]) -> i64 {
        library::shelf_put(buoy, recipe, &mut self.directory, &mut self.table)
    }

    fn take_out(&mut self, buoy: usize) -> i64 {
        library::shelf_take_out(buoy, &mut self.directory, &mut self.table)
    }

    fn read(&self, buoy: usize, output: &mut [u8]) -> i64 {
        library::shelf_read(buoy, &self.directory, &self.table, output)
    }

    fn count(&self) -> i64 {
        library::shelf_count(&self.directory)
    }

    fn copy_from(&mut self, other: &Proved) {
        self.directory.copy_from_slice(&other.directory);
        self.table.copy_from_slice(&other.table);
    }
}

/// The baseline: counts of records by buoy, and the recipes in buoy order without gaps. It checks buoys and recipes, and takes its own table
/// as good.
pub struct Plain {
    counts: [u8; BUOYS],
    table: Vec<u8>,
    changes: u32,
}

impl Plain {
    fn bytes(counts: &[u8]) -> usize {
        4 * counts.iter().map(|&count| usize::from(count)).sum::<usize>()
    }

    /// Where the buoy's recipe begins, and where it ends.
    fn place(&self, buoy: usize) -> (usize, usize) {
        let from = Plain::bytes(&self.counts[..buoy]);
        (from, from + 4 * usize::from(self.counts[buoy]))
    }

    fn replace(&mut self, buoy: usize, recipe: &[u8]) -> i64 {
        let ((from, behind), end) = (self.place(buoy), Plain::bytes(&self.counts));
        self.table.copy_within(behind..end, from + recipe.len());
        self.table[from..from + recipe.len()].copy_from_slice(recipe);
        self.counts[buoy] = (recipe.len() / 4) as u8;
        self.changes = self.changes.saturating_add(1);
        1
    }

    fn has(&self, buoy: usize) -> bool {
        self.counts.get(buoy).is_some_and(|&count| count > 0)
    }
}

impl Shelf for Plain {
    fn new() -> Plain {
        Plain { counts: [0; BUOYS], table: vec![0; TABLE], changes: 0 }
    }

    fn put(&mut self, buoy: usize, recipe: &[u8]) -> i64 {
        if buoy >= BUOYS {
            return -18;
        }
        if let Some(refusal) = recipe_refusal(recipe) {
            return -refusal;
        }
        let (from, behind) = self.place(buoy);
        if Plain::bytes(&self.counts) - (behind - from) + recipe.len() > TABLE {
            return -19;
        }
        self.replace(buoy, recipe)
    }

    fn take_out(&mut self, buoy: usize) -> i64 {
        if self.has(buoy) {
            self.replace(buoy, &[])
        } else {
            -18
        }
    }

    fn read(&self, buoy: usize, output: &mut [u8]) -> i64 {
        if !self.has(buoy) {
            return -18;
        }
        let (from, end) = self.place(buoy);
        if output.len() < end - from {
            return -13;
        }
        output[..end - from].copy_from_slice(&self.table[from..end]);
        i64::from(self.counts[buoy])
    }

    fn count(&self) -> i64 {
        i64::from(self.changes)
    }

    fn copy_from(&mut self, other: &Plain) {
        self.counts = other.counts;
        self.table.copy_from_slice(&other.table);
        self.changes = other.changes;
    }
}

/// The number of the recipe's refusal, 4 to 7, if it has one.
fn recipe_refusal(recipe: &[u8]) -> Option<i64> {
    if recipe.is_empty() || recipe.len() > 4 * RECIPE_RECORDS || recipe.len() % 4 != 0 {
        return Some(4);
    }
    let records = records_of(recipe);
    let is_bad = |&record: &Record| match kind(record) {
        APPLICATION | ABSTRACTION => number(record) != 0,
        LOCAL => number(record) > 0xffff,
        kind => kind != CONSTANT,
    };
    if records.iter().any(is_bad) {
        Some(5)
    } else if behind(&records, 0, 0) != Some(records.len()) {
        Some(6)
    } else {
        (!is_normal(&records)).then_some(7)
    }
}

/// The place behind the part at `at`, below `depth` binders; nothing if records are missing or a local lacks a binder.
fn behind(records: &[Record], at: usize, depth: u32) -> Option<usize> {
    let &record = records.get(at)?;
    match kind(record) {
        APPLICATION => behind(records, behind(records, at + 1, depth)?, depth),
        ABSTRACTION => behind(records, at + 1, depth + 1),
        LOCAL if number(record) >= depth => None,
        _ => Some(at + 1),
    }
}
