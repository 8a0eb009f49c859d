//! What the walks met: which answers, which refusals and causes, which cause before which other one, and other events; and what they must
//! have met.

use super::*;
use crate::fail;

/// A run of so many calls, or more, must have met everything.
const LONG_RUN: u64 = 100_000;

/// A row of refusal: its number and what it is about.
type Row = (u8, &'static str);

const RECIPE_ROWS: &[Row] = &[(4, "recipe"), (5, "recipe"), (6, "recipe"), (7, "recipe")];

/// The rows of refusal of each operation, in the documents' order; those of one place never meet.
const ROWS: &[(Operation, &[&[Row]])] = &[
    (Put, &[&[(18, "buoy")], &[(8, "directory")], &[(8, "records")], RECIPE_ROWS, &[(19, "shelf")]]),
    (TakeOut, &[&[(18, "buoy")], &[(8, "directory")], &[(18, "kept")], &[(8, "records")]]),
    (Read, &[&[(18, "buoy")], &[(8, "directory")], &[(18, "kept")], &[(8, "records")], &[(8, "output")], &[(13, "output")]]),
    (Count, &[&[(8, "directory")]]),
];

/// The causes of those rows that have several.
const CAUSES: &[(Operation, u8, &str)] = &[
    (Put, 4, "empty"),
    (Put, 4, "no multiple of 4"),
    (Put, 4, "too long"),
    (Put, 5, "kind above 4"),
    (Put, 5, "second byte, kind 0"),
    (Put, 5, "second byte, kind 1"),
    (Put, 5, "second byte, kind 2"),
    (Put, 5, "second byte, kind 4"),
    (Put, 5, "number not 0"),
    (Put, 5, "variable"),
    (Put, 6, "ends early"),
    (Put, 6, "records left over"),
    (Put, 6, "local without binder"),
    (Read, 8, "no multiple of 4"),
    (Read, 8, "above 65536 bytes"),
];

#[derive(Default)]
pub struct Coverage {
    pub calls: u64,
    pub calls_from_new: u64,
    pub reads_of_all: u64,
    answered: BTreeMap<Operation, u64>,
    causes: BTreeMap<(Operation, Refusal), u64>,
    /// The row that decided, and a later one whose cause held too.
    orders: BTreeMap<(Operation, Row, Row), u64>,
    /// In the order of `events`.
    events: Vec<(&'static str, u64)>,
}

impl Coverage {
    /// `before` and `after` are what the shelf has before and behind the call.
    pub fn count(&mut self, call: &Call, outcome: &Outcome, before: &Shelf, after: &Shelf) {
        self.calls += 1;
        match outcome.refusals.split_first() {
            None => *self.answered.entry(call.operation).or_default() += 1,
            Some((first, others)) => {
                *self.causes.entry((call.operation, *first)).or_default() += 1;
                for other in others {
                    *self.orders.entry((call.operation, row_of(first), row_of(other))).or_default() += 1;
                }
            }
        }
        let happened = [changes(call, outcome, before, after), full(call, outcome, before, after), others(call, outcome, before)].concat();
        for (at, (event, happened)) in happened.into_iter().enumerate() {
            if at == self.events.len() {
                self.events.push((event, 0));
            }
            self.events[at].1 += u64::from(happened);
        }
    }

    pub fn report(&self, walks: u64) {
        let row = |label: &str, count: u64| println!("{label:<60}{count:>9}");
        row("random calls of the shelf", self.calls);
        row("    from a new shelf", self.calls_from_new);
        row("    walks", walks);
        row("    further reads, of all buoys", self.reads_of_all);
        for (operation, count) in &self.answered {
            row(&format!("{operation:?} answered"), *count);
        }
        for (event, count) in &self.events {
            row(event, *count);
        }
        for ((operation, Refusal { number, table, cause }), count) in &self.causes {
            row(&format!("{operation:?} refused {number}, {table}: {cause}"), *count);
        }
        for ((operation, (number, table), (other, other_table)), count) in &self.orders {
            row(&format!("{operation:?} refused {number} ({table}) before {other} ({other_table})"), *count);
        }
    }

    /// In a long run every operation must have been answered, and every event, row and cause have come up, and every two rows together.
    pub fn check(&self) {
        if self.calls < LONG_RUN {
            return;
        }
        let missed = |what: String| -> ! { fail("in the coverage", &format!("no call of the shelf: {what}")) };
        if let Some((event, _)) = self.events.iter().find(|(_, count)| *count == 0) {
            missed(event.to_string());
        }
        for (operation, number, cause) in CAUSES {
            if !self.causes.keys().any(|(of, refusal)| (of, &refusal.number, &refusal.cause) == (operation, number, cause)) {
                missed(format!("{operation:?} refused {number}: {cause}"));
            }
        }
        for (operation, places) in ROWS {
            if !self.answered.contains_key(operation) {
                missed(format!("{operation:?} answered"));
            }
            for (at, rows) in places.iter().enumerate() {
                for row in *rows {
                    if !self.causes.keys().any(|(of, refusal)| (of, row_of(refusal)) == (operation, *row)) {
                        missed(format!("{operation:?} refused {row:?}"));
                    }
                    let later = places[at + 1..].iter().copied().flatten().filter(|other| can_meet(row, other));
                    for other in later {
                        if !self.orders.contains_key(&(*operation, *row, *other)) {
                            missed(format!("{operation:?} refused {row:?} before {other:?}"));
                        }
                    }
                }
            }
        }
    }
}

fn row_of(refusal: &Refusal) -> Row {
    (refusal.number, refusal.table)
}

/// Where there is no recipe no output is too short for it.
fn can_meet(row: &Row, other: &Row) -> bool {
    (row.0, other.0) != (18, 13)
}

/// What can be seen of a call besides the causes of its refusal, and whether it is seen of this one. Here of puts and take-outs.
fn changes(call: &Call, outcome: &Outcome, before: &Shelf, after: &Shelf) -> Vec<(&'static str, bool)> {
    let is_change = outcome.is_change(call);
    let is_put = is_change && call.operation == Put;
    let is_taken_out = is_change && call.operation == TakeOut;
    let (old, new) = (before.records_of(call.buoy), after.records_of(call.buoy));
    let is_replaced = is_put && old > 0;
    let is_between = (1..BUOYS - 1).contains(&call.buoy);
    let is_another_s = before.recipes.iter().any(|(buoy, kept)| *buoy != call.buoy && **kept == call.recipe);
    let has_later = before.recipes.range(call.buoy.saturating_add(1)..).next().is_some();
    vec![
        ("put for a buoy without a recipe", is_put && old == 0),
        ("    with recipes of later buoys", is_put && old == 0 && has_later),
        ("put in the place of a shorter recipe", is_replaced && old < new),
        ("    with recipes of later buoys", is_replaced && old < new && has_later),
        ("put in the place of a longer recipe", is_replaced && old > new),
        ("    with recipes of later buoys", is_replaced && old > new && has_later),
        ("put in the place of a recipe as long", is_replaced && old == new),
        ("    the same", is_replaced && before.recipes.get(&call.buoy) == after.recipes.get(&call.buoy)),
        ("put for buoy 0", is_put && call.buoy == 0),
        ("put for buoy 199", is_put && call.buoy == BUOYS - 1),
        ("put for a buoy between", is_put && is_between),
        ("put of 1 record", is_put && new == 1),
        ("put of 96 records", is_put && new == MOST_RECIPE_RECORDS),
        ("put of a recipe that another buoy has", is_put && is_another_s),
        ("take-out for buoy 0", is_taken_out && call.buoy == 0),
        ("take-out for buoy 199", is_taken_out && call.buoy == BUOYS - 1),
        ("take-out for a buoy between", is_taken_out && is_between),
        ("take-out of the only recipe", is_taken_out && after.recipes.is_empty()),
        ("take-out with recipes of later buoys", is_taken_out && has_later),
        ("count passes 255", is_change && before.count == 0xFF),
        ("count passes 65535", is_change && before.count == 0xFFFF),
        ("count passes 16777215", is_change && before.count == 0xFF_FFFF),
        ("count reaches the ceiling", is_change && before.count == CEILING - 1),
        ("count stays at the ceiling, put", is_put && before.count == CEILING),
        ("count stays at the ceiling, take-out", is_taken_out && before.count == CEILING),
    ]
}

/// The same, of shelves that are full, or would be.
fn full(call: &Call, outcome: &Outcome, before: &Shelf, after: &Shelf) -> Vec<(&'static str, bool)> {
    let is_put = outcome.is_change(call) && call.operation == Put;
    let is_nineteen = outcome.answer == -19;
    let (was_full, is_full) = (before.records() == SHELF_RECORDS, after.records() == SHELF_RECORDS);
    let is_kept = before.recipes.contains_key(&call.buoy);
    let above = if is_nineteen { call.recipe.len() / RECORD_BYTES - before.room(call.buoy) } else { 0 };
    vec![
        ("put that fills the last record", is_put && is_full && !was_full),
        ("    for a buoy without a recipe", is_put && is_full && !was_full && !is_kept),
        ("    in the place of a recipe", is_put && is_full && !was_full && is_kept),
        ("    with a recipe for all 200 buoys", is_put && is_full && !was_full && after.recipes.len() == BUOYS),
        ("put in a full shelf", is_put && was_full),
        ("put that leaves one record", is_put && after.records() == SHELF_RECORDS - 1),
        ("19 by one record", above == 1),
        ("    for a buoy without a recipe", above == 1 && !is_kept),
        ("    in the place of a recipe", above == 1 && is_kept),
        ("    with a full shelf", above == 1 && was_full),
        ("19 by more", above > 1),
        ("take-out from a full shelf", outcome.is_change(call) && call.operation == TakeOut && was_full),
        ("read from a full shelf", outcome.answer > 0 && call.operation == Read && was_full),
        ("read of the last record of a full shelf", {
            let last = before.recipes.last_key_value().map(|(buoy, _)| *buoy);
            outcome.answer > 0 && call.operation == Read && was_full && last == Some(call.buoy)
        }),
    ]
}

/// The same, of reads, counts, lengths and buoys.
fn others(call: &Call, outcome: &Outcome, before: &Shelf) -> Vec<(&'static str, bool)> {
    let records = before.records_of(call.buoy);
    let refused = |number: u8, table: &str| outcome.refusals.first().is_some_and(|refusal| row_of(refusal) == (number, table));
    let is_read = call.operation == Read && outcome.refusals.is_empty();
    let is_counted = call.operation == Count && outcome.refusals.is_empty();
    let spare = call.output.len() as i64 / RECORD_BYTES as i64 - records as i64;
    // A buoy whose low bits are those of one that has a recipe.
    let low = |bits: u32| call.buoy & ((1 << bits) - 1);
    let is_alias = |bits: u32| refused(18, "buoy") && call.buoy != low(bits) && before.recipes.contains_key(&low(bits));
    vec![
        ("read for buoy 0", is_read && call.buoy == 0),
        ("read for buoy 199", is_read && call.buoy == BUOYS - 1),
        ("read for a buoy between", is_read && (1..BUOYS - 1).contains(&call.buoy)),
        ("read to the last record of the output", is_read && spare == 0),
        ("read with bytes behind what is written", is_read && spare > 0),
        ("read into 16384 records", is_read && call.output.len() == MOST_TABLE_BYTES),
        ("13 by one record", refused(13, "output") && spare == -1),
        ("13 with no output at all", refused(13, "output") && call.output.is_empty()),
        ("count of a new shelf", is_counted && outcome.answer == 0),
        ("count above 0", is_counted && outcome.answer > 0),
        ("count at the ceiling", is_counted && outcome.answer == CEILING as i64),
        ("8 of an empty directory", refused(8, "directory") && call.directory_length == 0),
        ("8 of a directory a byte too short", refused(8, "directory") && call.directory_length == DIRECTORY_BYTES - 1),
        ("8 of a directory a byte too long", refused(8, "directory") && call.directory_length == DIRECTORY_BYTES + 1),
        ("8 of a directory above all tables", refused(8, "directory") && call.directory_length > 2 * MOST_TABLE_BYTES),
        ("8 of an empty record table", refused(8, "records") && call.records_length == 0),
        ("8 of a record table a byte too short", refused(8, "records") && call.records_length == RECORD_TABLE_BYTES - 1),
        ("8 of a record table a byte too long", refused(8, "records") && call.records_length == RECORD_TABLE_BYTES + 1),
        ("8 of a record table above all tables", refused(8, "records") && call.records_length > 2 * MOST_TABLE_BYTES),
        ("8 of an output of 65537 bytes", refused(8, "output") && call.output.len() == MOST_TABLE_BYTES + 1),
        ("8 of an output of 65540 bytes", refused(8, "output") && call.output.len() == MOST_TABLE_BYTES + RECORD_BYTES),
        ("18 of buoy 200", refused(18, "buoy") && call.buoy == BUOYS),
        ("18 of the highest number", refused(18, "buoy") && call.buoy == usize::MAX),
        ("18 of a number with the low 8 bits of a buoy's", is_alias(8)),
        ("18 of a number with the low 16 bits of a buoy's", is_alias(16)),
        ("18 of a number with the low 32 bits of a buoy's", is_alias(32)),
    ]
}
