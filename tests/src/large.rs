//! Constants above 65,535, which files of the old form don't have: which tables of a call hold some, and whether the answer hangs on their top byte. The random
//! calls are counted by this, so that they can't lose such constants unnoticed.

use crate::operations::{expected, Call, Operation, Outcome};
use crate::tables::*;
use crate::terms::VARIABLES;
use crate::Calls;
use std::collections::BTreeMap;

/// In the place of a table: without the top bytes of constants the answer would be another.
const TOP_BYTES: &str = "hangs on top bytes";

/// What a long run must have met: of an operation and an answer, the tables with such constants.
const WANTED: &[(Operation, &str, &[&str])] = &[
    (Operation::List, "no line", &["pattern", "recipe", TOP_BYTES]),
    (Operation::List, "lines", &["pattern", "recipe", "values", TOP_BYTES]),
    (Operation::Check, "no", &["pattern", "recipe", "values", TOP_BYTES]),
    (Operation::Check, "yes", &["pattern", "recipe", "values"]),
    (Operation::Sweep, "written", &["pattern", "values", "output"]),
    (Operation::Rewrite, "written", &["pattern", "right", "recipe", "values", "output"]),
    (Operation::Rewrite, "no match", &["pattern", "right", "recipe", "values", TOP_BYTES]),
];

/// Calls by answer and table.
#[derive(Default)]
pub struct Large(BTreeMap<(&'static str, &'static str), Calls>);

impl Large {
    pub fn count(&mut self, call: &Call, outcome: &Outcome, steps: usize) {
        let answer = match (call.operation, outcome.answer) {
            (Operation::Rewrite, -14) => "no match",
            (_, ..=-1) => return,
            (Operation::List, 0) => "no line",
            (Operation::List, _) => "lines",
            (Operation::Check, 0) => "no",
            (Operation::Check, _) => "yes",
            _ => "written",
        };
        let mut tables = tables_with_large(call, outcome);
        if !tables.is_empty() && hangs_on_top_bytes(call, outcome, steps) {
            tables.push(TOP_BYTES);
        }
        for table in tables {
            self.0.entry((answer, table)).or_default()[call.operation as usize] += 1;
        }
    }

    /// A label and its calls.
    pub fn rows(&self) -> impl Iterator<Item = (String, &Calls)> {
        self.0.iter().map(|((answer, table), calls)| (format!("    {answer}: {table}"), calls))
    }

    /// Something that a long run must have met and this one hasn't.
    pub fn missing(&self) -> Option<String> {
        let wanted = WANTED.iter().flat_map(|(operation, answer, tables)| tables.iter().map(move |table| (*operation, *answer, *table)));
        let met = |operation: Operation, answer, table| self.0.get(&(answer, table)).is_some_and(|calls| calls[operation as usize] > 0);
        wanted
            .filter(|(operation, answer, table)| !met(*operation, *answer, *table))
            .map(|(operation, answer, table)| format!("no {operation:?} with constants above 65535, {answer}: {table}"))
            .next()
    }
}

/// Whether one of the records is a constant above 65,535.
pub fn has_large(records: &[u8]) -> bool {
    records.chunks_exact(RECORD_BYTES).any(|record| record[0] == CONSTANT && record[1] != 0)
}

/// Leaves the constants their low 16 bits.
pub fn cut_constants(records: &mut [u8]) {
    for record in records.chunks_exact_mut(RECORD_BYTES).filter(|record| record[0] == CONSTANT) {
        record[1] = 0;
    }
}

/// The tables that hold such a constant, of a call whose tables are valid; of values those that are assigned, and of an output what is written.
fn tables_with_large(call: &Call, outcome: &Outcome) -> Vec<&'static str> {
    let count = outcome.answer.max(0) as usize;
    let is_list = call.operation == Operation::List;
    let lines = if is_list { &outcome.lines[..count * LINE_BYTES] } else { &call.lines };
    let has_large_value = lines.chunks(LINE_BYTES).any(|line| {
        (0..VARIABLES).filter(|variable| is_list || call.has_variable(*variable)).any(|variable| {
            let (first, count) = read_entry(line, variable);
            has_large(&outcome.values[first * RECORD_BYTES..(first + count) * RECORD_BYTES])
        })
    });
    let written = if outcome.sweeps > 0 { &outcome.output[..count * RECORD_BYTES] } else { &[] };
    let tables = [
        ("pattern", has_large(&call.pattern)),
        ("right", has_large(&call.right)),
        ("recipe", has_large(&call.recipe)),
        ("values", has_large_value),
        ("output", has_large(written)),
    ];
    tables.into_iter().filter(|(_, has_large)| *has_large).map(|(table, _)| table).collect()
}

/// Whether the answer would be another if the top bytes of constants were zero. Not if that would take the plain lister too long.
fn hangs_on_top_bytes(call: &Call, outcome: &Outcome, steps: usize) -> bool {
    let mut cut = call.clone();
    for table in [&mut cut.pattern, &mut cut.right, &mut cut.recipe, &mut cut.values] {
        cut_constants(table);
    }
    expected(&cut, steps).is_some_and(|other| other.answer != outcome.answer)
}
