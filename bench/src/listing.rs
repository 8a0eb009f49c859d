//! A listing: lines as they are found, sorted, and written as document 01 lays them out; and read back.

use crate::library::{Tables, LINE};
use crate::terms::*;
use std::cmp::Ordering;
use std::ops::Range;

/// For each variable the run of records of its value, or nothing where it is open.
type Line = [Option<Range<usize>>; VARIABLES];

#[derive(Clone)]
pub struct Listing {
    lines: Vec<Line>,
    records: Vec<Record>,
}

impl Listing {
    pub fn new() -> Listing {
        Listing { lines: Vec::new(), records: Vec::new() }
    }

    /// The number of lines.
    pub fn len(&self) -> usize {
        self.lines.len()
    }

    /// The number of records of all values.
    pub fn records(&self) -> usize {
        self.records.len()
    }

    /// Takes a line in, with a copy of its values.
    pub fn keep(&mut self, values: &Values) {
        let line = values.map(|value| {
            let start = self.records.len();
            self.records.extend_from_slice(value?);
            Some(start..self.records.len())
        });
        self.lines.push(line);
    }

    /// The values of a line.
    pub fn values(&self, line: usize) -> Values<'_> {
        std::array::from_fn(|variable| self.lines[line][variable].clone().map(|run| &self.records[run]))
    }

    /// Sorts the lines and writes them and their values; gives the number of lines, or -10 where the values have no room.
    pub fn lay_out(&mut self, out: &mut Tables) -> i64 {
        if self.records.len() * 4 > out.values.len() {
            return -10;
        }
        let records = &self.records;
        self.lines.sort_unstable_by(|one, other| order(one, other, records));
        self.write(out);
        self.lines.len() as i64
    }

    fn write(&self, out: &mut Tables) {
        let mut next = 0;
        for (line, bytes) in self.lines.iter().zip(out.lines.chunks_exact_mut(LINE)) {
            for (entry, four) in line.iter().zip(bytes.chunks_exact_mut(4)) {
                let Some(run) = entry.clone() else {
                    four.fill(0);
                    continue;
                };
                let count = run.len();
                four[..2].copy_from_slice(&(next as u16).to_be_bytes());
                four[2..].copy_from_slice(&(count as u16).to_be_bytes());
                for (record, place) in self.records[run].iter().zip(out.values[4 * next..].chunks_exact_mut(4)) {
                    place.copy_from_slice(&record.to_be_bytes());
                }
                next += count;
            }
        }
    }

    /// Reads back `count` lines that were written.
    pub fn read(tables: &Tables, count: usize) -> Listing {
        let mut listing = Listing { lines: Vec::new(), records: records_of(&tables.values) };
        for bytes in tables.lines.chunks_exact(LINE).take(count) {
            listing.lines.push(std::array::from_fn(|variable| {
                let figure = |at: usize| u16::from_be_bytes([bytes[at], bytes[at + 1]]) as usize;
                let (first, count) = (figure(4 * variable), figure(4 * variable + 2));
                (count > 0).then_some(first..first + count)
            }));
        }
        let used = listing.lines.iter().flatten().flatten().map(|run| run.end).max().unwrap_or(0);
        listing.records.truncate(used);
        listing
    }
}

/// Up by variable 0, then 1, to the last; open comes before assigned; values by bytes.
fn order(one: &Line, other: &Line, records: &[Record]) -> Ordering {
    let value = |run: &Option<Range<usize>>| run.clone().map(|run| &records[run]);
    let entries = one.iter().zip(other);
    entries.map(|(one, other)| value(one).cmp(&value(other))).find(|ordering| ordering.is_ne()).unwrap_or(Ordering::Equal)
}
