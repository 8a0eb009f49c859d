//! A shelf of recipes: what calls take on one that is full, against the same in plain Rust.

use crate::library::TABLE;
use crate::shelves::{Plain, Proved, Shelf, BUOYS};
use crate::terms::{bytes_of, parse, record, APPLICATION, CONSTANT, RECIPE_RECORDS};
use crate::timing::{in_turns, once, Timed};
use std::hint::black_box;

/// What is timed.
#[derive(Clone, Copy)]
enum Task {
    PutFirst,
    PutLast,
    TakeOut,
    Read,
    Count,
}

/// With the calls that each makes.
const TASKS: [(Task, &str, usize); 5] = [
    (Task::PutFirst, "put at buoy 0, all others move", 1),
    (Task::PutLast, "put at buoy 199, none moves", 1),
    (Task::TakeOut, "take-out of all, from buoy 0 on", BUOYS),
    (Task::Read, "read of buoy 199", 1),
    (Task::Count, "count", 1),
];

/// A shelf, the full one that it begins as, and what is put and read.
struct Subject<S> {
    shelf: S,
    full: S,
    /// Recipes of 63 and of 65 records, which are put by turns; either has room.
    by_turns: [Vec<u8>; 2],
    turn: usize,
    output: Vec<u8>,
}

impl<S: Shelf> Subject<S> {
    fn new() -> Subject<S> {
        let mut full = S::new();
        for (buoy, recipe) in recipes().iter().enumerate() {
            full.put(buoy, recipe);
        }
        let by_turns = [recipe(63, 0), recipe(65, 0)];
        let mut subject = Subject { shelf: S::new(), full, by_turns, turn: 1, output: vec![0; 4 * RECIPE_RECORDS] };
        subject.refill();
        subject
    }

    fn refill(&mut self) {
        self.shelf.copy_from(&self.full);
    }

    fn run(&mut self, task: Task) -> i64 {
        let shelf = &mut self.shelf;
        match task {
            Task::PutFirst | Task::PutLast => {
                self.turn = 1 - self.turn;
                shelf.put(if matches!(task, Task::PutFirst) { 0 } else { BUOYS - 1 }, &self.by_turns[self.turn])
            }
            Task::TakeOut => {
                let answers = (0..BUOYS).map(|buoy| shelf.take_out(buoy)).sum();
                // one copy for 200 calls
                shelf.copy_from(&self.full);
                answers
            }
            Task::Read => shelf.read(BUOYS - 1, &mut self.output),
            Task::Count => shelf.count(),
        }
    }

    /// All that it holds, and its count.
    fn contents(&self) -> (Vec<Vec<u8>>, i64) {
        let mut output = vec![0; 4 * RECIPE_RECORDS];
        let mut read = |buoy| {
            let records = self.shelf.read(buoy, &mut output);
            output[..4 * records.max(0) as usize].to_vec()
        };
        ((0..BUOYS).map(&mut read).collect(), self.shelf.count())
    }

    /// Whether a full shelf has what was put, answers as it must, and has what is left then.
    fn is_right(&mut self) -> bool {
        let mut recipes = recipes();
        let is_full = recipes.concat().len() == TABLE && self.contents() == (recipes.clone(), BUOYS as i64);
        let is_answered = self.answers() == ANSWERS;
        recipes[0] = recipe(95, 0);
        recipes[7].clear();
        let is_changed = self.contents() == (recipes, BUOYS as i64 + 2);
        self.refill();
        is_full && is_answered && is_changed
    }

    /// Calls of a full shelf, most of which are refused.
    fn answers(&mut self) -> Vec<i64> {
        let shelf = &mut self.shelf;
        let (longest, with_variable, open) = (recipe(95, 0), bytes_of(&parse("@ k1 p0")), bytes_of(&parse("@ k1 #0")));
        let redex = bytes_of(&parse(r"\ @ k1 #0"));
        vec![
            shelf.put(BUOYS, &longest),
            shelf.put(0, &longest[..6]),
            shelf.put(0, &with_variable),
            shelf.put(0, &open),
            shelf.put(0, &redex),
            shelf.put(0, &longest),
            shelf.take_out(BUOYS),
            shelf.read(BUOYS, &mut self.output),
            shelf.read(0, &mut self.output[..4]),
            shelf.take_out(7),
            shelf.take_out(7),
            shelf.read(7, &mut self.output),
            shelf.put(0, &longest),
        ]
    }
}

/// What `answers` has to give.
const ANSWERS: [i64; 13] = [-18, -4, -5, -6, -7, -19, -18, -18, -13, 1, -18, -18, 1];

/// A closed normal term of so many records, an odd number: applications, and constants from `first` on.
fn recipe(records: usize, first: usize) -> Vec<u8> {
    let mut term = vec![record(APPLICATION, 0); records / 2];
    term.extend((first..=first + records / 2).map(|number| record(CONSTANT, number as u32)));
    bytes_of(&term)
}

/// 200 recipes that fill the table to its last record.
fn recipes() -> Vec<Vec<u8>> {
    let records = |buoy| if buoy == 0 { 65 } else { 81 + 2 * (buoy % 2) };
    (0..BUOYS).map(|buoy| recipe(records(buoy), 100 * buoy)).collect()
}

/// Prints the table; yes if every answer was right, and the same in plain Rust.
pub fn print() -> bool {
    println!("\n## Shelf\n");
    println!("A full shelf: 200 recipes of 65 to 83 records, 16,384 together; recipes of 63 and 65 are put there by turns.");
    println!("Median µs per call; the ratio is: plain Rust, which moves slices and takes its own table as good, to the library.\n");
    println!("{:<34} {:>11} {:>11} {:>9}", "call", "library µs", "plain µs", "ratio");
    let (mut proved, mut plain) = (Subject::<Proved>::new(), Subject::<Plain>::new());
    if !proved.is_right() || !plain.is_right() {
        println!("a full shelf's recipes, or a refusal: WRONG");
        return false;
    }
    TASKS.iter().fold(true, |all_right, &(task, name, calls)| measure(task, name, calls, &mut proved, &mut plain) && all_right)
}

/// One row of the table; no, and a message, where an answer is wrong.
fn measure(task: Task, name: &str, calls: usize, proved: &mut Subject<Proved>, plain: &mut Subject<Plain>) -> bool {
    let (answer, plain_answer) = (proved.run(task), plain.run(task));
    if answer <= 0 || answer != plain_answer || proved.contents() != plain.contents() {
        println!("{name}: {answer}, in plain Rust {plain_answer}: WRONG OR DIFFERENT");
        return false;
    }
    let (first, plain_first) = (once(|| proved.run(task)).1, once(|| plain.run(task)).1);
    let times = in_turns(vec![
        Timed::new(first, || {
            black_box(proved.run(task));
        }),
        Timed::new(plain_first, || {
            black_box(plain.run(task));
        }),
    ]);
    let [each, plain_each] = [0, 1].map(|at| times[at].median / calls as f64);
    println!("{name:<34} {each:>11.2} {plain_each:>11.2} {:>9.2}", plain_each / each);
    // The two were not called equally often, so both begin with the same recipe again.
    (proved.turn, plain.turn) = (0, 0);
    let is_same = proved.run(task) == plain.run(task) && proved.contents().0 == plain.contents().0;
    if !is_same {
        println!("{name}: DIFFERENT when it was timed");
    }
    proved.refill();
    plain.refill();
    is_same
}
