//! Compares the static library with an independent implementation of documents 01 and 02, written without its code, on random calls of all
//! operations from a fixed seed: the answer and every byte of every lent table.
//!
//! - terms, sweep, lister: terms as trees, the sweep, and the plain lister (the equations of one-step matching, all subsets, no pruning)
//! - tables, operations: bytes and their validity, and list, check, sweep and rewrite with the refusals in the documents' order
//! - book: the book of rules, with its own calls
//! - shelf: the shelf as a map, with walks of calls from a new shelf, and tables of any bytes
//! - library, compare: the C interface, and one call of it compared
//! - random, palette, generate, damage: random numbers, the constants and variables of a call, random calls, and damage to them
//! - large: which random calls have constants above 65,535, and what hangs on their top byte
//! - cases, limits: fixed calls, the cases 1 to 11 of document 01 and the limits
//! - old_form: calls of the old form, in which constants have 16 bits, and the answers that they got before constants had 24
//! - definition: listings set against the definition of a full listing, by enumerating small values: one in four of those compared, and those that the
//!   plain lister is too slow for
//!
//! Options: calls=N, books=N (calls of the book; unless given, one for eight of the others), shelves=N (calls from new shelves; unless given, as many as of
//! the others; one for five of these on any bytes), seed=N, steps=N (the limit of the plain lister: of a call that needs more the library's own listing is
//! set against the definition, and the call isn't counted as compared), only=N, book=N (the one call of that number, described, of the four operations or of
//! the book), walk=N (the walk of that number, described), trace=FILE (writes each call to the file before it is made: after a crash the file holds the
//! call), old_form=FILE (does nothing but write the file of calls of the old form, with the answers of this library: it was made so with the library as it was
//! before constants had 24 bits).
#![deny(unsafe_code)]

mod book;
mod cases;
mod compare;
mod damage;
mod definition;
mod generate;
mod large;
#[allow(unsafe_code)]
#[rustfmt::skip]
mod library;
mod limits;
mod lister;
mod old_form;
mod operations;
mod palette;
mod random;
mod shelf;
mod sweep;
mod tables;
mod terms;

use operations::{answer_listing, expected, outcome_of, Call, Operation, Outcome};
use random::Random;
use std::collections::BTreeMap;
use std::thread;

/// One listing in this many is set against the definition too.
const EVERY_LISTING: u64 = 4;
/// The stack of the thread that makes the calls of the shelf and of the book: a call takes up to 0.8 MB, and the terms are trees here.
const STACK: usize = 16 << 20;
/// With so many assignments at most.
const MOST_TRIES: usize = 400;

struct Options {
    calls: u64,
    books: Option<u64>,
    shelves: Option<u64>,
    seed: u64,
    steps: usize,
    only: Option<u64>,
    book: Option<u64>,
    walk: Option<u64>,
    trace: Option<String>,
    old_form: Option<String>,
}

impl Options {
    /// How many random calls of the book: unless given, one for eight of the others.
    fn books(&self) -> u64 {
        self.books.unwrap_or(self.calls / 8)
    }

    /// How many random calls of the shelf: unless given, as many as of the others.
    fn shelves(&self) -> u64 {
        self.shelves.unwrap_or(self.calls)
    }

    /// Writes a call to the file of the trace, if there is one.
    fn trace(&self, describe: impl FnOnce() -> String) {
        if let Some(file) = &self.trace {
            std::fs::write(file, describe()).expect("the trace can be written");
        }
    }
}

fn options() -> Options {
    let mut options = Options {
        calls: 200_000,
        books: None,
        shelves: None,
        seed: 20_010_412,
        steps: 20_000,
        only: None,
        book: None,
        walk: None,
        trace: None,
        old_form: None,
    };
    for argument in std::env::args().skip(1) {
        let (name, value) = argument.split_once('=').unwrap_or_else(|| panic!("not name=value: {argument}"));
        let number = || value.parse::<u64>().unwrap_or_else(|_| panic!("no number: {argument}"));
        match name {
            "calls" => options.calls = number(),
            "books" => options.books = Some(number()),
            "shelves" => options.shelves = Some(number()),
            "seed" => options.seed = number(),
            "steps" => options.steps = number() as usize,
            "only" => options.only = Some(number()),
            "book" => options.book = Some(number()),
            "walk" => options.walk = Some(number()),
            "trace" => options.trace = Some(value.to_string()),
            "old_form" => options.old_form = Some(value.to_string()),
            _ => panic!("no such option: {argument}"),
        }
    }
    options
}

const OPERATIONS: [Operation; 4] = [Operation::List, Operation::Check, Operation::Sweep, Operation::Rewrite];

/// The rows of what was written, by how many sweeps gave it: from this number on, up to the next row's.
const SWEEPS: [(usize, &str); 5] =
    [(1, "after 1 sweep"), (2, "after 2 sweeps"), (3, "after 3 to 9 sweeps"), (10, "after 10 to 63 sweeps"), (sweep::MOST_SWEEPS, "after 64 sweeps")];

/// Counts of calls, one for each operation.
type Calls = [u64; 4];

#[derive(Default)]
struct Counts {
    skipped: u64,
    skipped_listings: u64,
    skipped_tries: usize,
    skipped_refusals: u64,
    calls: Calls,
    /// By what was answered (the number orders the rows), then for each operation.
    answers: BTreeMap<(usize, &'static str), Calls>,
    /// By the rows of `SWEEPS`.
    sweeps: [Calls; SWEEPS.len()],
    /// By refusal number.
    refusals: BTreeMap<u8, Calls>,
    /// By refusal number, table and cause.
    causes: BTreeMap<(u8, &'static str, &'static str), Calls>,
    /// Of constants above 65,535.
    large: large::Large,
    listings_by_definition: u64,
    tries_by_definition: usize,
    most_lines: i64,
    longest_value: usize,
}

fn main() {
    let options = options();
    let mut counts = Counts::default();
    if let Some(file) = &options.old_form {
        return old_form::draw::write(file, options.seed, options.steps);
    }
    fixed_calls();
    if options.walk.is_some() || options.trace.is_some() {
        shelf::run(&options);
    }
    if options.walk.is_some() {
        return;
    }
    if options.book.is_some() || options.trace.is_some() {
        book::calls::run(&options);
    }
    if options.book.is_some() {
        return;
    }
    thread::scope(|threads| {
        // beside the others, since either takes long; a trace has one call at a time, so that there they were made before
        let beside = (options.only.is_none() && options.trace.is_none())
            .then(|| thread::Builder::new().stack_size(STACK).spawn_scoped(threads, || run_beside(&options)).expect("a thread"));
        let compared = compare_calls(&options, &mut counts);
        if let Some(beside) = beside {
            beside.join().expect("the calls of the shelf and of the book end");
        }
        if options.only.is_none() {
            report(&counts);
            check_coverage(compared, &counts);
            println!("all {compared} random calls equal");
        }
    });
}

/// The random calls of the shelf and of the book.
fn run_beside(options: &Options) {
    shelf::run(options);
    book::calls::run(options);
}

/// The calls whose answers are known beforehand; a difference ends the program.
fn fixed_calls() {
    match cases::run() {
        Ok(calls) => println!("cases 1 to 11 of document 01: {calls} calls, all equal"),
        Err(difference) => fail("in the cases of document 01", &difference),
    }
    match limits::run() {
        Ok(calls) => println!("calls at the limits: {calls}, all equal"),
        Err(difference) => fail("in the calls at the limits", &difference),
    }
    match book::limits::run() {
        Ok(calls) => println!("calls of the book at its limits: {calls}, all equal"),
        Err(difference) => fail("in the calls of the book at its limits", &difference),
    }
    match shelf::limits::run() {
        Ok(calls) => println!("calls of the shelf at its limits: {calls}, all equal"),
        Err(difference) => fail("in the calls of the shelf at its limits", &difference),
    }
    match old_form::run() {
        Ok(calls) => println!("{calls} calls of the old form answered as before"),
        Err(difference) => fail("in the calls of the old form", &difference),
    }
}

/// Makes the calls of the four operations, and gives how many were compared.
fn compare_calls(options: &Options, counts: &mut Counts) -> u64 {
    // Calls are numbered from 0; skipped ones don't count, so that the number of calls compared is the number asked for.
    let mut compared = 0;
    let mut number = options.only.unwrap_or(0);
    while compared < options.calls {
        let mut random = Random::for_call(options.seed, number);
        let call = generate::call(&mut random, options.steps);
        options.trace(|| format!("call {number}\n{}", compare::describe(&call)));
        let place = format!("in call {number} (seed {})", options.seed);
        let outcome = expected(&call, options.steps);
        let shift = random.below(8);
        match outcome {
            None => {
                counts.skipped += 1;
                if let Err(wrong) = check_skipped(&call, shift, counts) {
                    fail(&place, &format!("{wrong}\n{}", compare::describe(&call)));
                }
            }
            Some(outcome) => {
                if let Err(difference) = compare::compare(&call, &outcome, shift) {
                    fail(&place, &format!("{difference}\n{}", compare::describe(&call)));
                }
                if let Err(wrong) = check_by_definition(&call, &outcome, number, options.steps, counts) {
                    fail(&place, &format!("not a full listing: {wrong}\n{}", compare::describe(&call)));
                }
                count(&call, &outcome, counts);
                counts.large.count(&call, &outcome, options.steps);
                compared += 1;
            }
        }
        if options.only.is_some() {
            println!("call {number}\n{}", compare::describe(&call));
            println!("answer {:?}", expected(&call, options.steps).map(|outcome| outcome.answer));
            break;
        }
        number += 1;
    }
    compared
}

fn fail(place: &str, difference: &str) -> ! {
    println!("DIFFERENCE {place}\n{difference}");
    std::process::exit(1);
}

/// Sets some of the listings against the definition.
fn check_by_definition(call: &Call, outcome: &Outcome, number: u64, steps: usize, counts: &mut Counts) -> Result<(), String> {
    if call.operation != Operation::List || outcome.refusal.is_some() || number % EVERY_LISTING != 0 {
        return Ok(());
    }
    let pattern = tables::read_pattern(&call.pattern, "pattern").expect("it was valid");
    let recipe = tables::read_recipe(&call.recipe).expect("it was valid");
    let mut lines = lister::list(&pattern, &recipe, steps).expect("it was listed before");
    tables::sort_lines(&mut lines);
    let mut cut = lister::list_with_cut(&pattern, &recipe, usize::MAX).expect("no step limit");
    tables::sort_lines(&mut cut);
    if cut != lines {
        return Err("the lister with the cut has other lines".into());
    }
    counts.tries_by_definition += definition::check(&pattern, &recipe, &lines, MOST_TRIES)?;
    counts.listings_by_definition += 1;
    Ok(())
}

/// A call that the plain lister is too slow for. With full tables the library's own listing must pass the definition, and what the call must give with the
/// tables that it has follows from those lines. If even full tables have too little room, the call's own must have too little too.
fn check_skipped(call: &Call, shift: usize, counts: &mut Counts) -> Result<(), String> {
    let full = Call { lines: vec![9; tables::MOST_TABLE_BYTES], values: vec![9; tables::MOST_TABLE_BYTES], ..call.clone() };
    let lines = match compare::library_listing(&full, shift)? {
        Ok(lines) => lines,
        Err(refusal) => {
            counts.skipped_refusals += 1;
            return match compare::library_listing(call, shift)? {
                // 9 comes before 10: too few lines, and then too little room for their values.
                Err(own) if own.number <= refusal.number => Ok(()),
                own => Err(format!("refused {} with full tables, but here {:?}", refusal.number, own.map(|lines| lines.len()))),
            };
        }
    };
    let pattern = tables::read_pattern(&call.pattern, "pattern").expect("it was valid");
    let recipe = tables::read_recipe(&call.recipe).expect("it was valid");
    counts.skipped_tries += definition::check(&pattern, &recipe, &lines, MOST_TRIES)?;
    counts.skipped_listings += 1;
    compare::compare(call, &outcome_of(call, answer_listing(call, &lines)), shift)
}

fn count(call: &Call, outcome: &Outcome, counts: &mut Counts) {
    let operation = call.operation as usize;
    counts.calls[operation] += 1;
    if let Some(refusal) = outcome.refusal {
        counts.refusals.entry(refusal.number).or_default()[operation] += 1;
        counts.causes.entry((refusal.number, refusal.table, refusal.cause)).or_default()[operation] += 1;
        return;
    }
    let answer = match (call.operation, outcome.answer) {
        (Operation::Check, 0) => (0, "no"),
        (Operation::Check, _) => (1, "yes"),
        (Operation::List, 0) => (2, "no line"),
        (Operation::List, 1) => (3, "1 line"),
        (Operation::List, 2) => (4, "2 lines"),
        (Operation::List, 3..=9) => (5, "3 to 9 lines"),
        (Operation::List, 10..=99) => (6, "10 to 99 lines"),
        (Operation::List, _) => (7, "100 lines and more"),
        (_, 1..=9) => (8, "1 to 9 records"),
        (_, 10..=99) => (9, "10 to 99 records"),
        (_, 100..=255) => (10, "100 to 255 records"),
        _ => (11, "256 records"),
    };
    counts.answers.entry(answer).or_default()[operation] += 1;
    if let Some(row) = SWEEPS.iter().rposition(|(least, _)| *least <= outcome.sweeps) {
        counts.sweeps[row][operation] += 1;
    }
    if call.operation == Operation::List {
        counts.most_lines = counts.most_lines.max(outcome.answer);
        for line in outcome.lines.chunks(tables::LINE_BYTES).take(outcome.answer as usize) {
            let longest = (0..terms::VARIABLES).map(|variable| tables::read_entry(line, variable).1).max();
            counts.longest_value = counts.longest_value.max(longest.unwrap_or(0));
        }
    }
}

fn report(counts: &Counts) {
    let row = |label: &str, calls: &Calls| {
        let [list, check, sweep, rewrite] = calls;
        println!("{label:<36}{list:>9}{check:>9}{sweep:>9}{rewrite:>9}{:>9}", calls.iter().sum::<u64>());
    };
    println!("{:<36}{:>9}{:>9}{:>9}{:>9}{:>9}", "random calls", "list", "check", "sweep", "rewrite", "all");
    row("compared", &counts.calls);
    for ((_, answer), calls) in &counts.answers {
        row(answer, calls);
    }
    for ((_, sweeps), calls) in SWEEPS.iter().zip(&counts.sweeps) {
        row(sweeps, calls);
    }
    for (number, calls) in &counts.refusals {
        row(&format!("refused {number}"), calls);
        for ((_, table, cause), calls) in counts.causes.iter().filter(|((of, ..), _)| of == number) {
            row(&format!("    {table}: {cause}"), calls);
        }
    }
    println!("constants above 65535 in");
    for (label, calls) in counts.large.rows() {
        row(&label, calls);
    }
    println!(
        "skipped by the step limit of the plain lister: {}; of these {} listings set against the definition, with {} assignments, and {} refused",
        counts.skipped, counts.skipped_listings, counts.skipped_tries, counts.skipped_refusals
    );
    println!("most lines written {}, longest value in a line {} records", counts.most_lines, counts.longest_value);
    println!(
        "of the listings compared {} set against the definition too, with {} assignments",
        counts.listings_by_definition, counts.tries_by_definition
    );
}

/// In a long run every refusal number of every operation must have come up, and rewrites of every row of `SWEEPS`, 12 on a later sweep than the first, the
/// second byte of every kind in every table, and constants above 65,535 in every table of answered calls.
fn check_coverage(compared: u64, counts: &Counts) {
    if compared < 100_000 {
        return;
    }
    let numbers: [&[u8]; 4] = [
        &[1, 2, 3, 4, 5, 6, 7, 8, 9, 10],
        &[1, 2, 3, 4, 5, 6, 7, 8, 11, 12],
        &[1, 2, 3, 8, 11, 12, 13],
        &[1, 2, 3, 4, 5, 6, 7, 8, 11, 12, 13, 14, 15],
    ];
    for (operation, numbers) in OPERATIONS.iter().zip(numbers) {
        for number in numbers {
            if counts.refusals.get(number).map_or(0, |calls| calls[*operation as usize]) == 0 {
                fail("in the coverage", &format!("no {operation:?} was refused with {number}"));
            }
        }
    }
    for ((_, sweeps), calls) in SWEEPS.iter().zip(&counts.sweeps) {
        if calls[Operation::Rewrite as usize] == 0 {
            fail("in the coverage", &format!("no Rewrite was written {sweeps}"));
        }
    }
    if !counts.causes.contains_key(&(12, "right", operations::LATER_SWEEP)) {
        fail("in the coverage", "no Rewrite was refused with 12 on a later sweep than the first");
    }
    for (number, table) in [(2, "pattern"), (2, "right"), (5, "recipe"), (11, "value")] {
        for (_, cause) in tables::SECOND_BYTE {
            if !counts.causes.contains_key(&(number, table, cause)) {
                fail("in the coverage", &format!("no call was refused with {number} for its {table}: {cause}"));
            }
        }
    }
    if let Some(missing) = counts.large.missing() {
        fail("in the coverage", &missing);
    }
}
