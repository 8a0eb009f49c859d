//! Random calls of the book, compared with the library and counted, and what a long run must have met.

use super::compare::{compare, describe};
use super::*;
use crate::compare::library_listing;
use crate::definition;
use crate::large::{cut_constants, has_large};
use crate::operations::{self, Operation};
use crate::random::Random;
use crate::{fail, Options, MOST_TRIES};
use std::collections::BTreeMap;

/// Keeps the random numbers of these calls apart from those of the other operations.
const SEED: u64 = 0x0B00_C0FF_1CED_2026;
/// The lister may take so many times the steps of a listing for one pair: few pairs take many.
pub const STEPS: usize = 10;
/// A run of so many calls, or more, must have met every event and every cause.
const LONG_RUN: u64 = 20_000;

/// Every refusal number with its table and its cause.
const CAUSES: &[(u8, &str, &str)] = &[
    (1, "left", "empty"),
    (1, "left", "count above 32"),
    (1, "right", "empty"),
    (1, "right", "count above 32"),
    (2, "left", "kind above 4"),
    (2, "left", "second byte, kind 0"),
    (2, "left", "second byte, kind 1"),
    (2, "left", "second byte, kind 2"),
    (2, "left", "second byte, kind 4"),
    (2, "left", "number not 0"),
    (2, "left", "variable too high"),
    (2, "right", "kind above 4"),
    (2, "right", "second byte, kind 0"),
    (2, "right", "second byte, kind 1"),
    (2, "right", "second byte, kind 2"),
    (2, "right", "second byte, kind 4"),
    (2, "right", "number not 0"),
    (2, "right", "variable too high"),
    (3, "left", "ends early"),
    (3, "left", "records left over"),
    (3, "left", "local without binder"),
    (3, "right", "ends early"),
    (3, "right", "records left over"),
    (3, "right", "local without binder"),
    (4, "recipe", "empty"),
    (4, "recipe", "no multiple of 4"),
    (4, "recipe", "too long"),
    (5, "recipe", "kind above 4"),
    (5, "recipe", "second byte, kind 0"),
    (5, "recipe", "second byte, kind 1"),
    (5, "recipe", "second byte, kind 2"),
    (5, "recipe", "second byte, kind 4"),
    (5, "recipe", "number not 0"),
    (5, "recipe", "variable"),
    (6, "recipe", "ends early"),
    (6, "recipe", "records left over"),
    (6, "recipe", "local without binder"),
    (7, "recipe", "not normal"),
    (8, "book", "no multiple of 260"),
    (8, "output", "length"),
    (8, "work", "length"),
    (9, "lines", "above 2048"),
    (10, "values", "above 16384 records"),
    (12, "left", "swept part above 256"),
    (12, "right", "swept part above 256"),
    (12, "right", LATER_SWEEP),
    (12, "whole", "swept part above 256"),
    (12, "whole", LATER_SWEEP),
    (13, "output", "too short for the new recipe"),
    (13, "output", "too short for the recipe given back"),
    (15, "right", "no normal form"),
    (15, "whole", "no normal form"),
    (16, "book", "empty"),
    (16, "book", "above 64 places"),
    (17, "whole", "above 96 records, normal at once"),
    (17, "whole", "above 96 records, swept"),
];

#[derive(Default)]
struct Counts {
    calls: u64,
    pairs: u64,
    /// Pairs that the lister was too slow for, and the calls that had one.
    slow_pairs: u64,
    slow_calls: u64,
    answered: u64,
    /// In the order of `events`.
    events: Vec<(&'static str, u64)>,
    causes: BTreeMap<(u8, &'static str, &'static str), u64>,
}

/// Makes and compares the calls; a difference ends the program.
pub fn run(options: &Options) {
    let steps = options.steps * STEPS;
    let mut counts = Counts::default();
    let numbers = match options.book {
        Some(number) => number..number + 1,
        None => 0..options.books(),
    };
    for number in numbers {
        let mut random = Random::for_call(options.seed ^ SEED, number);
        let call = generate::call(&mut random, steps);
        options.trace(|| format!("call {number} of the book\n{}", describe(&call)));
        let shift = random.below(8);
        let fail = |difference: String| -> ! {
            fail(&format!("in call {number} of the book (seed {})", options.seed), &(difference + "\n" + &describe(&call)))
        };
        let mut slow_pairs = 0;
        let mut list = |left: &Term, part: &Term| {
            list_pair(left, part, steps).unwrap_or_else(|| {
                slow_pairs += 1;
                list_by_library(left, part, shift).unwrap_or_else(|wrong| fail(wrong))
            })
        };
        let outcome = expected(&call, &mut list);
        if let Err(difference) = compare(&call, &outcome, shift) {
            fail(difference);
        }
        counts.slow_pairs += slow_pairs;
        counts.slow_calls += u64::from(slow_pairs > 0);
        count(&call, &outcome, steps, &mut counts);
        if options.book.is_some() {
            println!("call {number} of the book\n{}answer {}, pairs {}", describe(&call), outcome.answer, outcome.pairs);
            return;
        }
    }
    report(&counts);
    check_coverage(&counts);
    println!("all {} random calls of the book equal", counts.calls);
}

/// The library's own listing with full tables, which must pass the definition, for a pair that the lister is too slow for.
fn list_by_library(left: &Term, part: &Term, shift: usize) -> Result<Result<Vec<Line>, Refusal>, String> {
    let call = operations::Call {
        operation: Operation::List,
        pattern: encode(left),
        right: Vec::new(),
        recipe: encode(part),
        lines: vec![9; MOST_TABLE_BYTES],
        values: vec![9; MOST_TABLE_BYTES],
        output: Vec::new(),
        work: vec![9; MOST_TABLE_BYTES],
    };
    Ok(match library_listing(&call, shift)? {
        Ok(lines) => {
            definition::check(left, part, &lines, MOST_TRIES)?;
            Ok(lines)
        }
        Err(refusal) => refuse(refusal.number, refusal.table, "by the library's own listing"),
    })
}

fn count(call: &Call, outcome: &Outcome, steps: usize, counts: &mut Counts) {
    counts.calls += 1;
    counts.pairs += outcome.search.pairs;
    match outcome.refusal {
        Some(Refusal { number, table, cause }) => *counts.causes.entry((number, table, cause)).or_default() += 1,
        None => counts.answered += 1,
    }
    for (at, (event, happened)) in events(call, outcome).into_iter().chain(large_events(call, outcome, steps)).enumerate() {
        if at == counts.events.len() {
            counts.events.push((event, 0));
        }
        counts.events[at].1 += u64::from(happened);
    }
}

/// What can be seen of a call besides the cause of its refusal, and whether it is seen of this one.
fn events(call: &Call, outcome: &Outcome) -> Vec<(&'static str, bool)> {
    let Search { pairs, passed_over, is_hopeless, used } = &outcome.search;
    let number = outcome.refusal.map_or(0, |refusal| refusal.number);
    let is_answered = number == 0;
    let is_listing_refused = number == 9 || number == 10;
    let refused = used.as_ref().filter(|_| !is_answered);
    let used = used.as_ref().filter(|_| is_answered);
    let is_used = |test: fn(&Used) -> bool| used.is_some_and(test);
    let right = |least: usize, most: usize| used.and_then(|used| used.right_sweeps).is_some_and(|sweeps| (least..=most).contains(&sweeps));
    let whole = |least: usize, most: usize| used.and_then(|used| used.whole_sweeps).is_some_and(|sweeps| (least..=most).contains(&sweeps));
    vec![
        ("no pair is used", is_answered && used.is_none()),
        ("a pair is used", used.is_some()),
        ("    of the whole", is_used(|used| used.role == Role::Whole)),
        ("    of a head", is_used(|used| used.role == Role::Head)),
        ("    of an argument", is_used(|used| used.role == Role::Argument)),
        ("    of a body", is_used(|used| used.role == Role::Body)),
        ("    of a part below an abstraction", is_used(|used| used.depth > 0)),
        ("    of the first rule", is_used(|used| used.rule == 0)),
        ("    of a later rule", is_used(|used| used.rule > 0)),
        ("    of a rule at place 32 or later", is_used(|used| used.rule >= 32)),
        ("    with line 0 of several", is_used(|used| used.lines > 1)),
        ("    with a variable filled with k0", is_used(|used| used.is_filled)),
        ("    behind a rule whose left side lacks a variable", used.is_some() && passed_over.for_lacking > 0),
        ("    behind a rule that leaves a variable open", used.is_some() && passed_over.for_open > 0),
        ("    behind a rule that has it in a later line only", used.is_some() && passed_over.with_later_line > 0),
        ("    the right side after 1 sweep", right(1, 1)),
        ("    the right side after 2 sweeps", right(2, 2)),
        ("    the right side after 3 to 9 sweeps", right(3, 9)),
        ("    the right side after 10 to 63 sweeps", right(10, MOST_SWEEPS - 1)),
        ("    the right side after 64 sweeps", right(MOST_SWEEPS, MOST_SWEEPS)),
        ("    the whole normal at once", whole(0, 0)),
        ("    the whole after 1 sweep", whole(1, 1)),
        ("    the whole after 2 sweeps", whole(2, 2)),
        ("    the whole after 3 to 9 sweeps", whole(3, 9)),
        ("    the whole after 10 to 63 sweeps", whole(10, MOST_SWEEPS - 1)),
        ("    the whole after 64 sweeps", whole(MOST_SWEEPS, MOST_SWEEPS)),
        ("    the new recipe of 96 records", used.is_some() && outcome.answer == MOST_RECIPE_RECORDS as i64),
        ("written to the last record of the output", is_answered && call.output.len() == outcome.answer as usize * RECORD_BYTES),
        ("100 pairs or more", is_answered && *pairs >= 100),
        ("1000 pairs or more", is_answered && *pairs >= 1000),
        ("a book of 64 places", is_answered && call.book.len() == MOST_PLACES * PLACE_BYTES),
        ("a recipe of 96 records", is_answered && call.recipe.len() == MOST_RECIPE_RECORDS * RECORD_BYTES),
        ("1 to 3 of a later rule than the first", (1..=3).contains(&number) && read_rule(&call.book[..PLACE_BYTES]).is_ok()),
        ("9 or 10 at a later pair than the first", is_listing_refused && *pairs > 1),
        ("9 or 10 of a rule that can't be used", is_listing_refused && *is_hopeless),
        (
            "12 on the left side with a variable filled with k0",
            number == 12 && refused.is_some_and(|used| used.is_filled && used.right_sweeps.is_none()),
        ),
    ]
}

/// The same, of constants above 65,535.
fn large_events(call: &Call, outcome: &Outcome, steps: usize) -> [(&'static str, bool); 6] {
    let is_answered = outcome.refusal.is_none();
    let used = outcome.search.used.as_ref().filter(|_| is_answered);
    let rule = used.map(|used| read_rule(&call.book[used.rule * PLACE_BYTES..][..PLACE_BYTES]).expect("it was valid"));
    let in_side = |side: fn(Rule) -> Term| rule.clone().is_some_and(|rule| has_large(&encode(&side(rule))));
    let in_recipe = is_answered && has_large(&call.recipe);
    let in_output = is_answered && has_large(&outcome.output[..outcome.answer as usize * RECORD_BYTES]);
    [
        ("no pair is used, constants above 65535 in the recipe", used.is_none() && in_recipe),
        ("a pair is used, constants above 65535 in the recipe", used.is_some() && in_recipe),
        ("    in the left side", in_side(|rule| rule.left)),
        ("    in the right side", in_side(|rule| rule.right)),
        ("    in the new recipe", used.is_some() && in_output),
        ("the answer or the pairs hang on top bytes", is_answered && hangs_on_top_bytes(call, outcome, steps)),
    ]
}

/// Whether the answer or the pairs would be others if the top bytes of constants were zero. Not if that would take the lister too long.
fn hangs_on_top_bytes(call: &Call, outcome: &Outcome, steps: usize) -> bool {
    let mut cut = call.clone();
    cut_constants(&mut cut.book);
    cut_constants(&mut cut.recipe);
    if (&cut.book, &cut.recipe) == (&call.book, &call.recipe) {
        return false;
    }
    let other = expected_within(&cut, steps);
    let is_too_slow = other.refusal.is_some_and(|refusal| refusal.cause == TOO_MANY_STEPS);
    !is_too_slow && (other.answer, other.pairs) != (outcome.answer, outcome.pairs)
}

fn report(counts: &Counts) {
    let row = |label: &str, count: u64| println!("{label:<60}{count:>9}");
    row("random calls of the book", counts.calls);
    row("answered", counts.answered);
    for (event, count) in &counts.events {
        row(event, *count);
    }
    for ((number, table, cause), count) in &counts.causes {
        row(&format!("refused {number}, {table}: {cause}"), *count);
    }
    println!(
        "{} pairs; in {} calls the lister was too slow for a pair, {} pairs in all: there the library's own listing, set against the definition",
        counts.pairs, counts.slow_calls, counts.slow_pairs
    );
}

/// In a long run every event and every cause must have come up.
fn check_coverage(counts: &Counts) {
    if counts.calls < LONG_RUN {
        return;
    }
    for (event, count) in &counts.events {
        if *count == 0 {
            fail("in the coverage", &format!("no call of the book: {event}"));
        }
    }
    for cause in CAUSES {
        if !counts.causes.contains_key(cause) {
            fail("in the coverage", &format!("no call of the book was refused with {cause:?}"));
        }
    }
}
