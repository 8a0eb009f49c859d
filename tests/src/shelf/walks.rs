//! Random walks: calls from a new, empty shelf, each handed what the one before left, every one compared with the map. Some begin with
//! another count than 0, such as one near the ceiling.

use super::compare::{compare, compare_all, describe, Tables};
use super::coverage::Coverage;
use super::{generate, layout, Shelf, CEILING};
use crate::random::Random;
use crate::{fail, Options};

/// Keeps the random numbers of these calls apart from those of the other operations.
const SEED: u64 = 0x5E1F_0FB0_0575_2026;
/// All buoys are read whenever so many calls were made, and at the end of a walk.
const READ_ALL: u64 = 500;
/// One walk in so many begins with another count than 0, and has so many calls: where the shelf's recipes go is for the others to show.
const COUNTED: u64 = 6;
const COUNTED_CALLS: u64 = 300;
/// The last counts that fit in one byte, two and three, and the ceiling: such a walk begins with one of them, in turn, or up to two less.
const COUNTS: [u64; 4] = [0xFF, 0xFFFF, 0xFF_FFFF, CEILING];

/// Makes and compares the calls, so many from new shelves as the options say; a difference ends the program.
pub fn run(options: &Options) {
    let mut coverage = Coverage::default();
    let mut number = options.walk.unwrap_or(0);
    while coverage.calls_from_new < options.shelves() {
        walk(options, number, &mut coverage);
        if options.walk.is_some() {
            return;
        }
        number += 1;
    }
    coverage.report(number);
    coverage.check();
    println!("all {} random calls of the shelf as a map says", coverage.calls);
}

/// One walk.
fn walk(options: &Options, number: u64, coverage: &mut Coverage) {
    let random = &mut Random::for_call(options.seed ^ SEED, number);
    let plan = generate::plan(random);
    let is_counted = number % COUNTED == COUNTED - 1;
    let (mut shelf, mut tables) = if is_counted { with_count(number, random) } else { (Shelf::default(), Tables::of_new_shelf(random)) };
    let calls = if is_counted { COUNTED_CALLS } else { plan.calls.min(options.shelves() - coverage.calls_from_new) };
    for at in 0..calls {
        let call = generate::call(random, &plan, &shelf);
        let place = format!("in call {at} of walk {number} of the shelf (seed {})", options.seed);
        options.trace(|| format!("{place}\n{}", describe(&call, &shelf)));
        let before = shelf.clone();
        let outcome = shelf.apply(&call);
        let fail = |difference: String| -> ! { fail(&place, &format!("{difference}\n{}", describe(&call, &before))) };
        if options.walk.is_some() {
            println!("call {at} of walk {number}\n{}answer {}", describe(&call, &before), outcome.answer);
        }
        if let Err(difference) = compare(&call, &outcome, &mut tables, random.below(8)) {
            fail(difference);
        }
        if outcome.is_change(&call) {
            if let Err(difference) = layout::compare_change(&call, &shelf, &mut tables) {
                fail(difference);
            }
        }
        coverage.count(&call, &outcome, &before, &shelf);
        if (at + 1) % READ_ALL == 0 || at + 1 == calls {
            match compare_all(&shelf, &tables, random) {
                Ok(reads) => coverage.reads_of_all += reads,
                Err(difference) => fail(format!("behind the call: {difference}")),
            }
        }
    }
    coverage.calls_from_new += if is_counted { 0 } else { calls };
}

/// An empty shelf with a count, for the walk of this number.
fn with_count(number: u64, random: &mut Random) -> (Shelf, Tables) {
    let count = COUNTS[(number / COUNTED) as usize % COUNTS.len()] - random.below(3) as u64;
    (Shelf { count, ..Shelf::default() }, layout::with_count(count, random))
}
