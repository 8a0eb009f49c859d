//! Constants above 65,535, which no timed case has: the library and the baselines have to answer right there too. Nothing is timed.

use crate::cases::Case;
use crate::families::BASELINES;
use crate::measure::{agrees, Baseline};
use std::time::Duration;

/// Patterns and recipes in which constants differ in their top bytes alone, or would stand in another order without them; and the lines of each.
const LISTINGS: [(&str, &str, i64); 7] = [
    ("k16777215", "k16777215", 1),
    ("k1", "k65537", 0),
    ("@ @ k65537 p0 p0", "@ @ k65537 k65538 k131074", 0),
    ("@ p0 k1", "@ @ k65537 k1 k131073", 2),
    ("@ p0 k65537", "@ @ @ k2 k65537 k65537 k65537", 8),
    // p0 is open, then `@ k255 k65536`, the whole recipe, `k255`, `k65536`, `k16777215`
    ("@ p1 p0", "@ k16777215 @ k255 k65536", 6),
    // examples/filter_once
    ("@ @ k65537 @ p1 p0 @ p1 p2", "@ @ k65537 @ k65545 @ k10 k65547 @ k65545 @ k10 k131083", 3),
];

/// Prints which answer is wrong or different, or that none is; yes if none is.
pub fn check(limit: Duration) -> bool {
    let (listings, refusals) = (listings(), refusals());
    let mut all_right = true;
    for case in &listings {
        all_right &= is_right(case, &BASELINES, limit);
    }
    // (c) takes pattern and recipe as good
    for case in &refusals {
        all_right &= is_right(case, &[Baseline::Pruned, Baseline::Bare], limit);
    }
    if all_right {
        println!("constants above 65,535: {} listings and {} refusals, none wrong or different", listings.len(), refusals.len());
    }
    all_right
}

fn is_right(case: &Case, baselines: &[Baseline], limit: Duration) -> bool {
    let agrees = agrees(case, baselines, limit);
    if !agrees {
        println!("{}: WRONG OR DIFFERENT ANSWERS", case.name);
    }
    agrees
}

fn listings() -> Vec<Case> {
    LISTINGS.iter().map(|(pattern, recipe, lines)| Case::written(&format!("{pattern}, {recipe}"), pattern, recipe, *lines)).collect()
}

/// In each a record that is no constant has a second byte that isn't zero. If that were passed over, it would be a good one.
fn refusals() -> Vec<Case> {
    let of_pattern = (0..4).map(|at| {
        let mut case = Case::written(&format!("pattern's record {at}"), r"@ p0 \ #0", "k1", -2);
        case.pattern[4 * at + 1] = 1;
        case
    });
    let of_recipe = [0, 2, 3].map(|at| {
        let mut case = Case::written(&format!("recipe's record {at}"), "p0", r"@ k1 \ #0", -5);
        case.recipe[4 * at + 1] = 1;
        case
    });
    of_pattern.chain(of_recipe).collect()
}
