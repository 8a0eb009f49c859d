//! Patterns with which a plain search takes too long, against recipes with n copies of one leaf. What list must answer is known from how the recipe is made.

use crate::limited::{outcomes, Known, Outcome, Task};
use crate::terms::parse;
use std::time::Duration;

/// What one search may take.
pub const LIMIT: Duration = Duration::from_secs(5);
/// What `--part` calls these cases.
pub const PART: &str = "hard";

struct Case {
    pattern: &'static str,
    /// Copies of the repeated leaf, over the whole recipe.
    copies: usize,
    recipe: String,
    known: Known,
}

/// Prints the table; yes if no answer was wrong.
pub fn print() -> bool {
    println!("\n## Hard families\n");
    println!("Recipes with n copies of one leaf; milliseconds of the library's list. `limit`: not ended within {} s of processor time.", LIMIT.as_secs());
    println!("A pattern that stands twice has first a recipe that it matches, then one that differs from it in the last leaf.\n");
    println!("{:<34} {:>3} {:>10} {:>12}", "pattern", "n", "answer", "ms");
    let cases = cases();
    let found = outcomes(PART, cases.len());
    cases.iter().zip(&found).for_each(|(case, outcome)| print_case(case, outcome));
    found.iter().flatten().all(|outcome| outcome.is_right)
}

/// The cases for a child.
pub fn tasks(from: usize) -> impl Iterator<Item = Task> {
    let task = |case: Case| Task { pattern: parse(case.pattern), recipe: parse(&case.recipe), known: case.known };
    cases().into_iter().skip(from).map(task)
}

fn print_case(case: &Case, outcome: &Option<Outcome>) {
    let Case { pattern, copies, .. } = case;
    let Some(Outcome { answer, milliseconds, is_right }) = outcome else {
        println!("{pattern:<34} {copies:>3} {:>10} {:>12}", "none", "limit");
        return;
    };
    let answer = if *answer < 0 { format!("refused {}", -answer) } else { answer.to_string() };
    println!("{pattern:<34} {copies:>3} {answer:>10} {milliseconds:>12.3}{}", if *is_right { "" } else { "  WRONG" });
}

/// All cases, pattern by pattern.
fn cases() -> Vec<Case> {
    let mut by_size = [6, 20, 40].map(|n| cases_of(n).into_iter());
    let mut all = Vec::new();
    while by_size[0].len() > 0 {
        all.extend(by_size.iter_mut().filter_map(Iterator::next));
    }
    all
}

/// The head applied to `count` arguments, which are taken from the ones given, in turn and from the first again.
fn spine(head: &str, arguments: &[&str], count: usize) -> String {
    let row: Vec<&str> = arguments.iter().copied().cycle().take(count).collect();
    format!("{}{head} {}", "@ ".repeat(count), row.join(" "))
}

/// One case for each pattern, with n copies (6 or more, an even number).
fn cases_of(n: usize) -> Vec<Case> {
    let copies = spine("k2", &["k1"], n);
    let case = |pattern, recipe: &str, known| Case { pattern, copies: n, recipe: recipe.to_string(), known };
    let line = |value: &str| Known::Line(parse(value));
    let mut cases = vec![
        case(r"\ @ p0 #0", &format!(r"\ {}", spine("k2", &["#0"], n)), line(&format!(r"\ {}", spine("k2", &["#0"], n)))),
        case("@ p0 k1", &copies, Known::Answer(if n < 12 { 1 << n } else { -9 })),
        case(r"\ \ @ @ p0 #0 #1", &format!(r"\ \ {}", spine("k2", &["#0", "#1"], n)), line(&format!(r"\ \ {}", spine("k2", &["#1", "#0"], n)))),
        case(r"@ \ k2 k1", &copies, Known::Answer(0)),
        case(r"@ \ @ k3 #0 k1", &spine("k3", &["k1"], n), Known::Answer(0)),
        case(r"@ \ @ @ k1 #0 p0 k2", &format!("@ @ k1 k2 {}", spine("k4", &["k2"], n)), line(&spine("k4", &["k2"], n))),
        case(r"@ \ @ p0 @ k3 #0 k1", &copies, line(&format!(r"\ {copies}"))),
    ];
    cases.extend(cases_of_halves(n));
    // A copy of `\ k1` takes three records of the recipe, so no more than 31 have room.
    let most = n.min(31);
    let recipe = spine("k2", &[r"\ k1"], most);
    for pattern in [r"@ \ @ p0 @ k3 #0 \ k1", r"@ \ @ p0 @ #0 k3 \ k1"] {
        cases.push(Case { pattern, copies: most, known: line(&format!(r"\ {recipe}")), recipe: recipe.clone() });
    }
    cases
}

/// The patterns that use p0 twice. Both uses have room only for half of the copies each; n counts those of both.
fn cases_of_halves(n: usize) -> Vec<Case> {
    let half = |head: &str, arguments: &[&str]| spine(head, arguments, n / 2);
    let case = |pattern, recipe: String, known| Case { pattern, copies: n, recipe, known };
    let function = format!(r"\ {}", half("k4", &["#0"]));
    let pair = format!("@ @ k8 {} {}", half("k5", &["k1", "k2"]), half("k5", &["k3", "k4"]));
    // The last leaf of all is none that p0 could give.
    let clash = format!("{} k5", pair.rsplit_once(' ').expect("several records").0);
    let two_arguments = "@ @ k8 @ @ p0 k1 k2 @ @ p0 k3 k4";
    vec![
        case("@ @ k1 p0 @ p0 k2", format!("@ @ k1 {function} {}", half("k4", &["k2"])), Known::Line(parse(&function))),
        case("@ @ k1 @ p0 k2 @ p0 k3", format!("@ @ k1 {} {}", half("k4", &["k2"]), half("k4", &["k3"])), Known::Line(parse(&function))),
        case(two_arguments, pair, Known::Line(parse(&format!(r"\ \ {}", half("k5", &["#1", "#0"]))))),
        case(two_arguments, clash, Known::Answer(0)),
    ]
}
