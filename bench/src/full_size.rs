//! The table of random cases of full size.

use crate::generate::{is_planted, task, CASES};
use crate::limited::{outcomes, Outcome, Task};
use crate::terms::text;
use crate::timing::median;
use std::time::Duration;

/// What one search may take.
pub const LIMIT: Duration = Duration::from_millis(500);
/// What `--part` calls these cases.
pub const PART: &str = "random";

/// The cases for a child.
pub fn tasks(from: usize) -> impl Iterator<Item = Task> {
    (from..CASES).map(task)
}

/// Prints the table, and then so many of the cases that were stopped; yes if no answer was wrong.
pub fn print(shown: usize) -> bool {
    println!("\n## Random full-size cases\n");
    println!("Patterns of 20 to 32 records, recipes of 60 to 96, from a fixed seed. Planted: the recipe is the pattern's swept form under random values.");
    println!(
        "A case is stopped at {} ms of processor time. Median, 99th of a hundred and worst are milliseconds of the cases that ended.\n",
        LIMIT.as_millis()
    );
    let over = format!("over {} s", LIMIT.as_secs_f64());
    println!(
        "{:<10} {:>6} {over:>11} {:>7} {:>10} {:>10} {:>10} {:>8} {:>8} {:>8} {:>10} {:>11}",
        "recipes", "cases", "%", "median", "99th", "worst", "0 lines", "1 line", "more", "refused 9", "refused 10"
    );
    let found = outcomes(PART, CASES);
    print_row("planted", &of_sort(&found, true));
    print_row("unplanted", &of_sort(&found, false));
    print_row("together", &found.iter().collect::<Vec<_>>());
    print_wrong(&found);
    print_slow(&found, shown);
    found.iter().flatten().all(|outcome| outcome.is_right)
}

fn of_sort(found: &[Option<Outcome>], planted: bool) -> Vec<&Option<Outcome>> {
    found.iter().enumerate().filter(|(case, _)| is_planted(*case) == planted).map(|(_, outcome)| outcome).collect()
}

fn print_row(name: &str, found: &[&Option<Outcome>]) {
    let ended: Vec<&Outcome> = found.iter().copied().flatten().collect();
    let mut times: Vec<f64> = ended.iter().map(|outcome| outcome.milliseconds).collect();
    let over = found.len() - ended.len();
    let percent = 100.0 * over as f64 / found.len() as f64;
    let middle = median(&mut times);
    let (high, worst) = (times[(times.len() - 1) * 99 / 100], times[times.len() - 1]);
    let count = |is_one: fn(i64) -> bool| ended.iter().filter(|outcome| is_one(outcome.answer)).count();
    let [none, one, more] = [count(|answer| answer == 0), count(|answer| answer == 1), count(|answer| answer > 1)];
    let [lines, values] = [count(|answer| answer == -9), count(|answer| answer == -10)];
    println!(
        "{name:<10} {:>6} {over:>11} {percent:>7.2} {middle:>10.4} {high:>10.3} {worst:>10.2} {none:>8} {one:>8} {more:>8} {lines:>10} {values:>11}",
        found.len()
    );
}

fn print_wrong(found: &[Option<Outcome>]) {
    for (case, outcome) in found.iter().enumerate() {
        if let Some(Outcome { answer, is_right: false, .. }) = outcome {
            print_case(case, &format!("answer {answer}: WRONG"));
        }
    }
}

/// The first `shown` cases that were stopped, and the slowest of the others; nothing if none is asked for.
fn print_slow(found: &[Option<Outcome>], shown: usize) {
    if shown == 0 {
        return;
    }
    let stopped = (0..found.len()).filter(|&case| found[case].is_none());
    stopped.take(shown).for_each(|case| print_case(case, &format!("over {} ms", LIMIT.as_millis())));
    let ended = found.iter().enumerate().filter_map(|(case, outcome)| outcome.as_ref().map(|outcome| (case, outcome.milliseconds)));
    if let Some((case, time)) = ended.max_by(|one, other| one.1.total_cmp(&other.1)) {
        print_case(case, &format!("{time:.2} ms, the slowest that ended"));
    }
}

fn print_case(case: usize, remark: &str) {
    let Task { pattern, recipe, .. } = task(case);
    let sort = if is_planted(case) { "planted" } else { "unplanted" };
    println!("\ncase {case}, {sort}, {remark}\n  pattern {}\n  recipe  {}", text(&pattern), text(&recipe));
}
