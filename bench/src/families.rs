//! The tables per family. Each case is measured in a child process, which is ended where the library takes too long.

use crate::cases::Case;
use crate::measure::{measure, Baseline, Tried};
use crate::timing::{median, micros};
use std::env;
use std::process::{Child, Command, Stdio};
use std::thread::sleep;
use std::time::{Duration, Instant};

/// What the parent knows of a case that the library answered. A ratio that is missing means that the limit passed.
struct Found {
    answer: i64,
    agrees: bool,
    best: f64,
    median: f64,
    ratios: [Option<f64>; BASELINES.len()],
}

pub const BASELINES: [Baseline; 3] = [Baseline::Pruned, Baseline::Bare, Baseline::Tuned];
/// What the baselines are called, in their order.
const NAMES: [&str; BASELINES.len()] = ["(a)", "(b)", "(c)"];

/// What a child is given for a case, in time of day: each baseline within its limit of processor time, the repeats, and the rest for the library.
fn patience(limit: Duration) -> Duration {
    12 * limit + Duration::from_secs(10)
}

/// The child's part: prints one line with what the baselines took alone, which is all there is if the library doesn't answer,
/// then measures the case and prints its figures in another.
pub fn run_child(case: &Case, limit: Duration) {
    let tried = BASELINES.map(|baseline| Tried::new(case, baseline, limit));
    let alone = tried.iter().map(|one| if one.is_answered() { format!("{:.2}", micros(one.time)) } else { "limit".to_string() });
    println!("{}", alone.collect::<Vec<String>>().join(" "));
    let row = measure(case, tried.into());
    let ratios = row.ratios().map(|ratio| ratio.map_or("limit".to_string(), |ratio| ratio.to_string()));
    println!("{} {} {} {} {}", row.answer, row.agrees, row.library.best, row.library.median, ratios.collect::<Vec<String>>().join(" "));
}

/// Prints a table for each family and one for all; yes if no answer was wrong or different.
pub fn print(cases: &[Case], limit: Duration) -> bool {
    println!(
        "\nA case on which the library has no answer within {} s says so, with the µs of the baselines in the place of their ratios.",
        patience(limit).as_secs()
    );
    let mut all_right = true;
    let mut summary = Vec::new();
    let mut families: Vec<&str> = cases.iter().map(|case| case.family.as_str()).collect();
    families.dedup();
    for family in families {
        println!("\n## Family {family}\n");
        let columns: String = NAMES.iter().map(|name| format!(" {:>12}", format!("{name} ratio"))).collect();
        println!("{:<28} {:>10} {:>12} {:>12}{columns}", "case", "answer", "library µs", "(best)");
        let mut found = Vec::new();
        for case in cases.iter().filter(|case| case.family == family) {
            let one = ask_child(case, limit);
            print_case(case, &one);
            all_right &= one.as_ref().map_or(true, |one| one.agrees);
            found.extend(one);
        }
        let unanswered = cases.iter().filter(|case| case.family == family).count() - found.len();
        summary.push(summary_row(family, &found, unanswered, limit));
    }
    println!("\n## All families\n");
    let columns: String =
        NAMES.iter().map(|name| format!(" {:>12} {:>10} {:>9}", format!("{name} median"), format!("{name} worst"), format!("{name} limit"))).collect();
    println!("{:<8} {:>6} {:>12} {:>8}{columns}", "family", "cases", "library µs", "limit");
    summary.iter().for_each(|row| println!("{row}"));
    all_right
}

fn print_case(case: &Case, found: &Result<Found, String>) {
    let found = match found {
        Ok(found) => found,
        Err(alone) => {
            let times = alone.split_whitespace().map(|time| if time == "limit" { time.to_string() } else { format!("{time} µs") });
            let columns: String = times.map(|time| format!(" {time:>12}")).collect();
            println!("{:<28} {:>10} {:>12} {:>12}{columns}", case.name, "none", "limit", "");
            return;
        }
    };
    let columns: String = found.ratios.iter().map(|ratio| format!(" {:>12}", ratio.map_or("limit".to_string(), |ratio| format!("{ratio:.2}")))).collect();
    let answer = if found.answer < 0 { format!("refused {}", -found.answer) } else { found.answer.to_string() };
    let remark = if found.agrees { "" } else { "  DIFFERENT ANSWERS" };
    println!("{:<28} {answer:>10} {:>12.2} {:>12.2}{columns}{remark}", case.name, found.median, found.best);
}

/// Median and worst ratios of a family. A search that met the limit counts as if it had ended there, which is too good for it: `>` says so.
/// `unanswered` are the cases on which the library met its limit; they have no ratio.
fn summary_row(family: &str, found: &[Found], unanswered: usize, limit: Duration) -> String {
    let mut library: Vec<f64> = found.iter().map(|one| one.median).collect();
    let columns = |baseline: usize| {
        let least = |one: &Found| one.ratios[baseline].unwrap_or(micros(limit) / one.median);
        let mut ratios: Vec<f64> = found.iter().map(least).collect();
        let middle = median(&mut ratios);
        let is_bound = |figure: f64| found.iter().any(|one| one.ratios[baseline].is_none() && least(one) == figure);
        let shown = |figure: f64| format!("{}{figure:.2}", if is_bound(figure) { ">" } else { "" });
        let limits = found.iter().filter(|one| one.ratios[baseline].is_none()).count();
        format!(" {:>12} {:>10} {limits:>9}", shown(middle), shown(ratios[0]))
    };
    if found.is_empty() {
        return format!("{family:<8} {unanswered:>6} {:>12} {unanswered:>8}", "");
    }
    let columns: String = (0..BASELINES.len()).map(columns).collect();
    format!("{family:<8} {:>6} {:>12.2} {unanswered:>8}{columns}", found.len() + unanswered, median(&mut library))
}

/// Has a child measure the case; gives the child's first line where there is no second.
fn ask_child(case: &Case, limit: Duration) -> Result<Found, String> {
    let program = env::current_exe().expect("this program's own path");
    let mut child = Command::new(program).args(env::args().skip(1)).args(["--case", &case.name]).stdout(Stdio::piped()).spawn().expect("a child process");
    let is_done = is_done(&mut child, patience(limit));
    if !is_done {
        child.kill().expect("the child ended");
    }
    let output = child.wait_with_output().expect("the child's text");
    assert!(!is_done || output.status.success(), "{}: the measurement failed", case.name);
    let text = String::from_utf8(output.stdout).expect("plain text");
    let mut lines = text.lines();
    let alone = lines.next().unwrap_or("").to_string();
    lines.next().and_then(read_row).ok_or(alone)
}

/// The second line that a child printed.
fn read_row(text: &str) -> Option<Found> {
    let words: Vec<&str> = text.split_whitespace().collect();
    let [answer, agrees, best, median, ref ratios @ ..] = words[..] else {
        return None;
    };
    let ratios: Vec<Option<f64>> = ratios.iter().map(|ratio| ratio.parse().ok()).collect();
    Some(Found {
        answer: answer.parse().ok()?,
        agrees: agrees == "true",
        best: best.parse().ok()?,
        median: median.parse().ok()?,
        ratios: ratios.try_into().ok()?,
    })
}

fn is_done(child: &mut Child, patience: Duration) -> bool {
    let start = Instant::now();
    while start.elapsed() < patience {
        if child.try_wait().expect("the child's state").is_some() {
            return true;
        }
        sleep(Duration::from_millis(5));
    }
    false
}
