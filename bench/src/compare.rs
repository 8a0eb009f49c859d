//! Two builds of the library, before and after a change, set against each other on the cases of `cases/`.
//! `compare.sh` compiles and runs it.
//!
//!     compare CASES [BEGINNING] [--round]
//!
//! CASES is the folder of cases. With BEGINNING only those whose names begin with it are measured: with `b`, family b. `--round` is for
//! the child processes.

// The benchmark uses all of these modules, this program a part.
#![allow(dead_code)]

mod cases;
mod library;
mod terms;
mod timing;

use cases::Case;
use library::{list_by, Tables, Work};
use std::cell::RefCell;
use std::env;
use std::path::Path;
use std::process::{exit, Command, Stdio};
use std::time::Duration;
use timing::{in_turns, median, once, print_noise, Timed};

extern "C" {
    /// `onestep_list` of the build before the change. That of the other build has kept its name.
    fn onestep_list_before(
        pattern: *const u8,
        pattern_length: usize,
        recipe: *const u8,
        recipe_length: usize,
        lines: *mut u8,
        lines_length: usize,
        values: *mut u8,
        values_length: usize,
        work: *mut u8,
        work_length: usize,
    ) -> i64;
}

fn list_before(pattern: &[u8], recipe: &[u8], out: &mut Tables, work: &mut Work) -> i64 {
    // SAFETY: it is `onestep_list` under another name.
    unsafe { list_by(onestep_list_before, pattern, recipe, out, work) }
}

/// What lists in the way of `library::list`.
type Build = fn(&[u8], &[u8], &mut Tables, &mut Work) -> i64;

/// Before and after, as in all pairs here.
const BUILDS: [Build; 2] = [list_before, library::list];
/// How often all cases are gone through, each time in a process of its own: where stack and tables stand is by chance in each, and favours
/// now one build and now the other. And a disturbance of the machine meets a few cases of one round, and seldom one case in most rounds.
const ROUNDS: usize = 9;
/// The last word of such a process.
const ROUND: &str = "--round";
/// A call shorter than this is made twice before it is timed, so that what is known of it beforehand is from a warm one.
const SLOW: Duration = Duration::from_millis(50);

/// A case and what was found of it.
struct Row<'a> {
    case: &'a Case,
    answers: [i64; 2],
    /// Both builds left the same bytes in their tables.
    is_same: bool,
    /// Of each round the medians, in microseconds.
    times: Vec<[f64; 2]>,
}

impl Row<'_> {
    fn new(case: &Case) -> Row<'_> {
        let [(before, tables), (after, tables_after)] = BUILDS.map(|list| ask(list, case));
        let is_same = tables.lines == tables_after.lines && tables.values == tables_after.values;
        Row { case, answers: [before, after], is_same, times: Vec::new() }
    }

    /// What is wrong with the answers; nothing if all is right.
    fn remark(&self) -> String {
        let [before, after] = self.answers;
        if before != after {
            format!("DIFFERENT ANSWERS: {}, then {}", shown(before), shown(after))
        } else if !self.is_same {
            "DIFFERENT BYTES".to_string()
        } else if after != self.case.expected {
            format!("WRONG ANSWER: not {}", shown(self.case.expected))
        } else {
            String::new()
        }
    }

    /// Prints the row, and gives its ratio.
    fn print(&self) -> f64 {
        let middle = |figure: fn(&[f64; 2]) -> f64| median(&mut self.times.iter().map(figure).collect::<Vec<f64>>());
        let (before, after, ratio) = (middle(|times| times[0]), middle(|times| times[1]), middle(|times| times[0] / times[1]));
        let (answer, remark) = (shown(self.answers[1]), self.remark());
        let row = format!("{:<28} {answer:>10} {before:>12.2} {after:>12.2} {ratio:>8.3}  {remark}", self.case.name);
        println!("{}", row.trim_end());
        ratio
    }
}

/// A build's answer and what it wrote.
fn ask(list: Build, case: &Case) -> (i64, Tables) {
    let (mut tables, mut work) = (Tables::new(), Work::new());
    (list(&case.pattern, &case.recipe, &mut tables, &mut work), tables)
}

/// A number of lines, or minus a refusal number.
fn shown(answer: i64) -> String {
    if answer < 0 {
        format!("refused {}", -answer)
    } else {
        answer.to_string()
    }
}

fn main() {
    let mut words = env::args().skip(1);
    let mut cases = cases::load(Path::new(&words.next().expect("the folder of cases")));
    let (mut beginning, mut is_round) = (String::new(), false);
    for word in words {
        if word == ROUND {
            is_round = true;
        } else {
            beginning = word;
        }
    }
    cases.retain(|case| case.name.starts_with(&beginning));
    assert!(!cases.is_empty(), "no case's name begins with {beginning}");
    if is_round {
        run_round(&cases);
        return;
    }
    println!("\n{} cases, both builds turn by turn in one process; medians of {ROUNDS} such rounds, of processor time.", cases.len());
    println!("The ratio is before divided by after: above 1 the build after is faster.\n");
    print_noise("at first");
    let mut rows: Vec<Row> = cases.iter().map(Row::new).collect();
    (0..ROUNDS).for_each(|_| ask_round(&mut rows));
    print(&rows);
    println!();
    print_noise("at last");
    let all_right = rows.iter().all(|row| row.remark().is_empty());
    println!("\n{}", if all_right { "no answer wrong or different" } else { "SOME ANSWERS WRONG OR DIFFERENT" });
    exit(if all_right { 0 } else { 1 });
}

/// The child's part: a line for each case, with the times of both builds, which take turns and use the same tables.
fn run_round(cases: &[Case]) {
    let room = &RefCell::new((Tables::new(), Work::new()));
    for Case { pattern, recipe, .. } in cases {
        let timed = |list: Build| {
            let run = move || {
                let (tables, work) = &mut *room.borrow_mut();
                list(pattern, recipe, tables, work);
            };
            let cold = once(run).1;
            Timed::new(if cold < SLOW { once(run).1 } else { cold }, run)
        };
        let times = in_turns(BUILDS.map(timed).into());
        println!("{} {}", times[0].median, times[1].median);
    }
}

/// Has a child process time all cases.
fn ask_round(rows: &mut [Row]) {
    let mut child = Command::new(env::current_exe().expect("this program's own path"));
    let output = child.args(env::args().skip(1)).arg(ROUND).stderr(Stdio::inherit()).output().expect("a child process");
    assert!(output.status.success(), "a round failed");
    let text = String::from_utf8(output.stdout).expect("plain text");
    for (row, line) in rows.iter_mut().zip(text.lines()) {
        let (before, after) = line.split_once(' ').expect("two times");
        row.times.push([before, after].map(|time| time.parse().expect("a time")));
    }
}

/// Prints a table for each family, and the families' ratios.
fn print(rows: &[Row]) {
    let (mut all, mut summary) = (Vec::new(), Vec::new());
    for rows in rows.chunk_by(|one, next| one.case.family == next.case.family) {
        let family = &rows[0].case.family;
        println!("\n## Family {family}\n");
        println!("{:<28} {:>10} {:>12} {:>12} {:>8}", "case", "answer", "before µs", "after µs", "ratio");
        let mut ratios: Vec<f64> = rows.iter().map(Row::print).collect();
        all.extend_from_slice(&ratios);
        summary.push(summary_row(family, &mut ratios));
    }
    println!("\n## Ratios\n");
    println!("{:<8} {:>6} {:>10} {:>10} {:>10}", "family", "cases", "median", "least", "greatest");
    summary.push(summary_row("all", &mut all));
    summary.iter().for_each(|row| println!("{row}"));
}

fn summary_row(family: &str, ratios: &mut [f64]) -> String {
    let middle = median(ratios);
    let (least, greatest) = (ratios[0], ratios[ratios.len() - 1]);
    format!("{family:<8} {:>6} {middle:>10.3} {least:>10.3} {greatest:>10.3}", ratios.len())
}
