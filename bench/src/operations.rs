//! Check, sweep and rewrite on the first line of each case that has one, against document 01's sweep in plain Rust; and rewrites that take many sweeps.

use crate::cases::Case;
use crate::library::{self, Tables, Work, LINE, TABLE};
use crate::listing::Listing;
use crate::terms::*;
use crate::timing::{in_turns, median, once, Timed};
use std::hint::black_box;

/// A case's first line with its open variables filled.
struct Filled {
    line: Vec<u8>,
    values: Vec<u8>,
}

/// Prints the table; yes if all three operations gave the recipe or yes.
pub fn print(cases: &[Case]) -> bool {
    println!("\n## Check, sweep, rewrite\n");
    println!("On each case's first line, open variables filled with `k0`; rewrite's right side is its left. Median and most µs per call; the ratio");
    println!("is the median of: plain Rust's sweep of the same filled pattern, to the library's sweep.\n");
    println!("{:<8} {:>6} {:>17} {:>17} {:>17} {:>12}", "family", "cases", "check µs", "sweep µs", "rewrite µs", "ratio");
    let mut families: Vec<&str> = cases.iter().map(|case| case.family.as_str()).collect();
    families.dedup();
    let mut all_right = true;
    for family in families {
        let (mut columns, mut ratios) = ([const { Vec::new() }; 3], Vec::new());
        for case in cases.iter().filter(|case| case.family == family && case.expected > 0) {
            let times = measure(case);
            all_right &= times.is_some();
            if let Some([check, sweep, rewrite, plain]) = times {
                columns[0].push(check);
                columns[1].push(sweep);
                columns[2].push(rewrite);
                ratios.push(plain / sweep);
            }
        }
        if !ratios.is_empty() {
            let count = ratios.len();
            let [check, sweep, rewrite] = columns.map(|mut column| format!("{:.2} {:.2}", median(&mut column), column[column.len() - 1]));
            println!("{family:<8} {count:>6} {check:>17} {sweep:>17} {rewrite:>17} {:>12.2}", median(&mut ratios));
        }
    }
    all_right
}

/// Median times of check, sweep, rewrite and the plain sweep; nothing, and a message, where an answer is wrong.
fn measure(case: &Case) -> Option<[f64; 4]> {
    let Case { pattern, recipe, .. } = case;
    let (mut work, mut output) = (Work::new(), vec![0; TABLE]);
    let Filled { line, values } = first_line(case, &mut work);
    let records = (recipe.len() / 4) as i64;

    let checked = library::check(pattern, recipe, &line, &values, &mut work);
    let (swept, first) = once(|| library::sweep(pattern, &line, &values, &mut output, &mut work));
    let sweeps_well = swept == records && output[..recipe.len()] == recipe[..];
    output.fill(0);
    let rewritten = library::rewrite(pattern, pattern, recipe, &line, &values, &mut output, &mut work);
    let rewrites_well = rewritten == records && output[..recipe.len()] == recipe[..];
    let plain = plain_sweep(pattern, &line, &values);
    if checked != 1 || !sweeps_well || !rewrites_well || plain != recipe[..] {
        println!("{}: check {checked}, sweep {swept}, rewrite {rewritten}: WRONG", case.name);
        return None;
    }

    let (mut check_work, mut rewrite_work, mut rewrite_output) = (Work::new(), Work::new(), vec![0; TABLE]);
    let times = in_turns(vec![
        Timed::new(first, || {
            library::check(pattern, recipe, &line, &values, &mut check_work);
        }),
        Timed::new(first, || {
            library::sweep(pattern, &line, &values, &mut output, &mut work);
        }),
        Timed::new(first, || {
            library::rewrite(pattern, pattern, recipe, &line, &values, &mut rewrite_output, &mut rewrite_work);
        }),
        Timed::new(first, || {
            black_box(plain_sweep(pattern, &line, &values));
        }),
    ]);
    Some([times[0].median, times[1].median, times[2].median, times[3].median])
}

/// The case's first line, with `k0` for each open variable.
fn first_line(case: &Case, work: &mut Work) -> Filled {
    let mut tables = Tables::new();
    library::list(&case.pattern, &case.recipe, &mut tables, work);
    let k0 = [record(CONSTANT, 0)];
    let listing = Listing::read(&tables, 1);
    let mut filled = Listing::new();
    filled.keep(&listing.values(0).map(|value| value.or(Some(&k0[..]))));
    filled.lay_out(&mut tables);
    Filled { line: tables.lines[..LINE].to_vec(), values: tables.values[..4 * filled.records()].to_vec() }
}

/// Bytes in, bytes out, like the library's sweep, but nothing is checked.
fn plain_sweep(pattern: &[u8], line: &[u8], values: &[u8]) -> Vec<u8> {
    let (pattern, values) = (records_of(pattern), records_of(values));
    let filled: Values = std::array::from_fn(|variable| {
        let figure = |at: usize| u16::from_be_bytes([line[at], line[at + 1]]) as usize;
        let (first, count) = (figure(4 * variable), figure(4 * variable + 2));
        Some(&values[first..first + count])
    });
    bytes_of(&sweep(&pattern, &filled))
}

/// Numbers of sweeps that rewrites take; 64 is the most that is allowed.
const SWEEPS: [usize; 5] = [1, 2, 4, 16, 64];

/// Prints how long rewrites take that need several sweeps; yes if each wrote its normal form.
pub fn print_by_sweeps() -> bool {
    println!("\n## Rewrite, by the sweeps that it takes\n");
    println!("`@ p0 p1` for the right side, where p0 and p1 are `\\ @ #0` repeated, and then `k1`: each sweep takes one such step off. Records are those");
    println!("of the filled right side, µs the median per call; the ratio is: the same sweeps in plain Rust, to the library's rewrite.\n");
    println!("{:<8} {:>9} {:>12} {:>12}", "sweeps", "records", "rewrite µs", "ratio");
    SWEEPS.iter().fold(true, |all_right, &sweeps| measure_sweeps(sweeps) && all_right)
}

/// `\ @ #0` so many times, and then `k1`.
fn steps(count: usize) -> Vec<Record> {
    let mut term = [record(ABSTRACTION, 0), record(APPLICATION, 0), record(LOCAL, 0)].repeat(count);
    term.push(record(CONSTANT, 1));
    term
}

/// One row of the table; no, and a message, where the answer is wrong.
fn measure_sweeps(sweeps: usize) -> bool {
    // the left side drops its arguments, so that any values are a match
    let (left, right, recipe) = (bytes_of(&parse("@ @ \\ \\ k1 p0 p1")), bytes_of(&parse("@ p0 p1")), bytes_of(&parse("k1")));
    let (first, second) = (steps(sweeps.div_ceil(2)), steps(sweeps / 2));
    let mut filled = Listing::new();
    filled.keep(&std::array::from_fn(|variable| [Some(&first[..]), Some(&second[..])].get(variable).copied().flatten()));
    let mut tables = Tables::new();
    filled.lay_out(&mut tables);
    let (line, values) = (tables.lines[..LINE].to_vec(), tables.values[..4 * filled.records()].to_vec());
    let records = 1 + filled.records();

    let (mut work, mut output) = (Work::new(), vec![0; TABLE]);
    let normal = bytes_of(&parse("@ k1 k1"));
    let (written, time) = once(|| library::rewrite(&left, &right, &recipe, &line, &values, &mut output, &mut work));
    let (plain, made) = plain_rewrite(&right, &line, &values);
    if written != 3 || output[..12] != normal[..] || plain != normal || made != sweeps {
        println!("{sweeps} sweeps: rewrite {written}, plain Rust made {made}: WRONG");
        return false;
    }
    let times = in_turns(vec![
        Timed::new(time, || {
            library::rewrite(&left, &right, &recipe, &line, &values, &mut output, &mut work);
        }),
        Timed::new(time, || {
            black_box(plain_rewrite(&right, &line, &values));
        }),
    ]);
    println!("{sweeps:<8} {records:>9} {:>12.2} {:>12.2}", times[0].median, times[1].median / times[0].median);
    true
}

/// The right side swept until normal, and how many sweeps that took.
fn plain_rewrite(right: &[u8], line: &[u8], values: &[u8]) -> (Vec<u8>, usize) {
    let mut form = records_of(&plain_sweep(right, line, values));
    let mut sweeps = 1;
    while !is_normal(&form) {
        form = sweep(&form, &[None; VARIABLES]);
        sweeps += 1;
    }
    (bytes_of(&form), sweeps)
}
