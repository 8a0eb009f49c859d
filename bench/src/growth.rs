//! How list's time grows with records and with lines, and a long listing against the writing and sorting of its bytes.

use crate::cases::Case;
use crate::library::{self, Tables, Work};
use crate::listing::Listing;
use crate::measure::{measure_pruned, Row};
use crate::timing::alone;
use std::time::Duration;

/// One pattern against recipes of growing length; yes if all answers were right.
pub fn print_by_records(limit: Duration) -> bool {
    println!("\n## Growth with the recipe's records\n");
    println!("µs of the library, and the ratios of (a) and (c). The recipes are spines: `k2` applied to n different constants; to `#0` and then n constants,");
    println!("under an abstraction; to n times `#0` (2 times for n = 1), under an abstraction.\n");
    println!("{:>3} {:>22} {:>26} {:>26} {:>26}", "n", "`p0`", "`@ p0 p1`", "`\\ @ p0 #0`, one use", "`\\ @ p0 #0`, n uses");
    let mut all_right = true;
    for n in [1, 2, 4, 8, 16, 32, 45] {
        let constants: Vec<String> = (0..n).map(|i| format!("k{}", 100 + i)).collect();
        let spine = |arguments: &[String]| format!("{} k2 {}", "@ ".repeat(arguments.len()), arguments.join(" "));
        let mut used_once = vec!["#0".to_string()];
        used_once.extend_from_slice(&constants);
        // At least two uses: `\ @ k2 #0` is no recipe, it isn't normal.
        let locals = vec!["#0".to_string(); n.max(2)];
        let plain = spine(&constants);
        // `@ p0 p1`: one line for each different part that is put in for the local, one for the split, one for the constant function;
        // the last argument alone is no line, since the rest is an eta-redex.
        let parts = 2 * n as i64 + 2;
        let columns = [
            Case::written("variable", "p0", &plain, 1),
            Case::written("application", "@ p0 p1", &plain, parts),
            Case::written("one use", "\\ @ p0 #0", &format!("\\ {}", spine(&used_once)), 1),
            Case::written("n uses", "\\ @ p0 #0", &format!("\\ {}", spine(&locals)), 1),
        ];
        let rows = columns.map(|case| measure_pruned(&case, limit));
        all_right &= rows.iter().all(|row| row.agrees);
        let [one, two, three, four] = rows.map(|row| shown(&row));
        println!("{n:>3} {one:>22} {two:>26} {three:>26} {four:>26}");
    }
    all_right
}

/// Listings of growing length; yes if all answers were right.
pub fn print_by_lines(limit: Duration) -> bool {
    println!("\n## Growth with lines\n");
    println!("`@ p0 k1` against `k2` applied to n times `k1`: 2^n lines of up to 2n + 2 records.\n");
    println!("{:>3} {:>8} {:>14} {:>14} {:>12} {:>12}", "n", "lines", "library µs", "µs per line", "(a) ratio", "(c) ratio");
    let mut all_right = true;
    for n in 0..=9 {
        let case = Case::written("copies", "@ p0 k1", &format!("{} k2 {}", "@ ".repeat(n), "k1 ".repeat(n)), 1 << n);
        let row = measure_pruned(&case, limit);
        all_right &= row.agrees;
        let time = row.library.median;
        let [plain, tuned] = ratios(&row);
        println!("{n:>3} {:>8} {time:>14.2} {:>14.3} {plain:>12} {tuned:>12}", row.answer, time / row.answer as f64);
    }
    all_right
}

/// The longest listings found that the tables have room for, and two whose lines take less search; yes if the answers were right.
pub fn print_long_listings(limit: Duration) -> bool {
    println!("\n## Long listings\n");
    println!("2,048 lines fit only if their values take 8 records a line on average. No pattern and recipe were found that have so many lines with so short");
    println!("values: these are the longest listings found that fit, and two with less search to a line. `writing µs`: Rust takes the same lines in no order,");
    println!("copies their values, sorts and writes them, and searches nothing. `to writing` is the library's list to that.\n");
    println!(
        "{:>6} {:>8} {:>12} {:>12} {:>12} {:>12} {:>10} {:>10}  pattern, recipe",
        "lines", "records", "library µs", "µs per line", "writing µs", "to writing", "(a) ratio", "(c) ratio"
    );
    let listings = [
        ("@ @ @ @ @ p0 k1 k1 k1 p1 k1", "@ @ @ k1 k1 k1 k1", 1342),
        ("@ @ @ @ @ p0 k1 k1 k1 k1 k1", "@ @ @ k1 k1 k1 k1", 1296),
        ("@ @ @ @ p0 p1 p2 k0 p3", "@ @ k0 @ k0 k0 k0", 1288),
        ("@ @ @ @ @ @ @ @ p5 p2 @ p5 p7 p5 p6 p6 @ p1 p3 @ p7 @ p5 p3 p0", "k0", 1212),
        ("@ @ k9 @ @ @ p0 k0 k0 k0 @ @ @ @ @ p1 p2 p3 p3 p4 k0", "@ @ k9 @ k0 k0 k0", 1232),
        ("@ @ k9 @ @ p0 p1 p2 @ @ p4 p5 p6", "@ @ k9 @ @ k1 k0 k0 @ @ k1 k0 k0", 841),
    ];
    let mut all_right = true;
    for (pattern, recipe, lines) in listings {
        all_right &= print_long_listing(pattern, recipe, lines, limit);
    }
    all_right
}

fn print_long_listing(pattern: &str, recipe: &str, lines: i64, limit: Duration) -> bool {
    let case = Case::written("long", pattern, recipe, lines);
    let row = measure_pruned(&case, limit);
    let (mut tables, mut work, mut out) = (Tables::new(), Work::new(), Tables::new());
    let count = library::list(&case.pattern, &case.recipe, &mut tables, &mut work).max(0) as usize;
    let sorted = Listing::read(&tables, count);
    let unsorted = shuffled(&sorted);
    let written = write_and_sort(&unsorted, &mut out);
    let is_right = row.agrees && written == count as i64 && out.lines == tables.lines && out.values == tables.values;
    let writing = alone(|| {
        write_and_sort(&unsorted, &mut out);
    })
    .median;
    let (time, records, [plain, tuned]) = (row.library.median, sorted.records(), ratios(&row));
    let (per_line, to_writing) = (time / count as f64, time / writing);
    println!("{count:>6} {records:>8} {time:>12.1} {per_line:>12.3} {writing:>12.1} {to_writing:>12.2} {plain:>10} {tuned:>10}  {pattern}, {recipe}");
    is_right
}

/// The lines of a listing in an order that has nothing to do with their own: always the same one.
fn shuffled(listing: &Listing) -> Listing {
    let count = listing.len();
    let mut order: Vec<usize> = (0..count).collect();
    let mut state: u64 = 1;
    for last in (1..count).rev() {
        state = state.wrapping_mul(6364136223846793005).wrapping_add(1442695040888963407);
        order.swap(last, (state >> 33) as usize % (last + 1));
    }
    let mut other = Listing::new();
    order.iter().for_each(|&line| other.keep(&listing.values(line)));
    other
}

/// Takes every line in as a search would hand it over, sorts, and writes.
fn write_and_sort(unsorted: &Listing, out: &mut Tables) -> i64 {
    let mut listing = Listing::new();
    (0..unsorted.len()).for_each(|line| listing.keep(&unsorted.values(line)));
    listing.lay_out(out)
}

fn shown(row: &Row) -> String {
    format!("{:.2} ({})", row.library.median, ratios(row).join(", "))
}

/// The ratios of (a) and (c).
fn ratios(row: &Row) -> [String; 2] {
    let shown: Vec<String> = row.ratios().map(|ratio| ratio.map_or("limit".to_string(), |ratio| format!("{ratio:.2}"))).collect();
    shown.try_into().expect("two baselines")
}
