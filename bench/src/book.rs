//! A book of rules: what a call takes, and for each pair of closed part and rule, against listing the same pairs one by one.

use crate::library::{self, Tables, Work, TABLE};
use crate::terms::*;
use crate::timing::{in_turns, once, Timed};

/// Rules and a recipe, and what the book makes of them.
struct Sample {
    name: &'static str,
    rules: Vec<[Vec<Record>; 2]>,
    recipe: Vec<Record>,
    written: Vec<Record>,
    pairs: u64,
}

/// A recipe of a wave-buoy station, and the rule that is used, at a part deep in it.
const STATION: &str = r"@ @ @ k256 @ @ k264 k1027 @ k263 @ @ k512 k768 @ k514 @ k516 k771 @ @ k258 @ @ k512 k770 @ k514 @ k516 k771
    @ @ k512 k769 @ k514 @ k516 k771 @ @ k513 k768 \ @ @ k259 @ @ k514 @ k516 k771 #0 @ @ @ k515 @ k516 k771 @ k516 k772 #0";
const USED: (&str, &str) = ("@ k516 k772", "@ k516 @ k517 k772");

/// Rules that fit no part of that recipe, as a book has them: fusing, hoisting, cancelling, renaming.
const RULES: [(&str, &str); 19] = [
    ("@ @ k519 p0 @ @ k519 p1 p2", r"@ @ k519 \ @ p0 @ p1 #0 p2"),
    (r"@ @ k512 p0 \ @ @ k259 p1 @ p2 #0", "@ @ k259 p1 @ @ k512 p0 p2"),
    (r"@ @ k512 p0 \ @ @ k260 @ p1 #0 @ p2 #0", "@ @ k260 @ @ k512 p0 p1 @ @ k512 p0 p2"),
    ("@ @ k258 p0 p0", "k1025"),
    ("@ k263 @ @ k259 p0 p0", "p0"),
    ("@ @ k262 p0 k1025", "p0"),
    ("@ @ k262 @ @ k262 p0 p1 p2", "@ @ k262 p0 @ @ k259 p1 p2"),
    ("@ @ k259 k1025 p0", "p0"),
    ("@ @ k260 k1024 p0", "p0"),
    ("@ k516 @ k516 p0", "@ k516 p0"),
    ("@ k517 @ k516 p0", "@ k516 @ k517 p0"),
    ("@ k514 @ k517 p0", "@ k514 p0"),
    ("@ @ @ k521 k260 k1024 @ @ k519 p0 p1", r"@ @ @ k521 \ @ k260 @ p0 #0 k1024 p1"),
    ("@ @ k515 p0 p0", "@ k514 p0"),
    ("@ k518 @ k518 p0", "p0"),
    ("@ @ @ k256 p0 p1 @ @ k513 k4093 p2", "@ @ k257 p0 p1"),
    (r"\ @ @ k257 @ p0 #0 @ p0 #0", "p0"),
    ("k4094", "k1024"),
    ("k4095", "k516"),
];

/// Rules that fit no part of it either, though each has the head of some part: an argument is another.
const OTHER_ARGUMENTS: [(&str, &str); 19] = [
    ("@ @ @ k256 p0 p1 k900", "@ @ k257 p0 p1"),
    ("@ @ @ k256 @ @ k264 k901 p0 p1 p2", "p0"),
    ("@ @ @ k256 p0 p0 p1", "@ @ k257 p0 p1"),
    ("@ @ k264 k902 p0", "p0"),
    ("@ @ k264 p0 @ k263 @ @ k512 k903 p1", "p1"),
    ("@ k263 @ @ k512 p0 k904", "p0"),
    ("@ k263 @ @ k513 p0 p1", "p0"),
    ("@ @ k512 k905 p0", "p0"),
    ("@ @ k512 p0 @ k514 @ k516 k906", "p0"),
    ("@ @ k512 p0 @ k514 @ k514 p1", "p1"),
    ("@ k514 @ k516 k907", "k907"),
    ("@ k514 k908", "k908"),
    ("@ k516 k909", "k909"),
    ("@ k516 @ k516 p0", "@ k516 p0"),
    ("@ @ k258 p0 p0", "k1025"),
    ("@ @ k258 @ @ k512 p0 p1 @ @ k512 p0 p2", "@ @ k258 p1 p2"),
    ("@ @ k513 k910 p0", "p0"),
    (r"@ @ k513 p0 \ @ @ k259 @ p1 #0 @ @ @ k515 p2 p2 #0", "p1"),
    ("@ @ k515 p0 p0", "@ k514 p0"),
];

/// Prints the table; yes if every call gave what it should.
pub fn print() -> bool {
    println!("\n## Book\n");
    println!("Median µs per call, and ns for each pair of closed part and rule, up to the one used or all; list is `onestep_list` of the same");
    println!("pairs, one call for each.\n");
    println!("{:<42} {:>6} {:>8} {:>7} {:>10} {:>12} {:>18}", "book", "rules", "records", "pairs", "book µs", "ns per pair", "list, ns per pair");
    samples().iter().fold(true, |all_right, sample| measure(sample) && all_right)
}

fn samples() -> [Sample; 3] {
    let spine: String = (100..147).map(|number| format!(" k{number}")).collect();
    let recipe = parse(&format!("{} k99{spine}", "@ ".repeat(47)));
    let rules = (0..64).map(|number| [parse(&format!("@ @ k{} p0 p1", 1000 + number)), parse("@ p1 p0")]).collect();
    [
        Sample { name: "no head that occurs", rules, written: recipe.clone(), recipe, pairs: 6080 },
        station("rules of a station, the last used", &RULES),
        station("heads that occur, other arguments", &OTHER_ARGUMENTS),
    ]
}

/// A book of these rules and the one that is used, and the recipe of the station.
fn station(name: &'static str, rules: &[(&str, &str)]) -> Sample {
    let rules: Vec<[Vec<Record>; 2]> = rules.iter().chain([&USED]).map(|(left, right)| [parse(left), parse(right)]).collect();
    let (recipe, written) = (parse(STATION), parse(&STATION.replace(USED.0, USED.1)));
    let used = parse(USED.0);
    let parts = closed_parts(&recipe).iter().position(|part| *part == used).expect("the part is there") + 1;
    Sample { name, pairs: (parts * rules.len()) as u64, rules, recipe, written }
}

/// In the order of their first records.
fn closed_parts(recipe: &[Record]) -> Vec<&[Record]> {
    (0..recipe.len()).map(|at| &recipe[at..end(recipe, at)]).filter(|part| loose_locals(part) == 0).collect()
}

/// One row of the table; no, and a message, where an answer is wrong.
fn measure(sample: &Sample) -> bool {
    let Sample { name, rules, recipe, written, pairs } = sample;
    let book: Vec<u8> = rules.iter().flat_map(place).collect();
    let recipe_bytes = bytes_of(recipe);
    let written_bytes = bytes_of(written);
    let (mut work, mut output, mut counted) = (Work::new(), vec![0; TABLE], 0);
    let (records, first) = once(|| library::book(&book, &recipe_bytes, &mut output, &mut work, &mut counted));
    if records != written.len() as i64 || counted != *pairs || output[..written_bytes.len()] != written_bytes {
        println!("{name}: {records} records, {counted} pairs: WRONG");
        return false;
    }
    // in the book's order, up to the pair that was used
    let parts: Vec<Vec<u8>> = closed_parts(recipe).into_iter().map(bytes_of).collect();
    let lefts: Vec<Vec<u8>> = rules.iter().map(|[left, _]| bytes_of(left)).collect();
    let listed: Vec<(&[u8], &[u8])> = parts.iter().flat_map(|part| lefts.iter().map(|left| (&left[..], &part[..]))).take(*pairs as usize).collect();
    let (mut tables, mut list_work) = (Tables::new(), Work::new());
    let mut list_all = || {
        for (left, part) in &listed {
            library::list(left, part, &mut tables, &mut list_work);
        }
    };
    let ((), first_of_list) = once(&mut list_all);
    let times = in_turns(vec![
        Timed::new(first, || {
            library::book(&book, &recipe_bytes, &mut output, &mut work, &mut counted);
        }),
        Timed::new(first_of_list, list_all),
    ]);
    let [each, list_each] = [0, 1].map(|at| 1000.0 * times[at].median / *pairs as f64);
    println!("{name:<42} {:>6} {:>8} {pairs:>7} {:>10.2} {each:>12.1} {list_each:>18.1}", rules.len(), recipe.len(), times[0].median);
    true
}

/// The place of a rule in the book: both counts, both sides.
fn place(rule: &[Vec<Record>; 2]) -> Vec<u8> {
    let mut place: Vec<u8> = rule.iter().flat_map(|side| (side.len() as u16).to_be_bytes()).collect();
    for side in rule {
        let mut records = bytes_of(side);
        records.resize(4 * PATTERN_RECORDS, 0);
        place.extend(records);
    }
    place
}
