//! The book of document 02: for a call, the answer, the number of pairs and every lent table afterwards.
//!
//! - generate, damage: random calls, and damage to them
//! - compare: one call of the library compared
//! - limits: fixed calls
//! - calls: random calls compared and counted, and what they must have come to

pub mod calls;
pub mod compare;
mod damage;
pub mod generate;
pub mod limits;

use crate::lister::{list_with_cut, Line};
use crate::operations::{sweep_filled, sweep_until_normal, LATER_SWEEP};
use crate::sweep::{sweep, MOST_SWEEPS, MOST_SWEPT_RECORDS};
use crate::tables::*;
use crate::terms::{abstraction, application, Term, Term::*, VARIABLES};

/// Of a record count: 16 bits, high byte first.
pub const COUNT_BYTES: usize = 2;
pub const SIDE_BYTES: usize = MOST_PATTERN_RECORDS * RECORD_BYTES;
/// The counts of left and right, then the records of left and right.
pub const PLACE_BYTES: usize = 2 * COUNT_BYTES + 2 * SIDE_BYTES;
const MOST_PLACES: usize = 64;
/// What a variable that only the left side has and that line 0 leaves open is filled with: `k0`.
const FILLING: Term = Constant(0);

/// Stands in a refusal where the lister needs too many steps: no cause of the documents.
pub const TOO_MANY_STEPS: &str = "too many steps";

/// A call with all its tables, and what stands where the number of pairs is put.
#[derive(Clone)]
pub struct Call {
    pub book: Vec<u8>,
    pub recipe: Vec<u8>,
    pub output: Vec<u8>,
    pub work: Vec<u8>,
    pub pairs: u64,
}

/// What the caller sees afterwards, and how it came about. The book and the recipe always stay.
pub struct Outcome {
    /// The new recipe's number of records, or minus a refusal number.
    pub answer: i64,
    pub refusal: Option<Refusal>,
    pub pairs: u64,
    output: Vec<u8>,
    work: Vec<u8>,
    search: Search,
}

#[derive(Clone)]
struct Rule {
    left: Term,
    right: Term,
}

/// How a search went, for the counts at the end.
#[derive(Default)]
struct Search {
    /// Up to and with the pair at which it ended, or all.
    pairs: u64,
    passed_over: PassedOver,
    /// The rule of the last pair has a variable on its right side that its left side lacks.
    is_hopeless: bool,
    /// The pair used, also if the call was then refused.
    used: Option<Used>,
}

/// Pairs that have a line and are not used, by why line 0 leaves a variable of the right side open.
#[derive(Default)]
struct PassedOver {
    /// The left side lacks the variable.
    for_lacking: u64,
    /// The match throws it away, and no line has them all.
    for_open: u64,
    /// A later line has them all.
    with_later_line: u64,
}

struct Used {
    role: Role,
    /// The number of abstractions around the part.
    depth: usize,
    rule: usize,
    /// The number of lines of the listing.
    lines: usize,
    /// Some variable of the left side was filled with `k0`.
    is_filled: bool,
    /// How many sweeps gave the form of the right side, and that of the whole; nothing where the call was refused before.
    right_sweeps: Option<usize>,
    whole_sweeps: Option<usize>,
}

/// Where a part stands.
#[derive(Clone, Copy, PartialEq, Eq, Debug)]
enum Role {
    Whole,
    Head,
    Argument,
    Body,
}

/// A part of a recipe: where its first record is, and what it stands in.
struct Part<'a> {
    at: usize,
    term: &'a Term,
    role: Role,
    depth: usize,
}

/// What is expected of a call; `list` gives the full listing of a left side and a part, or refusal 9 or 10.
fn expected(call: &Call, list: &mut dyn FnMut(&Term, &Term) -> Result<Vec<Line>, Refusal>) -> Outcome {
    let mut search = Search::default();
    let written = rewrite(call, list, &mut search);
    let mut outcome = Outcome {
        answer: 0,
        refusal: None,
        pairs: call.pairs,
        output: call.output.clone(),
        work: if call.work.len() == MOST_TABLE_BYTES { vec![0; MOST_TABLE_BYTES] } else { call.work.clone() },
        search,
    };
    match written {
        Err(refusal) => {
            outcome.answer = -i64::from(refusal.number);
            outcome.refusal = Some(refusal);
        }
        Ok(recipe) => {
            outcome.answer = recipe.size() as i64;
            outcome.pairs = outcome.search.pairs;
            let bytes = encode(&recipe);
            outcome.output[..bytes.len()].copy_from_slice(&bytes);
        }
    }
    outcome
}

/// The same; refusal 9 stands for a pair that the lister needs more than `most_steps` for.
pub fn expected_within(call: &Call, most_steps: usize) -> Outcome {
    expected(call, &mut |left, part| list_pair(left, part, most_steps).unwrap_or_else(|| refuse(9, "lines", TOO_MANY_STEPS)))
}

/// The new recipe, or the recipe itself if no pair is used; every refusal, in its order.
fn rewrite(call: &Call, list: &mut dyn FnMut(&Term, &Term) -> Result<Vec<Line>, Refusal>, search: &mut Search) -> Result<Term, Refusal> {
    check_lengths(call)?;
    let places = call.book.len() / PLACE_BYTES;
    if places == 0 {
        return refuse(16, "book", "empty");
    }
    if places > MOST_PLACES {
        return refuse(16, "book", "above 64 places");
    }
    // Every side of every rule before the recipe, whatever the recipe is.
    let rules = call.book.chunks(PLACE_BYTES).map(read_rule).collect::<Result<Vec<Rule>, Refusal>>()?;
    let recipe = read_recipe(&call.recipe)?;
    let Some(new) = apply(&rules, &recipe, list, search)? else {
        return write(call, recipe, "too short for the recipe given back");
    };
    if new.size() > MOST_RECIPE_RECORDS {
        let is_swept = search.used.as_ref().is_some_and(|used| used.whole_sweeps > Some(0));
        return refuse(17, "whole", if is_swept { "above 96 records, swept" } else { "above 96 records, normal at once" });
    }
    write(call, new, "too short for the new recipe")
}

/// Refusal 8.
fn check_lengths(call: &Call) -> Result<(), Refusal> {
    if call.book.len() % PLACE_BYTES != 0 {
        return refuse(8, "book", "no multiple of 260");
    }
    if call.output.len() % RECORD_BYTES != 0 || call.output.len() > MOST_TABLE_BYTES {
        return refuse(8, "output", "length");
    }
    if call.work.len() != MOST_TABLE_BYTES {
        return refuse(8, "work", "length");
    }
    Ok(())
}

/// Refusals 1, 2, 3 of left and then of right.
fn read_rule(place: &[u8]) -> Result<Rule, Refusal> {
    let (counts, sides) = place.split_at(2 * COUNT_BYTES);
    let (left, right) = sides.split_at(SIDE_BYTES);
    Ok(Rule { left: read_side(&counts[..COUNT_BYTES], left, "left")?, right: read_side(&counts[COUNT_BYTES..], right, "right")? })
}

/// Records behind the count are not read.
fn read_side(count: &[u8], records: &[u8], table: &'static str) -> Result<Term, Refusal> {
    let count = u16::from_be_bytes([count[0], count[1]]) as usize;
    match records.get(..count * RECORD_BYTES) {
        Some(counted) => read_pattern(counted, table),
        None => refuse(1, table, "count above 32"),
    }
}

/// The form of the whole for the first closed part, and for it the first rule, that can be used; nothing if there is none. Refusals 9, 10, 12 and 15.
fn apply(
    rules: &[Rule],
    recipe: &Term,
    list: &mut dyn FnMut(&Term, &Term) -> Result<Vec<Line>, Refusal>,
    search: &mut Search,
) -> Result<Option<Term>, Refusal> {
    for part in parts(recipe).iter().filter(|part| part.term.is_closed()) {
        for (number, Rule { left, right }) in rules.iter().enumerate() {
            search.pairs += 1;
            search.is_hopeless = (0..VARIABLES).any(|variable| right.occurs(variable) && !left.occurs(variable));
            // Also for a rule that can't be used: its listing may end the search.
            let lines = list(left, part.term)?;
            let Some(line) = lines.first() else { continue };
            let has_all = |line: &Line| (0..VARIABLES).all(|variable| !right.occurs(variable) || line[variable].is_some());
            if !has_all(line) {
                let passed_over = &mut search.passed_over;
                *match search.is_hopeless {
                    true => &mut passed_over.for_lacking,
                    false if lines.iter().any(has_all) => &mut passed_over.with_later_line,
                    false => &mut passed_over.for_open,
                } += 1;
                continue;
            }
            let used = search.used.insert(Used {
                role: part.role,
                depth: part.depth,
                rule: number,
                lines: lines.len(),
                is_filled: (0..VARIABLES).any(|variable| left.occurs(variable) && line[variable].is_none()),
                right_sweeps: None,
                whole_sweeps: None,
            });
            let values = line.clone().map(|entry| entry.or(Some(FILLING)));
            let swept = sweep_filled(left, &values, "left")?;
            assert!(swept == *part.term, "line 0 of {} is no match of {}", left.text(), part.term.text());
            let (form, sweeps) = sweep_until_normal(right, &values)?;
            used.right_sweeps = Some(sweeps);
            let (whole, sweeps) = sweep_whole(put_part(recipe, part.at, &form))?;
            used.whole_sweeps = Some(sweeps);
            return Ok(Some(whole));
        }
    }
    Ok(None)
}

/// The parts, one from each record on.
fn parts(recipe: &Term) -> Vec<Part<'_>> {
    let mut parts = Vec::new();
    collect(recipe, Role::Whole, 0, &mut parts);
    parts
}

fn collect<'a>(term: &'a Term, role: Role, depth: usize, parts: &mut Vec<Part<'a>>) {
    parts.push(Part { at: parts.len(), term, role, depth });
    match term {
        Application(head, argument) => {
            collect(head, Role::Head, depth, parts);
            collect(argument, Role::Argument, depth, parts);
        }
        Abstraction(body) => collect(body, Role::Body, depth + 1, parts),
        _ => {}
    }
}

/// The term with `form`, which is closed, in the place of the part whose first record is at `at`.
fn put_part(term: &Term, at: usize, form: &Term) -> Term {
    match term {
        _ if at == 0 => form.clone(),
        Application(head, argument) if at <= head.size() => application(put_part(head, at - 1, form), (**argument).clone()),
        Application(head, argument) => application((**head).clone(), put_part(argument, at - 1 - head.size(), form)),
        Abstraction(body) => abstraction(put_part(body, at - 1, form)),
        _ => unreachable!("a part behind a leaf"),
    }
}

/// Sweeps the whole until it is normal, with no sweep if it is: that form, and how many sweeps gave it. Refusals 12, of each sweep that is made, and 15.
fn sweep_whole(whole: Term) -> Result<(Term, usize), Refusal> {
    let mut form = whole;
    let mut sweeps = 0;
    while !form.is_normal() {
        if sweeps == MOST_SWEEPS {
            return refuse(15, "whole", "no normal form");
        }
        form = match sweep(&form, MOST_SWEPT_RECORDS) {
            Some(swept) => swept,
            None => return refuse(12, "whole", if sweeps == 0 { "swept part above 256" } else { LATER_SWEEP }),
        };
        sweeps += 1;
    }
    Ok((form, sweeps))
}

/// Refusal 13.
fn write(call: &Call, recipe: Term, cause: &'static str) -> Result<Term, Refusal> {
    if recipe.size() * RECORD_BYTES > call.output.len() {
        return refuse(13, "output", cause);
    }
    Ok(recipe)
}

/// The full listing of a left side and a part, as full tables get it: refusals 9 and 10. Nothing if the lister needs more than `most_steps`.
fn list_pair(left: &Term, part: &Term, most_steps: usize) -> Option<Result<Vec<Line>, Refusal>> {
    let mut lines = list_with_cut(left, part, most_steps)?;
    if lines.len() > MOST_TABLE_BYTES / LINE_BYTES {
        return Some(refuse(9, "lines", "above 2048"));
    }
    let records: usize = lines.iter().flatten().flatten().map(Term::size).sum();
    if records > MOST_TABLE_BYTES / RECORD_BYTES {
        return Some(refuse(10, "values", "above 16384 records"));
    }
    sort_lines(&mut lines);
    Some(Ok(lines))
}
