//! The cases 1 to 11 of document 01, with the answers that the document gives.

use crate::compare::{compare, describe};
use crate::lister::Line;
use crate::operations::{expected, Call, Operation};
use crate::tables::*;
use crate::terms::Term;

/// Pattern, recipe, and for each line its assigned entries.
pub type ListCase = (&'static str, &'static str, &'static [&'static [(usize, &'static str)]]);

const LISTS: &[ListCase] = &[
    (r"@ p0 p1", "k0", &[&[(0, r"\ #0"), (1, "k0")], &[(0, r"\ k0")]]),
    (r"\ p0", r"\ #0", &[]),
    (r"\ p0", r"\ k1", &[&[(0, "k1")]]),
    (r"\ @ p0 #0", "k1", &[&[(0, "k1")]]),
    (r"@ p0 k1", "@ @ k2 k1 k1", &[&[(0, "@ k2 k1")], &[(0, r"\ @ @ k2 #0 #0")], &[(0, r"\ @ @ k2 #0 k1")], &[(0, r"\ @ @ k2 k1 k1")]]),
    (r"@ p0 p0", "k1", &[&[(0, r"\ k1")]]),
    (r"@ \ #0 p0", "k1", &[&[(0, "k1")]]),
    ("k1", "k1", &[&[]]),
    ("k1", "k2", &[]),
    (r"@ k1 p0", r"@ k1 \ #0", &[&[(0, r"\ #0")]]),
];

/// Pattern and its swept form.
const SWEEPS: &[(&str, &str)] = &[(r"@ @ \ #0 \ #0 @ \ #0 \ #0", r"\ #0"), (r"@ \ @ #0 k0 \ #0", r"@ \ #0 k0")];

/// How many calls were compared.
pub fn run() -> Result<usize, String> {
    LISTS.iter().try_for_each(compare_listing)?;

    // Case 8: check says no.
    let mut line = Line::default();
    line[0] = Some(Term::from_text(r"\ \ @ #0 #1"));
    line[1] = Some(Term::from_text(r"\ @ @ k1 #0 #0"));
    let (lines, values) = lay_out(&[line]);
    let call_8 = Call { lines, values, ..call(Operation::Check, r"\ @ @ p0 #0 p1", r"\ @ @ k1 #0 #0") };
    let outcome = expected(&call_8, usize::MAX).expect("no listing");
    assert_eq!(outcome.answer, 0, "case 8");
    compare(&call_8, &outcome, 0).map_err(|difference| difference + "\n" + &describe(&call_8))?;

    for (pattern, swept) in SWEEPS {
        let bytes = encode(&Term::from_text(swept));
        let call = Call { recipe: Vec::new(), lines: vec![0; LINE_BYTES], output: vec![9; 64], ..call(Operation::Sweep, pattern, "k0") };
        let outcome = expected(&call, usize::MAX).expect("no listing");
        assert_eq!(outcome.answer, (bytes.len() / RECORD_BYTES) as i64, "{pattern}");
        assert_eq!(outcome.output[..bytes.len()], bytes, "{pattern}");
        compare(&call, &outcome, 0).map_err(|difference| difference + "\n" + &describe(&call))?;
    }
    Ok(LISTS.len() + 1 + SWEEPS.len())
}

/// A listing with full tables, in the order of the lines.
pub fn compare_listing((pattern, recipe, lines): &ListCase) -> Result<(), String> {
    let mut listing: Vec<Line> = Vec::new();
    for entries in *lines {
        let mut line = Line::default();
        for (variable, value) in *entries {
            line[*variable] = Some(Term::from_text(value));
        }
        listing.push(line);
    }
    let (line_bytes, value_bytes) = lay_out(&listing);
    let call = Call { lines: vec![9; MOST_TABLE_BYTES], values: vec![9; MOST_TABLE_BYTES], ..call(Operation::List, pattern, recipe) };
    let outcome = expected(&call, usize::MAX).expect("no step limit");
    assert_eq!(outcome.answer, listing.len() as i64, "{pattern} against {recipe}");
    assert_eq!(outcome.lines[..line_bytes.len()], line_bytes, "{pattern} against {recipe}");
    assert_eq!(outcome.values[..value_bytes.len()], value_bytes, "{pattern} against {recipe}");
    compare(&call, &outcome, 0).map_err(|difference| difference + "\n" + &describe(&call))
}

fn call(operation: Operation, pattern: &str, recipe: &str) -> Call {
    Call {
        operation,
        pattern: encode(&Term::from_text(pattern)),
        right: Vec::new(),
        recipe: encode(&Term::from_text(recipe)),
        lines: Vec::new(),
        values: Vec::new(),
        output: Vec::new(),
        work: vec![9; MOST_TABLE_BYTES],
    }
}
