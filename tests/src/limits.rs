//! Calls at the limits of documents 01 and 02: as long as a table may be, and one longer; the most lines; the longest target and the longest value; the
//! most sweeps, and the longest swept form of each; and constants of 24 bits.

mod constants;

use crate::compare::{compare, describe};
use crate::lister::Line;
use crate::operations::{expected, Call, Operation};
use crate::tables::*;
use crate::terms::{abstraction, application, Term, Term::*};

/// How many calls were compared.
pub fn run() -> Result<usize, String> {
    let p0 = Variable(0);
    let k1 = Constant(1);
    // With n copies of a constant 2 to the n lines (that with the last argument alone replaced is no value, but its head is one). The longest line table has
    // room for a power of two.
    let most_lines = MOST_TABLE_BYTES / LINE_BYTES;
    let most_copies = most_lines.ilog2() as usize;
    let calls = [
        // Patterns of 32 and 33 records, recipes of 96 and 97; the longest target, 31 abstractions over a variable against 96 records: 158.
        (list(&abstractions(31, &k1), &abstractions(31, &k1)), 1),
        (list(&abstractions(32, &k1), &abstractions(32, &k1)), -1),
        (list(&abstractions(31, &p0), &abstractions(95, &k1)), 1),
        (list(&abstractions(31, &p0), &abstractions(96, &k1)), -4),
        (list(&abstractions(31, &p0), &application(Constant(0), abstractions(93, &k1))), 0),
        (list(&application(p0.clone(), k1.clone()), &copies(9)), 512),
        (list(&application(p0.clone(), k1.clone()), &application(copies(9), Constant(2))), 512),
        // The most lines have room, but not in a table of one line less, and not their values. Twice as many have no room.
        (list(&application(p0.clone(), k1.clone()), &copies(most_copies)), -10),
        (with_lines(most_lines - 1, list(&application(p0.clone(), k1.clone()), &copies(most_copies))), -9),
        (list(&application(p0.clone(), k1.clone()), &copies(most_copies + 1)), -9),
        // A value of 160 records and one of 161; a swept form of 256 records and one of 257.
        (sweep(&p0, &[abstractions(159, &k1)]), 160),
        (sweep(&p0, &[abstractions(160, &k1)]), -11),
        (sweep(&application(p0.clone(), Variable(1)), &[copies(76), abstractions(101, &k1)]), 256),
        (sweep(&application(p0.clone(), Variable(1)), &[copies(76), abstractions(102, &k1)]), -12),
        // The same, thrown away.
        (sweep(&thrown_away(&application(p0.clone(), Variable(1))), &[copies(76), abstractions(101, &k1)]), 1),
        (sweep(&thrown_away(&application(p0.clone(), Variable(1))), &[copies(76), abstractions(102, &k1)]), -12),
        // Two sweeps, for case 10 goes on to `k0`; 64 and 65; a form that sweeps to itself and isn't normal.
        (rewrite(r"@ \ @ #0 k0 \ #0", &[]), 1),
        (rewrite("@ p0 p1", &chains(32, 32)), 3),
        (rewrite("@ p0 p1", &chains(33, 32)), -15),
        (rewrite(r"@ \ @ #0 #0 \ @ #0 #0", &[]), -15),
        // A first swept form of 256 records and one of 257: normal, and `@ \ @ k5 k5 @ p0 p1`, which the second sweep makes short.
        (rewrite("@ p0 p1", &[copies(76), abstractions(101, &k1)]), 256),
        (rewrite("@ p0 p1", &[copies(76), abstractions(102, &k1)]), -12),
        (rewrite(r"@ \ @ #0 @ p0 p1 \ @ k5 k5", &[copies(76), abstractions(96, &k1)]), 3),
        (rewrite(r"@ \ @ #0 @ p0 p1 \ @ k5 k5", &[copies(76), abstractions(97, &k1)]), -12),
        // A second one of 256 records and one of 257, written and thrown away.
        (rewrite("@ p0 p1", &doubling(1)), 256),
        (rewrite("@ p0 p1", &doubling(2)), -12),
        (rewrite(r"@ \ @ #0 @ p0 p1 \ k5", &doubling(1)), 1),
        (rewrite(r"@ \ @ #0 @ p0 p1 \ k5", &doubling(2)), -12),
        // A 64th one of 256 records and one of 257: `@ p1 p1` has 15, and each sweep adds 3, behind a value of 48 or 49.
        (rewrite("@ p0 @ p1 p1", &[application(Constant(0), abstractions(45, &k1)), Term::from_text(r"\ @ @ #0 #0 \ k1")]), -15),
        (rewrite("@ p0 @ p1 p1", &[application(Constant(0), abstractions(46, &k1)), Term::from_text(r"\ @ @ #0 #0 \ k1")]), -12),
        // Room for what is written but not for the forms before it, and for one record less. No room at all comes behind 12 and 15.
        (with_output(3, rewrite("@ p0 p1", &chains(32, 32))), 3),
        (with_output(2, rewrite("@ p0 p1", &chains(32, 32))), -13),
        (with_output(3, rewrite(r"@ \ @ #0 @ p0 p1 \ @ k5 k5", &[copies(76), abstractions(96, &k1)])), 3),
        (with_output(2, rewrite(r"@ \ @ #0 @ p0 p1 \ @ k5 k5", &[copies(76), abstractions(96, &k1)])), -13),
        (with_output(256, rewrite("@ p0 p1", &doubling(1))), 256),
        (with_output(255, rewrite("@ p0 p1", &doubling(1))), -13),
        (with_output(0, rewrite("@ p0 p1", &doubling(2))), -12),
        (with_output(0, rewrite("@ p0 p1", &chains(33, 32))), -15),
    ];
    calls.iter().try_for_each(compare_answer)?;
    longest_value()?;
    Ok(calls.len() + 1 + constants::run()?)
}

fn compare_answer((call, answer): &(Call, i64)) -> Result<(), String> {
    let outcome = expected(call, usize::MAX).expect("no step limit");
    assert_eq!(outcome.answer, *answer, "{}", describe(call));
    compare(call, &outcome, 0).map_err(|difference| difference + "\n" + &describe(call))
}

/// The longest value in a line, 126 records: ten abstractions over p0 applied to their locals in turn, against 96 records. The plain lister would take
/// too long, but the one match is plain: p0 is the recipe applied to the locals in the other order, below ten abstractions.
fn longest_value() -> Result<(), String> {
    let recipe = application(Constant(0), abstractions(93, &Constant(1)));
    let mut pattern = Variable(0);
    let mut value = recipe.clone();
    for local in 0..10 {
        pattern = application(pattern, Local(local));
        value = application(value, Local(local));
    }
    let call = list(&abstractions(10, &pattern), &recipe);
    let mut line = Line::default();
    line[0] = Some(abstractions(10, &value));
    let (lines, values) = lay_out(&[line]);
    assert_eq!(values.len() / RECORD_BYTES, 126);
    // The outcome of a call that lists nothing, with this line put in.
    let nothing = list(&Constant(2), &recipe);
    let mut outcome = expected(&nothing, usize::MAX).expect("no step limit");
    outcome.answer = 1;
    outcome.lines[..lines.len()].copy_from_slice(&lines);
    outcome.values[..values.len()].copy_from_slice(&values);
    compare(&call, &outcome, 0).map_err(|difference| difference + "\n" + &describe(&call))
}

pub fn abstractions(count: usize, body: &Term) -> Term {
    (0..count).fold(body.clone(), |term, _| abstraction(term))
}

/// `k0` applied to so many copies of `k1`.
pub fn copies(count: usize) -> Term {
    (0..count).fold(Constant(0), |term, _| application(term, Constant(1)))
}

fn thrown_away(term: &Term) -> Term {
    application(abstraction(Constant(5)), term.clone())
}

/// Two values, each so many times `\ @ #0` and then `k1`. A sweep of the first applied to the second takes one `\ @ #0` off the head, and head and
/// argument change places. So there are 2m sweeps, or 2n + 1 if m is above n.
fn chains(m: usize, n: usize) -> [Term; 2] {
    [m, n].map(|links| (0..links).fold(Constant(1), |chain, _| abstraction(application(Local(0), chain))))
}

/// Two values. The first applied to the second sweeps to the second applied to A, which has 127 records, and that to `@ A A` below so many abstractions.
fn doubling(binders: usize) -> [Term; 2] {
    let twice = application(Local(binders), Local(binders));
    [abstraction(application(Local(0), copies(63))), abstractions(binders + 1, &twice)]
}

fn list(pattern: &Term, recipe: &Term) -> Call {
    Call {
        operation: Operation::List,
        pattern: encode(pattern),
        right: Vec::new(),
        recipe: encode(recipe),
        lines: vec![9; MOST_TABLE_BYTES],
        values: vec![9; MOST_TABLE_BYTES],
        output: Vec::new(),
        work: vec![9; MOST_TABLE_BYTES],
    }
}

fn with_lines(count: usize, call: Call) -> Call {
    Call { lines: vec![9; count * LINE_BYTES], ..call }
}

fn with_output(records: usize, call: Call) -> Call {
    Call { output: vec![9; records * RECORD_BYTES], ..call }
}

/// A rewrite with these values for the first variables, of a left side that has none and so is a match.
fn rewrite(right: &str, values: &[Term]) -> Call {
    let left = Constant(1);
    Call { operation: Operation::Rewrite, right: encode(&Term::from_text(right)), recipe: encode(&left), ..sweep(&left, values) }
}

/// A sweep with these values for the first variables.
fn sweep(pattern: &Term, values: &[Term]) -> Call {
    let mut line = Line::default();
    for (entry, value) in line.iter_mut().zip(values) {
        *entry = Some(value.clone());
    }
    let (lines, values) = lay_out(&[line]);
    Call { operation: Operation::Sweep, recipe: Vec::new(), lines, values, output: vec![9; 1028], ..list(pattern, pattern) }
}
