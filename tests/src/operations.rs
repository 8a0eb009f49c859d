//! The four operations as documents 01 and 02 describe them: for a call, the answer and every lent table afterwards.

use crate::lister::{self, Line};
use crate::sweep::{sweep, MOST_SWEEPS, MOST_SWEPT_RECORDS};
use crate::tables::*;
use crate::terms::Term;

/// The cause of refusal 12 where the first sweep of the right side was within the limit.
pub const LATER_SWEEP: &str = "later sweep above 256";

#[derive(Clone, Copy, PartialEq, Eq, PartialOrd, Ord, Debug)]
pub enum Operation {
    List,
    Check,
    Sweep,
    Rewrite,
}

/// A call with all its tables. A table that the operation doesn't take is empty.
#[derive(Clone)]
pub struct Call {
    pub operation: Operation,
    /// The pattern, or the left side of a rewrite.
    pub pattern: Vec<u8>,
    /// The right side of a rewrite.
    pub right: Vec<u8>,
    pub recipe: Vec<u8>,
    /// The line table of a list, the one line of the others.
    pub lines: Vec<u8>,
    pub values: Vec<u8>,
    pub output: Vec<u8>,
    pub work: Vec<u8>,
}

impl Call {
    /// Whether a record of the pattern or of the right side is this variable.
    pub fn has_variable(&self, variable: usize) -> bool {
        let sides = [&self.pattern, &self.right];
        sides.iter().any(|side| side.chunks(RECORD_BYTES).any(|record| record == [4, 0, 0, variable as u8]))
    }
}

/// What the caller sees afterwards. The pattern, the right side and the recipe always stay.
pub struct Outcome {
    /// A count, 1 or 0 for yes or no, or minus a refusal number.
    pub answer: i64,
    pub refusal: Option<Refusal>,
    /// How many sweeps gave the form that was written; 0 if none was.
    pub sweeps: usize,
    pub lines: Vec<u8>,
    pub values: Vec<u8>,
    pub output: Vec<u8>,
    pub work: Vec<u8>,
}

pub enum Answer {
    /// The number of lines, and the bytes of the lines and of the values.
    Listing(usize, Vec<u8>, Vec<u8>),
    Yes(bool),
    /// What is written, and how many sweeps gave it.
    Written(Term, usize),
}

/// Nothing if the plain lister needs more than `most_steps`.
pub fn expected(call: &Call, most_steps: usize) -> Option<Outcome> {
    let answer = match call.operation {
        Operation::List => list(call, most_steps)?,
        Operation::Check => check(call),
        Operation::Sweep => sweep_pattern(call),
        Operation::Rewrite => rewrite(call),
    };
    Some(outcome_of(call, answer))
}

/// What the caller sees after this answer.
pub fn outcome_of(call: &Call, answer: Result<Answer, Refusal>) -> Outcome {
    let mut outcome = Outcome {
        answer: 0,
        refusal: None,
        sweeps: 0,
        lines: call.lines.clone(),
        values: call.values.clone(),
        output: call.output.clone(),
        work: if call.work.len() == MOST_TABLE_BYTES { vec![0; MOST_TABLE_BYTES] } else { call.work.clone() },
    };
    match answer {
        Err(refusal) => {
            outcome.answer = -i64::from(refusal.number);
            outcome.refusal = Some(refusal);
        }
        Ok(Answer::Listing(count, lines, values)) => {
            outcome.answer = count as i64;
            outcome.lines[..lines.len()].copy_from_slice(&lines);
            outcome.values[..values.len()].copy_from_slice(&values);
        }
        Ok(Answer::Yes(yes)) => outcome.answer = i64::from(yes),
        Ok(Answer::Written(term, sweeps)) => {
            outcome.answer = term.size() as i64;
            outcome.sweeps = sweeps;
            let bytes = encode(&term);
            outcome.output[..bytes.len()].copy_from_slice(&bytes);
        }
    }
    outcome
}

fn list(call: &Call, most_steps: usize) -> Option<Result<Answer, Refusal>> {
    let sides = || {
        check_lengths(call)?;
        Ok((read_pattern(&call.pattern, "pattern")?, read_recipe(&call.recipe)?))
    };
    let (pattern, recipe) = match sides() {
        Ok(sides) => sides,
        Err(refusal) => return Some(Err(refusal)),
    };
    let mut lines = lister::list(&pattern, &recipe, most_steps)?;
    sort_lines(&mut lines);
    Some(answer_listing(call, &lines))
}

/// The answer of a list whose full listing has these lines: refusals 9 and 10.
pub fn answer_listing(call: &Call, lines: &[Line]) -> Result<Answer, Refusal> {
    // Beyond 65,535 records the first records in these lines are meaningless, but then the lengths below refuse the call.
    let (line_bytes, value_bytes) = lay_out(lines);
    if line_bytes.len() > call.lines.len() {
        return refuse(9, "lines", if call.lines.is_empty() { "no room" } else { "too little room" });
    }
    if value_bytes.len() > call.values.len() {
        return refuse(10, "values", if call.values.is_empty() { "no room" } else { "too little room" });
    }
    Ok(Answer::Listing(lines.len(), line_bytes, value_bytes))
}

fn check(call: &Call) -> Result<Answer, Refusal> {
    check_lengths(call)?;
    let pattern = read_pattern(&call.pattern, "pattern")?;
    let recipe = read_recipe(&call.recipe)?;
    let values = read_assignment(call, &[&pattern])?;
    Ok(Answer::Yes(sweep_filled(&pattern, &values, "pattern")? == recipe))
}

fn sweep_pattern(call: &Call) -> Result<Answer, Refusal> {
    check_lengths(call)?;
    let pattern = read_pattern(&call.pattern, "pattern")?;
    let values = read_assignment(call, &[&pattern])?;
    let swept = sweep_filled(&pattern, &values, "pattern")?;
    write(call, swept, 1)
}

fn rewrite(call: &Call) -> Result<Answer, Refusal> {
    check_lengths(call)?;
    let left = read_pattern(&call.pattern, "pattern")?;
    let recipe = read_recipe(&call.recipe)?;
    let right = read_pattern(&call.right, "right")?;
    let values = read_assignment(call, &[&left, &right])?;
    if sweep_filled(&left, &values, "pattern")? != recipe {
        return refuse(14, "pattern", "no match");
    }
    let (normal, sweeps) = sweep_until_normal(&right, &values)?;
    write(call, normal, sweeps)
}

/// Refusal 8.
fn check_lengths(call: &Call) -> Result<(), Refusal> {
    let is_table = |length: usize, unit: usize| length % unit == 0 && length <= MOST_TABLE_BYTES;
    let lines_fit = match call.operation {
        Operation::List => is_table(call.lines.len(), LINE_BYTES),
        _ => call.lines.len() == LINE_BYTES,
    };
    if !lines_fit {
        return refuse(8, "lines", "length");
    }
    if !is_table(call.values.len(), RECORD_BYTES) {
        return refuse(8, "values", "length");
    }
    if !is_table(call.output.len(), RECORD_BYTES) {
        return refuse(8, "output", "length");
    }
    if call.work.len() != MOST_TABLE_BYTES {
        return refuse(8, "work", "length");
    }
    Ok(())
}

/// The values of the variables that occur in these terms; the other entries are not read.
fn read_assignment(call: &Call, terms: &[&Term]) -> Result<Line, Refusal> {
    let mut values = Line::default();
    for (variable, entry) in values.iter_mut().enumerate() {
        if terms.iter().any(|term| term.occurs(variable)) {
            *entry = Some(read_value(&call.lines, &call.values, variable)?);
        }
    }
    Ok(values)
}

/// Refusal 12.
pub fn sweep_filled(term: &Term, values: &Line, table: &'static str) -> Result<Term, Refusal> {
    match sweep(&term.fill(values), MOST_SWEPT_RECORDS) {
        Some(swept) => Ok(swept),
        None => refuse(12, table, "swept part above 256"),
    }
}

/// Sweeps the filled right side again and again, at least once: the first form that is normal, and how many sweeps gave it. Refusals 12, of each sweep
/// that is made, and 15.
pub fn sweep_until_normal(right: &Term, values: &Line) -> Result<(Term, usize), Refusal> {
    let mut form = sweep_filled(right, values, "right")?;
    let mut sweeps = 1;
    while !form.is_normal() {
        if sweeps == MOST_SWEEPS {
            return refuse(15, "right", "no normal form");
        }
        form = match sweep(&form, MOST_SWEPT_RECORDS) {
            Some(swept) => swept,
            None => return refuse(12, "right", LATER_SWEEP),
        };
        sweeps += 1;
    }
    Ok((form, sweeps))
}

/// Refusal 13.
fn write(call: &Call, form: Term, sweeps: usize) -> Result<Answer, Refusal> {
    if form.size() * RECORD_BYTES > call.output.len() {
        return refuse(13, "output", "too short");
    }
    Ok(Answer::Written(form, sweeps))
}
