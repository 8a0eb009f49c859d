//! Sets a listing against the definition of a full listing itself (document 01, "Lines and values"), with nothing but the sweep and a plain
//! enumeration of small values. So the plain lister doesn't rest on the equations alone.

use crate::lister::Line;
use crate::sweep::sweep;
use crate::tables::{constant_at, encode, sort_lines, CONSTANT, RECORD_BYTES};
use crate::terms::{abstraction, application, Term, Term::*, VARIABLES};

/// The definition has no limit on swept forms; this one is far above what these patterns and values reach.
const NO_LIMIT: usize = 100_000;

/// How many assignments were tried, or what is wrong with the listing.
pub fn check(pattern: &Term, recipe: &Term, lines: &[Line], most_tries: usize) -> Result<usize, String> {
    let occurring: Vec<usize> = (0..VARIABLES).filter(|variable| pattern.occurs(*variable)).collect();
    let mut sorted = lines.to_vec();
    sort_lines(&mut sorted);
    if sorted != lines {
        return Err("the lines don't go up".into());
    }
    let is_match = |line: &Line| sweep(&pattern.fill(line), NO_LIMIT).as_ref() == Some(recipe);

    // Every line assigns only variables of the pattern, to values; every filling of its open variables gives a match.
    let fillings = ["k9", r"\ #0", r"\ \ @ #0 @ #1 k9", r"@ k9 \ @ #0 #0"].map(Term::from_text);
    for line in lines {
        for (variable, entry) in line.iter().enumerate() {
            if let Some(value) = entry {
                if !pattern.occurs(variable) || !value.is_closed() || !value.is_normal() || value.has_variables() {
                    return Err(format!("p{variable} = {}", value.text()));
                }
            }
        }
        for filling in &fillings {
            let mut filled = line.clone();
            for variable in &occurring {
                filled[*variable].get_or_insert_with(|| filling.clone());
            }
            if !is_match(&filled) {
                return Err(format!("a line filled with {} is no match", filling.text()));
            }
        }
    }

    // Every match among the small values agrees with exactly one line; what is no match agrees with none.
    let values = small_values(&constants(recipe), occurring.len(), most_tries);
    let mut choice = vec![0; occurring.len()];
    let mut tries = 0;
    loop {
        let mut assignment = Line::default();
        for (at, variable) in occurring.iter().enumerate() {
            assignment[*variable] = Some(values[choice[at]].clone());
        }
        let agreeing = lines.iter().filter(|line| (0..VARIABLES).all(|v| line[v].is_none() || line[v] == assignment[v])).count();
        let right = usize::from(is_match(&assignment));
        if agreeing != right {
            let texts: Vec<String> = assignment.iter().flatten().map(Term::text).collect();
            return Err(format!("the assignment {texts:?} agrees with {agreeing} lines instead of {right}"));
        }
        tries += 1;
        // The next choice, as a counter counts up.
        let Some(at) = (0..choice.len()).find(|at| choice[*at] + 1 < values.len()) else { return Ok(tries) };
        choice[at] += 1;
        choice[..at].fill(0);
    }
}

/// The first two constants of the recipe.
fn constants(recipe: &Term) -> Vec<u32> {
    let mut found = Vec::new();
    for record in encode(recipe).chunks(RECORD_BYTES) {
        let number = constant_at(record);
        if record[0] == CONSTANT && !found.contains(&number) && found.len() < 2 {
            found.push(number);
        }
    }
    if found.is_empty() {
        found.push(0);
    }
    found
}

/// All values up to the largest number of records for which the assignments of `variables` variables are at most `most_tries`.
fn small_values(constants: &[u32], variables: usize, most_tries: usize) -> Vec<Term> {
    let mut values = Vec::new();
    for size in 1..=6 {
        let mut more = values.clone();
        more.extend(terms_of_size(size, 0, constants).into_iter().filter(Term::is_normal));
        let tries = more.len().checked_pow(variables as u32).unwrap_or(usize::MAX);
        if size > 1 && tries > most_tries {
            break;
        }
        values = more;
    }
    values
}

fn terms_of_size(size: usize, depth: usize, constants: &[u32]) -> Vec<Term> {
    if size == 1 {
        let locals = (0..depth).map(Local);
        return locals.chain(constants.iter().map(|number| Constant(*number))).collect();
    }
    let mut terms: Vec<Term> = terms_of_size(size - 1, depth + 1, constants).into_iter().map(abstraction).collect();
    for head_size in 1..size - 1 {
        let arguments = terms_of_size(size - 1 - head_size, depth, constants);
        for head in terms_of_size(head_size, depth, constants) {
            terms.extend(arguments.iter().map(|argument| application(head.clone(), argument.clone())));
        }
    }
    terms
}
