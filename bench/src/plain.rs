//! (a) and (b): the algorithm of source document 002 (de Moor and Sittampalam) over document 01's rules, written plainly.
//!
//! `matches` is the paper's function of section 3 and `resolve` its function of section 4, clause by clause: terms are trees, a rule is a pair of them, and
//! a substitution is carried out on the patterns of the rules that are left. (a) adds what section 6 describes; it stands in the last part of this file.
//!
//! Document 01's changes need no clause of their own. The paper's clauses are right for its sweep, also for the redexes in patterns that section 4.2 bars, and
//! the clause for a constant function leaves variables open. A substitution puts the value in and reduces nothing: the sweep reduces once, bottom-up, and the
//! clause for an application says what that can give.

use crate::library::{Tables, LINE};
use crate::terms::{PATTERN_RECORDS, RECIPE_RECORDS, VARIABLES};
use crate::timing::now;
use std::iter::{empty, once};
use std::rc::Rc;
use std::time::Duration;
use Node::*;

/// Declared in the order of the kinds' numbers, so the derived order of two terms is document 01's order of their records.
#[derive(PartialEq, Eq, PartialOrd, Ord)]
enum Node {
    Application(Term, Term),
    Abstraction(Term),
    Local(usize),
    Constant(u32),
    Variable(usize),
}

type Term = Rc<Node>;

/// A pattern, and the normal term that it must sweep to.
#[derive(Clone)]
struct Rule {
    pattern: Term,
    target: Term,
}

/// What `resolve` gives: a value for a variable, if there is one, and the rules that take the place of the one resolved.
type Alternative = (Option<(usize, Term)>, Vec<Rule>);

/// The variables' values, nothing for an open one. None comes before Some, so the derived order is document 01's order of lines.
type Line = [Option<Term>; VARIABLES];

#[derive(Clone, Copy, PartialEq)]
pub enum Prunings {
    /// (a)
    Three,
    /// (b)
    None,
}

/// Lists as `onestep_list` does, with the same answer; nothing if the deadline, in `timing::now`'s time, passed first. The tables are taken to have good
/// lengths (refusal 8).
pub fn list(pattern: &[u8], recipe: &[u8], out: &mut Tables, prunings: Prunings, deadline: Duration) -> Option<i64> {
    let answer = match read_both(pattern, recipe) {
        Err(refusal) => Some(-refusal),
        Ok(rule) => Search { prunings, lines: Vec::new(), room: out.lines.len() / LINE, deadline, steps: 0, stop: None }.list(rule, out),
    };
    // document 01: the work area is all zero on return
    out.work.fill(0);
    answer
}

/// Pattern and recipe as terms, or the number of the refusal.
fn read_both(pattern: &[u8], recipe: &[u8]) -> Result<Rule, i64> {
    let pattern = read_term(pattern, PATTERN_RECORDS, 4).map_err(|cause| 1 + cause)?;
    let target = read_term(recipe, RECIPE_RECORDS, 3).map_err(|cause| 4 + cause)?;
    if is_normal(&target) {
        Ok(Rule { pattern, target })
    } else {
        Err(7)
    }
}

/// A table read as a term. The error is 0 for a wrong length, 1 for a bad record, 2 for a table that isn't one tree or a local without binder.
fn read_term(table: &[u8], most_records: usize, last_kind: u8) -> Result<Term, i64> {
    if table.is_empty() || table.len() > 4 * most_records || table.len() % 4 != 0 {
        return Err(0);
    }
    let records: Vec<(u8, u32)> = table.chunks_exact(4).map(|bytes| (bytes[0], u32::from_be_bytes([0, bytes[1], bytes[2], bytes[3]]))).collect();
    let is_good = |&(kind, number): &(u8, u32)| kind <= last_kind && !(kind < 2 && number != 0) && !(kind == 4 && number as usize >= VARIABLES);
    // a constant's number has three bytes, and each other kind's two
    if table.chunks_exact(4).any(|bytes| bytes[1] != 0 && bytes[0] != 3) || !records.iter().all(is_good) {
        return Err(1);
    }
    let mut rest = records.iter();
    match read_part(&mut rest, 0) {
        Some(term) if rest.next().is_none() => Ok(term),
        _ => Err(2),
    }
}

/// Takes one part below `depth` binders off the records.
fn read_part<'a>(records: &mut impl Iterator<Item = &'a (u8, u32)>, depth: usize) -> Option<Term> {
    let &(kind, number) = records.next()?;
    Some(Rc::new(match kind {
        0 => {
            let head = read_part(records, depth)?;
            Application(head, read_part(records, depth)?)
        }
        1 => Abstraction(read_part(records, depth + 1)?),
        2 if (number as usize) < depth => Local(number as usize),
        2 => return None,
        3 => Constant(number),
        _ => Variable(number as usize),
    }))
}

fn is_normal(term: &Term) -> bool {
    match &**term {
        Application(head, argument) => !matches!(**head, Abstraction(_)) && is_normal(head) && is_normal(argument),
        Abstraction(body) => !is_eta_redex(term) && is_normal(body),
        _ => true,
    }
}

/// Whether a term is `\ @ M #0` where M doesn't use that local.
fn is_eta_redex(term: &Term) -> bool {
    let Abstraction(body) = &**term else { return false };
    let Application(function, argument) = &**body else { return false };
    **argument == Local(0) && !loose_locals(function).contains(&0)
}

/// Why a search ended early.
enum Stop {
    TooManyLines,
    Time,
}

struct Search {
    prunings: Prunings,
    lines: Vec<Line>,
    /// The lines that the line table has room for.
    room: usize,
    deadline: Duration,
    steps: u32,
    stop: Option<Stop>,
}

impl Search {
    fn list(mut self, rule: Rule, out: &mut Tables) -> Option<i64> {
        if self.prunings == Prunings::None || is_viable(&rule) {
            self.matches(&[rule], Line::default());
        }
        match self.stop {
            Some(Stop::Time) => None,
            Some(Stop::TooManyLines) => Some(-9),
            None => Some(write(self.lines, out)),
        }
    }

    /// Section 3, or with prunings section 6.2: breaks the first rule down and goes on with what is left.
    fn matches(&mut self, rules: &[Rule], line: Line) {
        let Some((first, rest)) = rules.split_first() else {
            self.keep(line);
            return;
        };
        for (substitution, new) in resolve(first, self.prunings) {
            if self.is_stopped() {
                return;
            }
            let mut rules = match self.prunings {
                Prunings::None => [&new, rest].concat(),
                Prunings::Three if !new.iter().all(is_viable) => continue,
                Prunings::Three => {
                    let (hard, easy): (Vec<Rule>, Vec<Rule>) = new.into_iter().partition(is_hard);
                    [&easy, rest, &hard].concat()
                }
            };
            let mut line = line.clone();
            if let Some((variable, value)) = substitution {
                for rule in &mut rules {
                    rule.pattern = substitute(&rule.pattern, variable, &value);
                }
                line[variable] = Some(value);
            }
            self.matches(&rules, line);
        }
    }

    fn keep(&mut self, line: Line) {
        if self.lines.len() == self.room {
            self.stop = Some(Stop::TooManyLines);
        } else {
            self.lines.push(line);
        }
    }

    /// Counts a step; looks at the clock at every 256th.
    fn is_stopped(&mut self) -> bool {
        self.steps = self.steps.wrapping_add(1);
        if self.steps % 256 == 0 && self.stop.is_none() && now() > self.deadline {
            self.stop = Some(Stop::Time);
        }
        self.stop.is_some()
    }
}

/// Section 4: the ways of breaking one rule down, made as they are asked for.
fn resolve(rule: &Rule, prunings: Prunings) -> Box<dyn Iterator<Item = Alternative> + '_> {
    let Rule { pattern, target } = rule;
    match (&**pattern, &**target) {
        (Local(n), Local(m)) if n == m => Box::new(once((None, vec![]))),
        (Constant(n), Constant(m)) if n == m => Box::new(once((None, vec![]))),
        (Variable(variable), _) if loose_locals(target).is_empty() => Box::new(once((Some((*variable, target.clone())), vec![]))),
        (Abstraction(body), Abstraction(target)) => Box::new(once((None, vec![rule_of(body, target.clone())]))),
        (Abstraction(body), _) => {
            let expanded = Rc::new(Application(raise(target, 0), Rc::new(Local(0))));
            Box::new(once((None, vec![rule_of(body, expanded)])))
        }
        (Application(head, argument), _) => Box::new(resolve_application(head, argument, target, prunings).map(|rules| (None, rules))),
        _ => Box::new(empty()),
    }
}

/// The clause for an application: the three ways of writing the target as an application.
fn resolve_application<'a>(head: &'a Term, argument: &'a Term, target: &'a Term, prunings: Prunings) -> Box<dyn Iterator<Item = Vec<Rule>> + 'a> {
    let split = match &**target {
        Application(function, to) => Some(vec![rule_of(head, function.clone()), rule_of(argument, to.clone())]),
        _ => None,
    };
    if prunings == Prunings::Three && !is_flexible(head) {
        return Box::new(split.into_iter());
    }
    // A part that the argument can't become is left out before functions of it are made.
    let parts = parts(target).into_iter().filter(move |part| prunings == Prunings::None || is_viable(&rule_of(argument, part.clone())));
    let applications =
        parts.flat_map(move |part| functions(target, part.clone()).map(move |function| vec![rule_of(head, function), rule_of(argument, part.clone())]));
    let constant = vec![rule_of(head, Rc::new(Abstraction(raise(target, 0))))];
    Box::new(split.into_iter().chain(applications).chain(once(constant)))
}

fn rule_of(pattern: &Term, target: Term) -> Rule {
    Rule { pattern: pattern.clone(), target }
}

/// The paper's `apps` for one part: every normal function that gives the target when it is applied to the part, and uses its argument.
fn functions(target: &Term, part: Term) -> impl Iterator<Item = Term> + '_ {
    let every_choice = 1..1u128 << copies(target, &part);
    every_choice.map(move |mut chosen| Rc::new(Abstraction(abstracted(target, &part, 0, &mut chosen)))).filter(|function| !is_eta_redex(function))
}

/// How many times a part stands in a term.
fn copies(term: &Term, part: &Term) -> u32 {
    match &**term {
        _ if term == part => 1,
        Application(head, argument) => copies(head, part) + copies(argument, part),
        Abstraction(body) => copies(body, &raise(part, 0)),
        _ => 0,
    }
}

/// The body in which the chosen copies of a part are the local of a new binder around the term: one bit for each copy, from left to right.
fn abstracted(term: &Term, part: &Term, depth: usize, chosen: &mut u128) -> Term {
    if term == part {
        let is_chosen = *chosen & 1 == 1;
        *chosen >>= 1;
        if is_chosen {
            return Rc::new(Local(depth));
        }
    }
    match &**term {
        Application(head, argument) => {
            let head = abstracted(head, part, depth, chosen);
            Rc::new(Application(head, abstracted(argument, part, depth, chosen)))
        }
        Abstraction(body) => Rc::new(Abstraction(abstracted(body, &raise(part, 0), depth + 1, chosen))),
        Local(n) if *n >= depth => Rc::new(Local(n + 1)),
        _ => term.clone(),
    }
}

/// The different parts of a term that can be moved out of the binders above them.
fn parts(term: &Term) -> Vec<Term> {
    let mut found = Vec::new();
    collect_parts(term, 0, &mut found);
    found.sort();
    found.dedup();
    found
}

fn collect_parts(term: &Term, depth: usize, found: &mut Vec<Term>) {
    found.extend(moved_out(term, 0, depth));
    match &**term {
        Application(head, argument) => {
            collect_parts(head, depth, found);
            collect_parts(argument, depth, found);
        }
        Abstraction(body) => collect_parts(body, depth + 1, found),
        _ => {}
    }
}

/// A term moved out of `binders` binders; nothing if it uses one of them. `depth` is the number of its own binders passed.
fn moved_out(term: &Term, depth: usize, binders: usize) -> Option<Term> {
    match &**term {
        _ if binders == 0 => Some(term.clone()),
        Application(head, argument) => Some(Rc::new(Application(moved_out(head, depth, binders)?, moved_out(argument, depth, binders)?))),
        Abstraction(body) => Some(Rc::new(Abstraction(moved_out(body, depth + 1, binders)?))),
        Local(n) if *n >= depth + binders => Some(Rc::new(Local(n - binders))),
        Local(n) if *n >= depth => None,
        _ => Some(term.clone()),
    }
}

/// A term moved under one more binder. `depth` is the number of its own binders passed.
fn raise(term: &Term, depth: usize) -> Term {
    match &**term {
        Application(head, argument) => Rc::new(Application(raise(head, depth), raise(argument, depth))),
        Abstraction(body) => Rc::new(Abstraction(raise(body, depth + 1))),
        Local(n) if *n >= depth => Rc::new(Local(n + 1)),
        _ => term.clone(),
    }
}

/// A pattern with a value put for a variable. A value is closed, so nothing in it is moved.
fn substitute(pattern: &Term, variable: usize, value: &Term) -> Term {
    match &**pattern {
        Application(head, argument) => Rc::new(Application(substitute(head, variable, value), substitute(argument, variable, value))),
        Abstraction(body) => Rc::new(Abstraction(substitute(body, variable, value))),
        Variable(n) if *n == variable => value.clone(),
        _ => pattern.clone(),
    }
}

/// The numbers of a term's loose locals as seen from outside it, each once.
fn loose_locals(term: &Term) -> Vec<usize> {
    let mut found = Vec::new();
    visit_leaves(term, 0, &mut |leaf, depth| match leaf {
        Local(n) if *n >= depth && !found.contains(&(n - depth)) => found.push(n - depth),
        _ => {}
    });
    found
}

/// The constants of a term, from left to right.
fn constants(term: &Term) -> Vec<u32> {
    let mut found = Vec::new();
    visit_leaves(term, 0, &mut |leaf, _| match leaf {
        Constant(n) => found.push(*n),
        _ => {}
    });
    found
}

/// Visits the leaves of a term from left to right, each with the number of binders above it.
fn visit_leaves(term: &Term, depth: usize, visit: &mut impl FnMut(&Node, usize)) {
    match &**term {
        Application(head, argument) => {
            visit_leaves(head, depth, visit);
            visit_leaves(argument, depth, visit);
        }
        Abstraction(body) => visit_leaves(body, depth + 1, visit),
        leaf => visit(leaf, depth),
    }
}

/// Sorts the lines and writes them and their values; gives the number of lines, or -10 where the values have no room.
fn write(mut lines: Vec<Line>, out: &mut Tables) -> i64 {
    let records: usize = lines.iter().flatten().flatten().map(size).sum();
    if 4 * records > out.values.len() {
        return -10;
    }
    lines.sort();
    let (mut line_bytes, mut value_bytes) = (Vec::new(), Vec::new());
    for entry in lines.iter().flatten() {
        let Some(value) = entry else {
            line_bytes.extend([0; 4]);
            continue;
        };
        let first = (value_bytes.len() / 4) as u16;
        write_term(value, &mut value_bytes);
        let count = (value_bytes.len() / 4) as u16 - first;
        line_bytes.extend(first.to_be_bytes());
        line_bytes.extend(count.to_be_bytes());
    }
    out.lines[..line_bytes.len()].copy_from_slice(&line_bytes);
    out.values[..value_bytes.len()].copy_from_slice(&value_bytes);
    lines.len() as i64
}

/// The number of records of a term.
fn size(term: &Term) -> usize {
    match &**term {
        Application(head, argument) => 1 + size(head) + size(argument),
        Abstraction(body) => 1 + size(body),
        _ => 1,
    }
}

fn write_term(term: &Term, out: &mut Vec<u8>) {
    let mut write_record = |kind: u8, number: usize| out.extend([kind, (number >> 16) as u8, (number >> 8) as u8, number as u8]);
    match &**term {
        Application(head, argument) => {
            write_record(0, 0);
            write_term(head, out);
            write_term(argument, out);
        }
        Abstraction(body) => {
            write_record(1, 0);
            write_term(body, out);
        }
        Local(n) => write_record(2, *n),
        Constant(n) => write_record(3, *n as usize),
        Variable(n) => write_record(4, *n),
    }
}

// Section 6, for (a) alone.

/// Section 6.1: the head is a variable or an abstraction.
fn is_flexible(term: &Term) -> bool {
    match &**term {
        Application(head, _) => is_flexible(head),
        Abstraction(_) | Variable(_) => true,
        Local(_) | Constant(_) => false,
    }
}

/// Section 6.2: a rule whose pattern is a flexible application.
fn is_hard(rule: &Rule) -> bool {
    matches!(*rule.pattern, Application(..)) && is_flexible(&rule.pattern)
}

/// Section 6.3: the target's loose locals are among the pattern's, and the pattern's rigid constants are a subsequence of the target's constants.
fn is_viable(rule: &Rule) -> bool {
    let Rule { pattern, target } = rule;
    let (wanted, present) = (loose_locals(target), loose_locals(pattern));
    if !wanted.iter().all(|local| present.contains(local)) {
        return false;
    }
    let mut rigid = Vec::new();
    collect_rigid(pattern, &mut rigid);
    let constants = constants(target);
    let mut rest = constants.iter();
    rigid.iter().all(|constant| rest.any(|other| other == constant))
}

/// The constants of a pattern that no match can remove, from left to right.
fn collect_rigid(pattern: &Term, found: &mut Vec<u32>) {
    match &**pattern {
        Application(head, argument) if !is_flexible(head) => {
            collect_rigid(head, found);
            collect_rigid(argument, found);
        }
        Abstraction(body) => collect_rigid(body, found),
        Constant(n) => found.push(*n),
        _ => {}
    }
}
