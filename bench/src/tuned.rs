//! (c): the same search as (a) in `plain.rs`, tuned, over inputs that aren't checked. It shows what is left of (a)'s ratio when the baseline is made fast.
//!
//! What it does otherwise than (a):
//! - a substitution is not carried out but looked up: a variable that has a value stands for that value, and is compared with its target at once;
//! - targets stand in one growing row of records that is cut back after each try, so no tree is allocated;
//! - a body is made by copying the runs of records between the copies that are replaced;
//! - pattern and recipe are taken to be well formed.

use crate::library::{Tables, LINE};
use crate::listing::Listing;
use crate::terms::*;
use crate::timing::now;
use std::collections::VecDeque;
use std::time::Duration;

/// A run of records of the store.
#[derive(Clone, Copy)]
struct Span {
    start: usize,
    end: usize,
}

/// A rule of the paper: a part of the pattern, and the term that it must sweep to.
#[derive(Clone, Copy)]
struct Rule {
    part: usize,
    target: Span,
}

type Assignment = [Option<Span>; VARIABLES];

/// A place in a target where a given argument stands, and the number of the target's binders above it.
#[derive(Clone, Copy)]
struct Place {
    start: usize,
    end: usize,
    depth: u32,
}

/// Why the search ended early.
#[derive(PartialEq)]
enum Stop {
    TooManyLines,
    Time,
}

struct Matcher<'a> {
    pattern: &'a [Record],
    /// For each part of the pattern: the place behind it, and its loose locals.
    ends: Vec<usize>,
    locals: Vec<u64>,
    /// The recipe, then every target that was made on the way to the rule at hand.
    store: Vec<Record>,
    listing: Listing,
    /// The lines that the line table has room for.
    room: usize,
    stop: Option<Stop>,
    steps: u32,
    deadline: Duration,
}

/// Lists into the tables as `onestep_list` does, with the same answer; nothing if the deadline, in `timing::now`'s time, passed first.
pub fn list(pattern: &[u8], recipe: &[u8], out: &mut Tables, deadline: Duration) -> Option<i64> {
    let pattern = records_of(pattern);
    let store = records_of(recipe);
    let target = Span { start: 0, end: store.len() };
    let ends: Vec<usize> = (0..pattern.len()).map(|at| end(&pattern, at)).collect();
    let locals = (0..pattern.len()).map(|at| loose_locals(&pattern[at..ends[at]])).collect();
    let mut matcher = Matcher { pattern: &pattern, ends, locals, store, listing: Listing::new(), room: out.lines.len() / LINE, stop: None, steps: 0, deadline };
    let mut rules = VecDeque::with_capacity(pattern.len());
    if matcher.add(&mut rules, &[Rule { part: 0, target }], &[None; VARIABLES]) {
        matcher.matches(rules, [None; VARIABLES]);
    }
    match matcher.stop {
        Some(Stop::Time) => None,
        Some(Stop::TooManyLines) => Some(-9),
        None => Some(matcher.listing.lay_out(out)),
    }
}

impl Matcher<'_> {
    /// The paper's `matches`: solves the rules one after the other, each by the clause of `resolve` for its pattern.
    fn matches(&mut self, mut rules: VecDeque<Rule>, mut assignment: Assignment) {
        while !self.is_stopped() {
            let Some(rule) = rules.pop_front() else {
                self.keep(&assignment);
                return;
            };
            let Rule { part, target } = rule;
            let first = self.store[target.start];
            let goes_on = match kind(self.pattern[part]) {
                LOCAL | CONSTANT => self.pattern[part] == first,
                VARIABLE => self.assign(number(self.pattern[part]) as usize, target, &mut assignment),
                ABSTRACTION => {
                    let target = if kind(first) == ABSTRACTION { Span { start: target.start + 1, ..target } } else { self.eta_expanded(target) };
                    self.add(&mut rules, &[Rule { part: part + 1, target }], &assignment)
                }
                _ if !self.is_flexible(part, &assignment) => {
                    kind(first) == APPLICATION && {
                        let split = self.split(rule);
                        self.add(&mut rules, &split, &assignment)
                    }
                }
                _ => {
                    self.resolve_application(rule, &rules, &assignment);
                    return;
                }
            };
            if !goes_on {
                return;
            }
        }
    }

    /// Clause 2: a variable takes a closed target, or has it already.
    fn assign(&self, variable: usize, target: Span, assignment: &mut Assignment) -> bool {
        let wanted = self.records(target);
        match assignment[variable] {
            Some(value) => self.records(value) == wanted,
            None if loose_locals(wanted) == 0 => {
                assignment[variable] = Some(target);
                true
            }
            None => false,
        }
    }

    /// Clause 6: the three ways of writing the target as an application.
    fn resolve_application(&mut self, rule: Rule, rules: &VecDeque<Rule>, assignment: &Assignment) {
        let Rule { part, target } = rule;
        let mark = self.store.len();
        if kind(self.store[target.start]) == APPLICATION {
            let split = self.split(rule);
            self.follow(&split, rules, assignment);
        }
        self.store.push(record(ABSTRACTION, 0));
        self.store.extend_from_within(target.start..target.end);
        let constant = Span { start: mark, end: self.store.len() };
        raise(&mut self.store, mark + 1, 0, 1);
        self.follow(&[Rule { part: part + 1, target: constant }], rules, assignment);

        let (arguments, places) = self.arguments(target);
        for (index, &argument) in arguments.iter().enumerate() {
            let wanted = Rule { part: self.ends[part + 1], target: argument };
            if self.is_viable(wanted, assignment) {
                let places: Vec<Place> = places.iter().filter(|(of, _)| *of == index).map(|(_, place)| *place).collect();
                self.resolve_bodies(rule, constant, wanted, &places, rules, assignment);
            }
            if self.stop.is_some() {
                return;
            }
        }
        self.store.truncate(mark);
    }

    /// The paper's `apps` for one argument: every body that has the local in some of the places, and at least in one.
    /// `constant` is the abstraction over the target itself, raised; a body differs from it in the chosen places alone.
    fn resolve_bodies(&mut self, rule: Rule, constant: Span, argument: Rule, places: &[Place], rules: &VecDeque<Rule>, assignment: &Assignment) {
        let Rule { part, target } = rule;
        let mark = self.store.len();
        for chosen in 1..1u128 << places.len() {
            if self.is_stopped() {
                return;
            }
            let mut copied = constant.start;
            for (bit, place) in places.iter().enumerate() {
                if chosen >> bit & 1 == 1 {
                    let shift = constant.start + 1 - target.start;
                    self.store.extend_from_within(copied..place.start + shift);
                    self.store.push(record(LOCAL, place.depth));
                    copied = place.end + shift;
                }
            }
            self.store.extend_from_within(copied..constant.end);
            let function = Span { start: mark, end: self.store.len() };
            if !self.is_eta_redex(function) {
                self.follow(&[Rule { part: part + 1, target: function }, argument], rules, assignment);
            }
            self.store.truncate(mark);
        }
    }

    /// Goes on with new rules put to the others; cuts the store back to what it was.
    fn follow(&mut self, new: &[Rule], rules: &VecDeque<Rule>, assignment: &Assignment) {
        let mark = self.store.len();
        let mut all = rules.clone();
        if self.add(&mut all, new, assignment) {
            self.matches(all, *assignment);
        }
        self.store.truncate(mark);
    }

    /// Puts new rules to the others: hard rules behind, others in front. No if one of them isn't viable.
    fn add(&self, rules: &mut VecDeque<Rule>, new: &[Rule], assignment: &Assignment) -> bool {
        for &rule in new {
            if !self.is_viable(rule, assignment) {
                return false;
            }
            if self.is_hard(rule, assignment) {
                rules.push_back(rule);
            }
        }
        for &rule in new.iter().rev() {
            if !self.is_hard(rule, assignment) {
                rules.push_front(rule);
            }
        }
        true
    }

    /// The head's rule and the argument's, where the target is an application.
    fn split(&self, rule: Rule) -> [Rule; 2] {
        let Rule { part, target } = rule;
        let argument = end(&self.store, target.start + 1);
        [
            Rule { part: part + 1, target: Span { start: target.start + 1, end: argument } },
            Rule { part: self.ends[part + 1], target: Span { start: argument, end: target.end } },
        ]
    }

    /// Clause 5: `T x` for a target T that is no abstraction.
    fn eta_expanded(&mut self, target: Span) -> Span {
        let start = self.store.len();
        self.store.push(record(APPLICATION, 0));
        self.store.extend_from_within(target.start..target.end);
        raise(&mut self.store, start + 1, 0, 1);
        self.store.push(record(LOCAL, 0));
        Span { start, end: self.store.len() }
    }

    /// The different parts of a target that can be moved out of the binders above them, and the places where each stands, from left to right.
    fn arguments(&mut self, target: Span) -> (Vec<Span>, Vec<(usize, Place)>) {
        let mut arguments = Vec::new();
        let mut places = Vec::with_capacity(target.end - target.start);
        self.note_arguments(target.start, 0, &mut arguments, &mut places);
        (arguments, places)
    }

    fn note_arguments(&mut self, at: usize, depth: u32, arguments: &mut Vec<Span>, places: &mut Vec<(usize, Place)>) {
        let end = end(&self.store, at);
        if let Some(argument) = self.moved_out(Span { start: at, end }, depth) {
            let known = arguments.iter().position(|&other| self.records(other) == self.records(argument));
            let index = known.unwrap_or_else(|| {
                arguments.push(argument);
                arguments.len() - 1
            });
            places.push((index, Place { start: at, end, depth }));
        }
        match kind(self.store[at]) {
            APPLICATION => {
                let argument = crate::terms::end(&self.store, at + 1);
                self.note_arguments(at + 1, depth, arguments, places);
                self.note_arguments(argument, depth, arguments, places);
            }
            ABSTRACTION => self.note_arguments(at + 1, depth + 1, arguments, places),
            _ => {}
        }
    }

    /// A part of a target, moved out of the binders above it: itself where there are none, else a copy.
    fn moved_out(&mut self, part: Span, depth: u32) -> Option<Span> {
        if depth == 0 {
            return Some(part);
        }
        let start = self.store.len();
        self.store.extend_from_within(part.start..part.end);
        if lower(&mut self.store, start, 0, depth).is_none() {
            self.store.truncate(start);
            return None;
        }
        Some(Span { start, end: self.store.len() })
    }

    /// Whether an abstraction over a normal body is `\ @ M #0` where M doesn't use that local.
    fn is_eta_redex(&self, function: Span) -> bool {
        let body = &self.records(function)[1..];
        kind(body[0]) == APPLICATION && body[body.len() - 1] == record(LOCAL, 0) && {
            let argument = end(body, 1);
            argument + 1 == body.len() && loose_locals(&body[1..argument]) & 1 == 0
        }
    }

    /// Section 6.1: the head, the first record that is no application, is a variable or an abstraction.
    fn is_flexible(&self, part: usize, assignment: &Assignment) -> bool {
        let mut head = part;
        while kind(self.pattern[head]) == APPLICATION {
            head += 1;
        }
        match kind(self.pattern[head]) {
            ABSTRACTION => true,
            VARIABLE => match assignment[number(self.pattern[head]) as usize] {
                // A value is closed and normal: its head is an abstraction only if all of it is one.
                Some(value) => kind(self.store[value.start]) == ABSTRACTION,
                None => true,
            },
            _ => false,
        }
    }

    /// Section 6.2: a rule whose pattern is a flexible application.
    fn is_hard(&self, rule: Rule, assignment: &Assignment) -> bool {
        kind(self.pattern[rule.part]) == APPLICATION && self.is_flexible(rule.part, assignment)
    }

    /// Section 6.3: the target's loose locals are among the pattern's, and the pattern's rigid constants are a subsequence of the target's constants.
    fn is_viable(&self, rule: Rule, assignment: &Assignment) -> bool {
        let target = self.records(rule.target);
        let mut seen = 0;
        loose_locals(target) & !self.locals[rule.part] == 0 && self.finds_rigids(rule.part, assignment, target, &mut seen)
    }

    /// Whether the rigid constants of a part stand in the target in their order, behind the first `seen` records.
    fn finds_rigids(&self, part: usize, assignment: &Assignment, target: &[Record], seen: &mut usize) -> bool {
        let wanted = self.pattern[part];
        match kind(wanted) {
            CONSTANT => finds(wanted, target, seen),
            ABSTRACTION => self.finds_rigids(part + 1, assignment, target, seen),
            VARIABLE => match assignment[number(wanted) as usize] {
                // A value is normal, so none of its constants can go away.
                Some(value) => self.records(value).iter().all(|&record| kind(record) != CONSTANT || finds(record, target, seen)),
                None => true,
            },
            APPLICATION if !self.is_flexible(part, assignment) => {
                self.finds_rigids(part + 1, assignment, target, seen) && self.finds_rigids(self.ends[part + 1], assignment, target, seen)
            }
            _ => true,
        }
    }

    /// A line is found.
    fn keep(&mut self, assignment: &Assignment) {
        if self.listing.len() == self.room {
            self.stop = Some(Stop::TooManyLines);
            return;
        }
        let store = &self.store;
        self.listing.keep(&assignment.map(|value| value.map(|span| &store[span.start..span.end])));
    }

    fn records(&self, span: Span) -> &[Record] {
        &self.store[span.start..span.end]
    }

    /// Counts a step; looks at the clock at every 1024th.
    fn is_stopped(&mut self) -> bool {
        self.steps = self.steps.wrapping_add(1);
        if self.steps % 1024 == 0 && self.stop.is_none() && now() > self.deadline {
            self.stop = Some(Stop::Time);
        }
        self.stop.is_some()
    }
}

/// Looks for a constant behind the first `seen` records; moves `seen` behind it.
fn finds(constant: Record, target: &[Record], seen: &mut usize) -> bool {
    match target[*seen..].iter().position(|&record| record == constant) {
        Some(place) => {
            *seen += place + 1;
            true
        }
        None => false,
    }
}
