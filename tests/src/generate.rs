//! Random calls: sound ones of several sorts, some of them then damaged.

use crate::damage::{confuse, damage};
use crate::lister::{self, Line};
use crate::operations::{sweep_until_normal, Call, Operation};
use crate::palette::{constant, palette, Palette};
use crate::random::Random;
use crate::sweep::{sweep, MOST_SWEEPS, MOST_SWEPT_RECORDS};
use crate::tables::*;
use crate::terms::{abstraction, application, Term, Term::*, VARIABLES};
use std::iter::successors;

pub fn call(random: &mut Random, most_steps: usize) -> Call {
    let operation = match random.below(100) {
        0..=39 => Operation::List,
        40..=59 => Operation::Check,
        60..=76 => Operation::Sweep,
        _ => Operation::Rewrite,
    };
    let mut call = match operation {
        Operation::List => list_call(random, most_steps),
        _ => assignment_call(random, operation),
    };
    if random.chance(10) {
        confuse(random, &mut call);
    }
    if random.chance(if operation == Operation::List { 30 } else { 40 }) {
        damage(random, &mut call);
        while random.chance(25) {
            damage(random, &mut call);
        }
    }
    call
}

// Terms of a given size.

fn leaf(random: &mut Random, depth: usize, palette: &Palette, variables: bool) -> Term {
    if depth > 0 && random.chance(45) {
        Local(if random.chance(60) { random.below(depth.min(2)) } else { random.below(depth) })
    } else if variables && random.chance(65) {
        Variable(random.pick(&palette.variables))
    } else {
        constant(random, palette)
    }
}

/// A term of exactly `size` records, redexes welcome; with variables if asked. `abstractions` is how many times in a hundred a node is one.
pub fn any_term(random: &mut Random, size: usize, depth: usize, palette: &Palette, variables: bool, abstractions: usize) -> Term {
    if size == 1 {
        return leaf(random, depth, palette, variables);
    }
    if size == 2 || random.chance(abstractions) {
        return abstraction(any_term(random, size - 1, depth + 1, palette, variables, abstractions));
    }
    let head = random.between(1, size - 2);
    let head_term = any_term(random, head, depth, palette, variables, abstractions);
    application(head_term, any_term(random, size - 1 - head, depth, palette, variables, abstractions))
}

/// A normal term of exactly `size` records without variables. A head (never asked for 2 records) is no abstraction.
pub fn normal_term(random: &mut Random, size: usize, depth: usize, is_head: bool, palette: &Palette) -> Term {
    if size == 1 {
        return leaf(random, depth, palette, false);
    }
    if size == 2 || (!is_head && random.chance(35)) {
        let term = abstraction(normal_term(random, size - 1, depth + 1, false, palette));
        if !term.is_redex() {
            return term;
        }
        // An abstraction over `M #0`: put a constant for the `#0`.
        let Abstraction(body) = &term else { unreachable!() };
        let Application(head, _) = &**body else { unreachable!() };
        return abstraction(application((**head).clone(), constant(random, palette)));
    }
    let mut head = random.between(1, size - 2);
    if head == 2 {
        head = 1;
    }
    let head_term = normal_term(random, head, depth, true, palette);
    application(head_term, normal_term(random, size - 1 - head, depth, false, palette))
}

/// A value; half of them are abstractions, so that heads reduce.
pub fn value(random: &mut Random, size: usize, palette: &Palette) -> Term {
    let mut value = normal_term(random, size, 0, false, palette);
    for _ in 0..2 {
        if !value.is_abstraction() {
            value = normal_term(random, size, 0, false, palette);
        }
    }
    value
}

/// A pattern or right side of up to about `most` records.
pub fn pattern(random: &mut Random, most: usize, palette: &Palette) -> Term {
    let size = random.between(1, most);
    let abstractions = random.pick(&[10, 25, 25, 45]);
    let term = any_term(random, size, 0, palette, true, abstractions);
    let variable = Variable(random.pick(&palette.variables));
    match random.below(20) {
        0 => application(abstraction(Local(0)), term),
        1 => application(abstraction(constant(random, palette)), term),
        2 => abstraction(application(term.shift(1, 0), Local(0))),
        3..=4 => application(application(variable, term), leaf(random, 0, palette, true)),
        5..=8 => application(variable, term),
        // Its swept form is an abstraction over `M #0`, where M is the swept form of the term.
        9 => abstraction(application(abstraction(application(Local(0), Local(1))), term.shift(1, 0))),
        _ => term,
    }
}

/// Turns some parts of a recipe into variables, or applications of variables.
pub fn generalise(random: &mut Random, term: &Term, palette: &Palette) -> Term {
    if random.chance(12) {
        let variable = Variable(random.pick(&palette.variables));
        return match random.below(3) {
            0 => application(variable, generalise(random, term, palette)),
            1 if !term.is_closed() => application(variable, Local(0)),
            _ => variable,
        };
    }
    match term {
        Application(head, argument) => {
            let head = generalise(random, head, palette);
            application(head, generalise(random, argument, palette))
        }
        Abstraction(body) => abstraction(generalise(random, body, palette)),
        other => other.clone(),
    }
}

/// Values for the variables that occur in one of the terms.
fn assign(random: &mut Random, terms: &[&Term], palette: &Palette) -> Line {
    let mut line = Line::default();
    for (variable, entry) in line.iter_mut().enumerate() {
        if terms.iter().any(|term| term.occurs(variable)) {
            let size = random.pick(&[1, 1, 2, 2, 3, 4, 5, 6, 8]);
            *entry = Some(value(random, size, palette));
        }
    }
    // Now and then a value that is a closed part of another, so that they can share records.
    if random.chance(15) {
        let given: Vec<usize> = (0..VARIABLES).filter(|variable| line[*variable].is_some()).collect();
        if given.len() > 1 {
            let (from, to) = (random.pick(&given), random.pick(&given));
            if let Some(Application(head, argument)) = line[from].clone() {
                line[to] = Some(if random.chance(50) { (*head).clone() } else { (*argument).clone() });
            } else {
                line[to] = line[from].clone();
            }
        }
    }
    line
}

/// The swept form of the pattern under some values if that is a recipe of at most `most` records, else any normal term.
fn recipe_for(random: &mut Random, pattern: &Term, palette: &Palette, most: usize) -> Term {
    for _ in 0..4 {
        let line = assign(random, &[pattern], palette);
        if let Some(swept) = sweep(&pattern.fill(&line), MOST_SWEPT_RECORDS) {
            if swept.size() <= most && swept.is_normal() {
                return swept;
            }
        }
    }
    let size = random.between(1, most.min(9));
    normal_term(random, size, 0, false, palette)
}

// Calls of list.

fn list_call(random: &mut Random, most_steps: usize) -> Call {
    let mut palette = palette(random);
    let (pattern, recipe) = match random.below(100) {
        // A variable applied to one to three parts, and any recipe: many lines.
        0..=19 => {
            let size = random.between(1, 9);
            let recipe = normal_term(random, size, 0, false, &palette);
            let depth = random.pick(&[0, 0, 0, 1, 2]);
            let mut spine = Variable(random.pick(&palette.variables));
            for _ in 0..random.pick(&[1, 1, 1, 2, 2, 3]) {
                let size = random.pick(&[1, 1, 1, 2, 3]);
                spine = application(spine, any_term(random, size, depth, &palette, true, 30));
            }
            let pattern = (0..depth).fold(spine, |body, _| abstraction(body));
            (pattern, recipe)
        }
        // A small pattern and a recipe that it matches, or any small recipe.
        20..=46 => {
            let pattern = pattern(random, 7, &palette);
            let recipe = if random.chance(80) {
                recipe_for(random, &pattern, &palette, 12)
            } else {
                let size = random.between(1, 8);
                normal_term(random, size, 0, false, &palette)
            };
            (pattern, recipe)
        }
        // Closed and open parts below several binders, and variables for them.
        47..=54 => mixed_parts(random, &palette),
        // A recipe made more general.
        55..=74 => {
            let size = random.between(2, 10);
            let recipe = normal_term(random, size, 0, false, &palette);
            (generalise(random, &recipe, &palette), recipe)
        }
        // A long recipe of different constants and a pattern of a few records.
        75..=82 => {
            palette = palette.varied(random);
            let size = random.between(20, 97);
            let recipe = normal_term(random, size, 0, false, &palette);
            (small_shape(random, &recipe, &palette), recipe)
        }
        // Many abstractions, few applications: long patterns.
        83..=91 => {
            let size = random.between(8, 33);
            let pattern = any_term(random, size, 0, &palette, true, 85);
            let recipe = recipe_for(random, &pattern, &palette, 96);
            (pattern, recipe)
        }
        // Many copies of one constant: twice as many lines for each.
        _ => {
            let copies = if random.chance(6) { random.between(8, 12) } else { random.between(1, 6) };
            let repeated = constant(random, &palette);
            let mut recipe = constant(random, &palette);
            for _ in 0..copies {
                recipe = application(recipe, repeated.clone());
            }
            if random.chance(50) {
                recipe = application(constant(random, &palette), recipe);
            }
            if random.chance(30) {
                recipe = abstraction(recipe.shift(1, 0));
            }
            let argument = if random.chance(60) { repeated } else { leaf(random, 0, &palette, true) };
            (application(Variable(random.pick(&palette.variables)), argument), recipe)
        }
    };
    // Now and then a recipe that isn't normal.
    let recipe = if random.chance(4) {
        let size = random.between(2, 10);
        any_term(random, size, 0, &palette, false, 40)
    } else {
        recipe
    };
    let (lines_length, values_length) = room(random, &pattern, &recipe, most_steps);
    Call {
        operation: Operation::List,
        pattern: encode(&pattern),
        right: Vec::new(),
        recipe: encode(&recipe),
        lines: random.bytes(lines_length),
        values: random.bytes(values_length),
        output: Vec::new(),
        work: work_area(random),
    }
}

/// A recipe that applies a local to closed and open parts below several binders, and a pattern with variables for most of the parts: a variable takes a part
/// that is closed, and has no value for an open one. The pattern may have further binders, and ends in their locals then. The parts are few and short, for
/// the plain lister.
fn mixed_parts(random: &mut Random, palette: &Palette) -> (Term, Term) {
    let binders = random.between(1, 6);
    let further = random.pick(&[0, 0, 0, 1, 1, 2]);
    // No abstraction over `#0` and its arguments is a redex.
    let mut recipe = Local(0);
    let mut pattern = Local(further);
    let mut add = |part: Term, general: Term| {
        recipe = application(recipe.clone(), part);
        pattern = application(pattern.clone(), general);
    };
    if random.chance(80) {
        let parts = random.pick(&[1, 1, 2]);
        for number in 0..parts {
            let size = random.pick(&[1, 2, 2, 3, 3, 4, 5]);
            let mut part = normal_term(random, size, 0, false, palette);
            if random.chance(60) {
                while part.is_closed() {
                    part = normal_term(random, size, binders, false, palette);
                }
            }
            let inside = part.shift(further, 0);
            let (variable, other) = (Variable(number), Variable(number + parts));
            let applied = application(variable.clone(), Local(random.below(binders + further)));
            let general = match random.below(10) {
                0 => inside,
                1 => applied,
                2 => application(applied, other),
                3 => application(abstraction(generalise(random, &inside.shift(1, 0), palette)), other),
                _ => variable,
            };
            add(part, general);
        }
    } else {
        // What one variable comes to when it is applied to two constants.
        let size = random.between(1, 5);
        let mut line = Line::default();
        line[0] = Some(value(random, size, palette));
        for _ in 0..2 {
            let general = application(Variable(0), constant(random, palette));
            add(sweep(&general.fill(&line), MOST_SWEPT_RECORDS).expect("it is short"), general);
        }
    }
    let pattern = (0..further).rev().fold(pattern, |body, number| application(body, Local(number)));
    ((0..binders + further).fold(pattern, |body, _| abstraction(body)), (0..binders).fold(recipe, |body, _| abstraction(body)))
}

/// A pattern of a few records, or a tower of abstractions, that suits a long recipe.
fn small_shape(random: &mut Random, recipe: &Term, palette: &Palette) -> Term {
    let first = Variable(random.pick(&palette.variables));
    let second = Variable(random.pick(&palette.variables));
    match random.below(10) {
        0 => first,
        1 => application(first, second),
        2 => application(first, some_constant(random, recipe)),
        3 => abstraction(application(first, Local(0))),
        4 => abstraction(abstraction(application(application(first, Local(1)), Local(0)))),
        5 => application(abstraction(Local(0)), first),
        6 => application(abstraction(some_constant(random, recipe)), first),
        7 => abstraction(application(application(first, Local(0)), second)),
        8 => application(abstraction(application(second, Local(0))), first),
        _ => {
            let mut tower = first;
            for _ in 0..random.between(1, 31) {
                tower = abstraction(tower);
            }
            tower
        }
    }
}

/// One of the constants of a recipe, or `k0`.
pub fn some_constant(random: &mut Random, recipe: &Term) -> Term {
    match recipe {
        Application(head, argument) => {
            if random.chance(50) {
                some_constant(random, head)
            } else {
                some_constant(random, argument)
            }
        }
        Abstraction(body) => some_constant(random, body),
        Constant(n) => Constant(*n),
        _ => Constant(0),
    }
}

/// The lengths of the line and value tables: ample, exact, one too few, or any.
fn room(random: &mut Random, pattern: &Term, recipe: &Term, most_steps: usize) -> (usize, usize) {
    match random.below(100) {
        0..=19 => (MOST_TABLE_BYTES, MOST_TABLE_BYTES),
        20..=49 => match lister::list(pattern, recipe, most_steps) {
            Some(lines) => {
                let (lines, values) = lay_out(&lines);
                let (lines, values) = (lines.len(), values.len());
                let (lines, values) = match random.below(5) {
                    0 => (lines.saturating_sub(LINE_BYTES), values),
                    1 => (lines, values.saturating_sub(RECORD_BYTES)),
                    2 => (lines + LINE_BYTES, values + RECORD_BYTES),
                    _ => (lines, values),
                };
                (lines.min(MOST_TABLE_BYTES), values.min(MOST_TABLE_BYTES))
            }
            None => (MOST_TABLE_BYTES, MOST_TABLE_BYTES),
        },
        50..=54 => (0, random.below(20) * RECORD_BYTES),
        55..=59 => (random.below(20) * LINE_BYTES, 0),
        60..=74 => (random.below(8) * LINE_BYTES, random.below(40) * RECORD_BYTES),
        _ => (random.between(4, 200) * LINE_BYTES, random.between(20, 4000) * RECORD_BYTES),
    }
}

// Calls of check, sweep and rewrite.

fn assignment_call(random: &mut Random, operation: Operation) -> Call {
    let palette = palette(random);
    let most = if random.chance(10) { 33 } else { 9 };
    let mut left = pattern(random, most, &palette);
    if random.chance(3) {
        let size = random.between(31, 33);
        left = any_term(random, size, 0, &palette, true, 25);
    }
    let mut right = pattern(random, most, &palette);
    // The right side mostly uses variables of the left side.
    if random.chance(30) {
        right = application(left.clone(), right);
    } else if random.chance(10) {
        right = left.clone();
    }
    let terms: Vec<&Term> = if operation == Operation::Rewrite { vec![&left, &right] } else { vec![&left] };
    let mut line = assign(random, &terms, &palette);
    if operation == Operation::Rewrite && random.chance(15) {
        add_sweeps(random, &mut left, &mut right, &mut line, &palette);
    } else if random.chance(25) {
        let near = if operation == Operation::Rewrite && random.chance(60) { &mut right } else { &mut left };
        grow(random, near, &mut line, &palette);
    }
    let recipe = match (sweep(&left.fill(&line), MOST_SWEPT_RECORDS), random.below(100)) {
        (_, 0..=3) => {
            let size = random.between(1, 10);
            any_term(random, size, 0, &palette, false, 40)
        }
        (_, 4..=5) => {
            let size = random.between(94, 98);
            normal_term(random, size, 0, false, &palette)
        }
        (Some(swept), 6..=89) if swept.size() <= MOST_RECIPE_RECORDS && swept.is_normal() => swept,
        (Some(swept), 90..=93) if swept.size() <= MOST_RECIPE_RECORDS => swept,
        _ => {
            let size = random.between(1, 10);
            normal_term(random, size, 0, false, &palette)
        }
    };
    // Now and then one value of the wrong sort: not normal, not closed, or at the limit of 160 records.
    let occurring: Vec<usize> = (0..VARIABLES).filter(|variable| line[*variable].is_some()).collect();
    if !occurring.is_empty() && random.chance(8) {
        let variable = random.pick(&occurring);
        let size = random.between(1, 9);
        line[variable] = Some(match random.below(4) {
            0 => any_term(random, size, 0, &palette, false, 40),
            1 => any_term(random, size, 1, &palette, false, 40),
            2 => any_term(random, size, 0, &palette, true, 30),
            _ => {
                let size = random.between(158, 162);
                normal_term(random, size, 0, false, &palette)
            }
        });
    }
    let length = match operation {
        Operation::Sweep => output_length(random, sweep(&left.fill(&line), 1 << 16)),
        Operation::Rewrite => output_length(random, sweep_until_normal(&right, &line).ok().map(|(normal, _)| normal)),
        _ => 0,
    };
    let output = random.bytes(length);
    let (lines, values) = place(random, &line);
    let is_rewrite = operation == Operation::Rewrite;
    Call {
        operation,
        pattern: encode(&left),
        right: if is_rewrite { encode(&right) } else { Vec::new() },
        recipe: if operation == Operation::Sweep { Vec::new() } else { encode(&recipe) },
        lines,
        values,
        output,
        work: work_area(random),
    }
}

/// Puts a part into the right side that takes several sweeps: a value applied to another, each as it is or as the value of a variable, of one variable if
/// they are equal. The left side may throw these values away.
fn add_sweeps(random: &mut Random, left: &mut Term, right: &mut Term, line: &mut Line, palette: &Palette) {
    let (head, argument) = slow_pair(random, palette);
    let mut unused: Vec<usize> = (0..VARIABLES).filter(|variable| line[*variable].is_none()).collect();
    let mut side = |random: &mut Random, value: &Term| {
        if unused.is_empty() || (value.size() < 10 && random.chance(50)) {
            return value.clone();
        }
        let variable = unused.swap_remove(random.below(unused.len()));
        line[variable] = Some(value.clone());
        if random.chance(30) {
            *left = application(abstraction(left.shift(1, 0)), Variable(variable));
        }
        Variable(variable)
    };
    let head_side = side(random, &head);
    let argument_side = if head == argument && random.chance(50) { head_side.clone() } else { side(random, &argument) };
    let slow = application(head_side, argument_side);
    let other = right.clone();
    *right = match random.below(10) {
        0 => application(slow, other),
        1 => application(application(constant(random, palette), other), slow),
        2 => application(abstraction(constant(random, palette)), slow),
        3 => abstraction(slow),
        4 => application(abstraction(application(Local(0), other.shift(1, 0))), slow),
        // Behind two values of such sizes that the longest of the swept forms has about 256 records.
        5..=6 => {
            let next = |form: &Term| sweep(form, MOST_SWEPT_RECORDS);
            let forms = successors(next(&application(head, argument)), next).take(MOST_SWEEPS);
            let longest = forms.map(|form| form.size()).max().unwrap_or(0);
            let room = (MOST_SWEPT_RECORDS + random.below(3)).saturating_sub(longest + 3);
            let [first, second] = [room / 2, room - room / 2].map(|size| {
                let value = normal_term(random, size.max(3), 0, true, palette);
                side(random, &value)
            });
            application(application(first, second), slow)
        }
        _ => slow,
    };
}

/// A head and an argument, both values, whose application takes several sweeps, or never gets normal.
pub fn slow_pair(random: &mut Random, palette: &Palette) -> (Term, Term) {
    // In the form of a head it may stand anywhere.
    let size = random.pick(&[1, 1, 1, 3, 4, 5, 8, 20, 50]);
    let rest = normal_term(random, size, 0, true, palette);
    match random.below(3) {
        // `\ @ #0` again and again: a sweep takes the first one off the head, and head and argument change places. So with m of them in the head and n in
        // the argument there are 2m sweeps, or 2n + 1 if m is above n.
        0 => {
            let least = match random.below(3) {
                0 => random.between(1, 4),
                1 => random.between(5, 30),
                _ => random.between(MOST_SWEEPS / 2 - 1, MOST_SWEEPS / 2),
            };
            let chain = |links: usize| (0..links).fold(rest.clone(), |chain, _| abstraction(application(Local(0), chain)));
            (chain(least + random.below(3)), chain(least + random.below(3)))
        }
        // A local applied to itself, once or twice: each sweep gives the application again, alone, applied on, beside the rest or below an abstraction. There is
        // no normal form.
        1 => {
            let twice = application(Local(0), Local(0));
            let value = abstraction(match random.below(5) {
                0 => twice,
                1 => application(twice, Local(0)),
                2 => application(twice, rest),
                3 => application(rest, twice),
                _ => abstraction(twice.shift(1, 0)),
            });
            (value.clone(), value)
        }
        // A numeral applied to another, which gives a power.
        _ => {
            let numeral = |times: usize| {
                let body = (0..times).fold(Local(0), |body, _| application(Local(1), body));
                abstraction(abstraction(body))
            };
            // Not 1, which is no value: it holds an abstraction over `#1 #0`.
            let times = [0, 2, 2, 2, 3, 3, 4, 5];
            (numeral(random.pick(&times)), numeral(random.pick(&times)))
        }
    }
}

/// Gives one variable a value of such a size that the swept form has about 256 records. For that the term may get more uses of it.
fn grow(random: &mut Random, term: &mut Term, line: &mut Line, palette: &Palette) {
    let occurring: Vec<usize> = (0..VARIABLES).filter(|variable| term.occurs(*variable)).collect();
    if occurring.is_empty() {
        return;
    }
    let grown = random.pick(&occurring);
    let inner = term.clone();
    *term = match random.below(6) {
        0 => inner,
        1 => application(application(Constant(3), inner), Variable(grown)),
        2 => application(abstraction(application(Local(0), Local(0))), inner),
        3 => abstraction(application(abstraction(application(Local(0), application(Local(1), Local(0)))), inner.shift(1, 0))),
        4 => application(Constant(3), abstraction(application(inner.shift(1, 0), Variable(grown)))),
        _ => application(abstraction(application(application(Local(0), Local(0)), abstraction(Local(1)))), inner),
    };
    let swept_size = |line: &Line| sweep(&term.fill(line), 4096).map(|swept| swept.size());
    line[grown] = Some(Constant(7));
    let small = swept_size(line);
    line[grown] = Some(application(Constant(7), Constant(7)));
    let larger = swept_size(line);
    let (Some(small), Some(larger)) = (small, larger) else { return };
    let mut size = random.between(100, 162);
    if larger > small && small < MOST_SWEPT_RECORDS {
        // Each record more of the value is `uses` records more.
        let uses = (larger - small) / 2;
        size = (MOST_SWEPT_RECORDS - small) / uses + random.below(3);
    }
    let size = size.clamp(3, 161);
    // In the form of a head it may stand anywhere.
    line[grown] = Some(normal_term(random, size, 0, true, palette));
    // The part that is long may be thrown away.
    if random.chance(25) {
        *term = application(abstraction(Constant(1)), term.clone());
    }
}

/// The length of the output table: exact for what is to be written, one record too few, or any.
pub fn output_length(random: &mut Random, written: Option<Term>) -> usize {
    let exact = written.map_or(40, |written| written.size()) * RECORD_BYTES;
    let length = match random.below(12) {
        0..=3 => exact,
        4 => exact - RECORD_BYTES,
        5 => 0,
        6 => MOST_TABLE_BYTES,
        7 => random.below(30) * RECORD_BYTES,
        _ => exact + random.below(40) * RECORD_BYTES,
    };
    length.min(MOST_TABLE_BYTES)
}

/// A line and a value table with the values in it: in any order, with gaps, shared where equal records stand already. The entries of other
/// variables hold anything.
fn place(random: &mut Random, line: &Line) -> (Vec<u8>, Vec<u8>) {
    let mut entries = if random.chance(50) { vec![0; LINE_BYTES] } else { random.bytes(LINE_BYTES) };
    let mut table = Vec::new();
    let gaps = random.chance(30);
    let mut order: Vec<usize> = (0..VARIABLES).collect();
    for at in 0..VARIABLES {
        if random.chance(30) {
            let other = random.below(VARIABLES);
            order.swap(at, other);
        }
    }
    for variable in order {
        let Some(value) = &line[variable] else { continue };
        if gaps && random.chance(50) {
            let length = random.below(6) * RECORD_BYTES;
            table.extend(random.bytes(length));
        }
        let bytes = encode(value);
        let standing = table.chunks(RECORD_BYTES).enumerate().map(|(first, _)| first).find(|first| table[first * RECORD_BYTES..].starts_with(&bytes));
        let first = match standing {
            Some(first) if random.chance(60) => first,
            _ => {
                table.extend_from_slice(&bytes);
                (table.len() - bytes.len()) / RECORD_BYTES
            }
        };
        write_entry(&mut entries, variable, first, value.size());
    }
    // Now and then the values stand at the very end of the longest table.
    if random.chance(2) && table.len() <= MOST_TABLE_BYTES {
        let before = (MOST_TABLE_BYTES - table.len()) / RECORD_BYTES;
        let mut long = random.bytes(before * RECORD_BYTES);
        long.extend(table);
        table = long;
        for variable in (0..VARIABLES).filter(|variable| line[*variable].is_some()) {
            let (first, count) = read_entry(&entries, variable);
            write_entry(&mut entries, variable, first + before, count);
        }
    }
    if gaps {
        let length = random.below(6) * RECORD_BYTES;
        table.extend(random.bytes(length));
        table.truncate(MOST_TABLE_BYTES);
    }
    (entries, table)
}

/// A work area full of one byte, of anything, or of zeros.
pub fn work_area(random: &mut Random) -> Vec<u8> {
    match random.below(10) {
        0 => vec![0; MOST_TABLE_BYTES],
        1 => random.bytes(MOST_TABLE_BYTES),
        _ => vec![random.below(256) as u8; MOST_TABLE_BYTES],
    }
}
