//! Random cases of full size: patterns of 20 to 32 records, recipes of 60 to 96. Every other case is planted: its recipe is the swept form of its pattern
//! under random values. The others' recipes are made without a look at the pattern.

use crate::limited::{Known, Task};
use crate::random::Random;
use crate::terms::*;

/// The number of cases.
pub const CASES: usize = 2400;
const SEED: u64 = 20;
/// How many times values are tried before the pattern is given up: with some patterns no recipe has the size.
const TRIES: usize = 40;

/// What one case draws from: few constants and variables, so that equal ones are common; and how many parts in a hundred are of a sort.
struct Palette {
    constants: Vec<Record>,
    variables: Vec<Record>,
    abstractions: usize,
    redexes: usize,
    flexible: usize,
}

pub fn is_planted(case: usize) -> bool {
    case % 2 == 0
}

/// The case of that number, always the same one.
pub fn task(case: usize) -> Task {
    let mut random = Random::for_case(SEED, case);
    loop {
        let palette = palette(&mut random);
        let pattern = pattern(&mut random, &palette);
        if !is_planted(case) {
            return Task { pattern, recipe: recipe(&mut random, &palette), known: Known::Nothing };
        }
        if let Some((recipe, values)) = planted(&mut random, &pattern, &palette) {
            return Task { pattern, recipe, known: Known::Match(values) };
        }
    }
}

fn palette(random: &mut Random) -> Palette {
    let constants = (0..random.between(2, 5)).map(|n| record(CONSTANT, n as u32)).collect();
    let mut variables: Vec<Record> = (0..VARIABLES).map(|n| record(VARIABLE, n as u32)).collect();
    let count = random.between(1, 5);
    while variables.len() > count {
        variables.remove(random.below(variables.len()));
    }
    Palette { constants, variables, abstractions: random.pick(&[5, 15, 25]), redexes: random.pick(&[0, 4, 12]), flexible: random.pick(&[30, 50, 70]) }
}

/// A constant or, within abstractions, often one of their locals.
fn rigid_leaf(random: &mut Random, depth: usize, palette: &Palette) -> Record {
    if depth > 0 && random.chance(45) {
        record(LOCAL, random.below(depth) as u32)
    } else {
        random.pick(&palette.constants)
    }
}

/// Writes the applications and the head of a part of `size` records (3 or more); gives the records of its one to three arguments.
fn begin_spine(random: &mut Random, size: usize, head: Record, out: &mut Vec<Record>) -> Vec<usize> {
    let count = random.between(1, 3.min((size - 1) / 2));
    out.extend(vec![record(APPLICATION, 0); count]);
    out.push(head);
    let mut shares = vec![1; count];
    for _ in 0..size - 1 - 2 * count {
        shares[random.below(count)] += 1;
    }
    shares
}

/// A pattern that has a variable.
fn pattern(random: &mut Random, palette: &Palette) -> Vec<Record> {
    loop {
        let mut pattern = Vec::new();
        let size = random.between(20, PATTERN_RECORDS);
        write_pattern(random, size, 0, palette, &mut pattern);
        if pattern.iter().any(|&record| kind(record) == VARIABLE) {
            return pattern;
        }
    }
}

fn write_pattern(random: &mut Random, size: usize, depth: usize, palette: &Palette, out: &mut Vec<Record>) {
    let leaf = if random.chance(palette.flexible) { random.pick(&palette.variables) } else { rigid_leaf(random, depth, palette) };
    if size == 1 {
        out.push(leaf);
    } else if size == 2 || random.chance(palette.abstractions) {
        out.push(record(ABSTRACTION, 0));
        write_pattern(random, size - 1, depth + 1, palette, out);
    } else if size > 3 && random.chance(palette.redexes) {
        out.extend([record(APPLICATION, 0), record(ABSTRACTION, 0)]);
        let body = random.between(1, size - 3);
        write_pattern(random, body, depth + 1, palette, out);
        write_pattern(random, size - 2 - body, depth, palette, out);
    } else {
        for argument in begin_spine(random, size, leaf, out) {
            write_pattern(random, argument, depth, palette, out);
        }
    }
}

/// A closed normal term of 60 to 96 records.
fn recipe(random: &mut Random, palette: &Palette) -> Vec<Record> {
    let mut recipe = Vec::new();
    let size = random.between(60, RECIPE_RECORDS);
    write_normal(random, size, 0, palette, &mut recipe);
    recipe
}

fn write_normal(random: &mut Random, size: usize, depth: usize, palette: &Palette, out: &mut Vec<Record>) {
    let leaf = rigid_leaf(random, depth, palette);
    if size == 1 {
        out.push(leaf);
    } else if size == 2 || random.chance(palette.abstractions) {
        let start = out.len();
        out.push(record(ABSTRACTION, 0));
        write_normal(random, size - 1, depth + 1, palette, out);
        if !is_normal(&out[start..]) {
            // an abstraction over `M #0`: a constant in the place of the `#0`
            out.pop();
            out.push(random.pick(&palette.constants));
        }
    } else {
        for argument in begin_spine(random, size, leaf, out) {
            write_normal(random, argument, depth, palette, out);
        }
    }
}

/// A value: up to three abstractions over a body that may use all of them.
fn value(random: &mut Random, palette: &Palette) -> Vec<Record> {
    let depth = random.pick(&[0, 1, 1, 2, 2, 3]);
    loop {
        let mut value = vec![record(ABSTRACTION, 0); depth];
        let size = random.pick(&[1, 3, 5, 7, 9, 12, 16, 24]);
        write_normal(random, size, depth, palette, &mut value);
        if is_normal(&value) {
            return value;
        }
    }
}

/// A recipe of full size that the pattern matches, and the values that it does so with.
fn planted(random: &mut Random, pattern: &[Record], palette: &Palette) -> Option<(Vec<Record>, [Vec<Record>; VARIABLES])> {
    for _ in 0..TRIES {
        let values: [Vec<Record>; VARIABLES] = std::array::from_fn(|_| value(random, palette));
        let swept = sweep(pattern, &values.each_ref().map(|value| Some(&value[..])));
        if (60..=RECIPE_RECORDS).contains(&swept.len()) && is_normal(&swept) {
            return Some((swept, values));
        }
    }
    None
}
