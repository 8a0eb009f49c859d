//! Random calls of the book: rules and a recipe of several sorts, some of them then damaged.

use super::damage::damage;
use super::*;
use crate::generate::*;
use crate::limits::abstractions;
use crate::palette::{constant, near, palette, Palette};
use crate::random::Random;

/// Rules in book order, and a recipe.
struct Problem {
    rules: Vec<Rule>,
    recipe: Term,
}

pub fn call(random: &mut Random, most_steps: usize) -> Call {
    let palette = palette(random);
    let Problem { mut rules, recipe } = match random.below(100) {
        0..=31 => any_rules(random, &palette),
        32..=45 => long_recipe(random, &palette),
        46..=65 => applied_form(random, &palette),
        66..=76 => slow_right_side(random, &palette),
        77..=97 => near_limit(random, &palette),
        _ => long_listing(random, &palette),
    };
    add_idle_rules(random, &mut rules, &recipe, &palette);
    let book = rules.iter().flat_map(|rule| place(rule, |length| behind_count(random, length))).collect();
    // Now and then a recipe that isn't normal.
    let recipe = if random.chance(2) {
        let size = random.between(2, 10);
        any_term(random, size, 0, &palette, false, 40)
    } else {
        recipe
    };
    let mut call = Call { book, recipe: encode(&recipe), output: vec![0x55; MOST_TABLE_BYTES], work: work_area(random), pairs: random.next() };
    // Now and then a recipe that the same book gave.
    if random.chance(8) {
        call.recipe = written(&call, most_steps).map_or(call.recipe, |recipe| encode(&recipe));
    }
    let length = match random.chance(60) {
        true => random.pick(&[96, 97, 200, 256, 351, 16_384]) * RECORD_BYTES,
        false => output_length(random, written(&call, most_steps)),
    };
    call.output = random.bytes(length);
    if random.chance(20) {
        damage(random, &mut call);
        while random.chance(30) {
            damage(random, &mut call);
        }
    }
    call
}

/// What the book gives; nothing if it refuses the call, or if the lister needs more than `most_steps` for a pair.
fn written(call: &Call, most_steps: usize) -> Option<Term> {
    let Outcome { answer, output, .. } = expected_within(call, most_steps);
    read_recipe(&output[..answer.max(0) as usize * RECORD_BYTES]).ok()
}

/// The place of a rule, with bytes behind the counted records of each side.
pub(super) fn place(rule: &Rule, mut behind: impl FnMut(usize) -> Vec<u8>) -> Vec<u8> {
    let sides = [&rule.left, &rule.right];
    let mut place = sides.map(|side| (side.size() as u16).to_be_bytes()).concat();
    for side in sides {
        assert!(is_side(side), "a side has more than 32 records");
        let records = encode(side);
        let length = SIDE_BYTES - records.len();
        place.extend(records);
        place.extend(behind(length));
    }
    place
}

/// Zeros, records, or anything.
fn behind_count(random: &mut Random, length: usize) -> Vec<u8> {
    match random.below(3) {
        0 => vec![0; length],
        1 => [3, 0, 0, 1].repeat(length / RECORD_BYTES),
        _ => random.bytes(length),
    }
}

/// Different constants that no palette has on purpose, of its bits; their bytes are nearly those of others.
fn names<const COUNT: usize>(random: &mut Random, palette: &Palette) -> [Term; COUNT] {
    let mut numbers = vec![3, 7, 254, 257, 258, 511, 512, 4_096, 32_768, 65_279, 65_534];
    if palette.bits() == CONSTANT_BITS {
        numbers.extend([0x01_0003, 0x02_0003, 0x03_0000, 0x01_0007, 0x07_0000, 0x01_0102, 0x02_0101, 0x7F_FFFF, 0xFE_FFFF, 0xFF_00FF, 0xFF_FEFF]);
    }
    std::array::from_fn(|_| Constant(numbers.swap_remove(random.below(numbers.len()))))
}

/// A term applied to others.
fn spine(head: &Term, arguments: impl IntoIterator<Item = Term>) -> Term {
    arguments.into_iter().fold(head.clone(), application)
}

fn is_side(term: &Term) -> bool {
    term.size() <= MOST_PATTERN_RECORDS
}

fn variables_of(term: &Term) -> Vec<usize> {
    (0..VARIABLES).filter(|variable| term.occurs(*variable)).collect()
}

/// One of the closed parts; the whole is one.
fn some_closed_part(random: &mut Random, recipe: &Term) -> Term {
    let closed: Vec<&Term> = parts(recipe).iter().map(|part| part.term).filter(|term| term.is_closed()).collect();
    random.pick(&closed).clone()
}

// Small rules of all shapes.

fn any_rules(random: &mut Random, palette: &Palette) -> Problem {
    let varied = varied_palette(random, palette);
    let (size, palette) = if random.chance(10) { (random.between(15, 40), &varied) } else { (random.between(1, 14), palette) };
    let recipe = normal_term(random, size, 0, false, palette);
    let count = random.pick(&[1, 1, 2, 2, 3, 3, 4, 6]);
    Problem { rules: (0..count).map(|_| any_rule(random, &recipe, palette)).collect(), recipe }
}

fn any_rule(random: &mut Random, recipe: &Term, palette: &Palette) -> Rule {
    let mut left = match random.below(10) {
        0..=5 => {
            let part = some_closed_part(random, recipe);
            generalise(random, &part, palette)
        }
        6..=7 => pattern(random, 6, palette),
        8 => some_constant(random, recipe),
        _ => {
            let [absent] = names(random, palette);
            application(absent, Variable(random.pick(&palette.variables)))
        }
    };
    left = match random.below(100) {
        0..=19 => with_dropped(random, &left, palette),
        // Sides that sweep to what they hold: their first records say nothing of the parts that they match.
        20..=25 => abstraction(application(left.shift(1, 0), Local(0))),
        26..=31 => application(abstraction(Local(0)), left),
        32..=37 => application(abstraction(application(left.shift(1, 0), Local(0))), Variable(random.pick(&palette.variables))),
        _ => left,
    };
    if random.chance(2) {
        let size = random.between(30, 32);
        left = any_term(random, size, 0, palette, true, 60);
    }
    if !is_side(&left) {
        left = Variable(random.pick(&palette.variables));
    }
    Rule { right: right_side(random, &left, palette), left }
}

/// The left side with an argument that it drops, so that variables which stand there alone are open in every line.
fn with_dropped(random: &mut Random, left: &Term, palette: &Palette) -> Term {
    let own = Variable(random.pick(&palette.variables));
    let other = Variable(random.below(VARIABLES));
    let dropped = match random.below(4) {
        0 => other,
        1 => application(other, own),
        2 => application(own, other),
        _ => application(application(own.clone(), other), own),
    };
    application(abstraction(left.shift(1, 0)), dropped)
}

/// A right side that mostly has variables of the left side alone.
fn right_side(random: &mut Random, left: &Term, palette: &Palette) -> Term {
    let mut variables = variables_of(left);
    if random.chance(12) {
        variables.push(random.below(VARIABLES));
    }
    let has_variables = !variables.is_empty();
    let palette = Palette { constants: palette.constants.clone(), variables };
    let size = if random.chance(3) { random.between(30, 32) } else { random.between(1, 9) };
    let abstractions = random.pick(&[10, 25, 45]);
    match random.below(10) {
        0 => left.clone(),
        1 if has_variables => Variable(random.pick(&palette.variables)),
        2 if has_variables => application(constant(random, &palette), Variable(random.pick(&palette.variables))),
        _ => any_term(random, size, 0, &palette, has_variables, abstractions),
    }
}

/// Puts in rules that mostly aren't used: with a head that no part has, but perhaps one that is nearly it; with a variable on the right that the left lacks,
/// or that line 0 leaves open.
fn add_idle_rules(random: &mut Random, rules: &mut Vec<Rule>, recipe: &Term, palette: &Palette) {
    let count = match random.below(100) {
        0..=59 => 0,
        60..=95 => random.between(1, 4),
        96..=98 => random.between(5, 30),
        _ => MOST_PLACES,
    };
    for _ in 0..count {
        let present = some_constant(random, recipe);
        let head = if random.chance(50) { nearly(random, &present, palette) } else { Constant(random.between(40_000, 60_000) as u32) };
        let rule = match random.below(if recipe.size() < 12 { 10 } else { 7 }) {
            0..=3 => Rule { left: spine(&head, [Variable(random.below(VARIABLES))]), right: Constant(1) },
            4 => Rule { left: spine(&head, [Variable(1), Variable(2)]), right: spine(&Constant(2), [Variable(2), Variable(3)]) },
            5 => Rule { left: head, right: abstraction(Local(0)) },
            6 => Rule { left: Variable(5), right: spine(&Variable(5), [Variable(random.between(6, 7))]) },
            // Line 0 leaves the argument open, which has the lower number, and a later line doesn't.
            7 => Rule { left: spine(&Variable(7), [Variable(6)]), right: spine(&head, [Variable(6)]) },
            8 => Rule { left: spine(&Variable(3), [Variable(2)]), right: spine(&Variable(2), [Variable(3)]) },
            _ => Rule { left: spine(&abstraction(Variable(4)), [Variable(5)]), right: spine(&Variable(4), [Variable(5)]) },
        };
        rules.insert(random.below(rules.len() + 1), rule);
    }
    rules.truncate(MOST_PLACES);
}

// Long recipes of many different constants, and rules with rigid heads.

/// Many constants, and all variables.
fn varied_palette(random: &mut Random, palette: &Palette) -> Palette {
    Palette { variables: (0..VARIABLES).collect(), ..palette.varied(random) }
}

fn long_recipe(random: &mut Random, palette: &Palette) -> Problem {
    let palette = varied_palette(random, palette);
    let size = if random.chance(10) { MOST_RECIPE_RECORDS } else { random.between(20, MOST_RECIPE_RECORDS) };
    let recipe = normal_term(random, size, 0, false, &palette);
    let count = match random.below(100) {
        0..=79 => random.between(1, 10),
        80..=97 => random.between(11, 30),
        _ => random.between(31, MOST_PLACES),
    };
    let mut rules = Vec::new();
    for _ in 0..count {
        let part = some_closed_part(random, &recipe);
        let mut left = with_variables(random, &part, &palette);
        // Mostly some constant is another, so that the parts with this head have other arguments.
        if random.chance(70) {
            left = with_another_constant(random, &left, &palette);
        }
        if !is_side(&left) {
            left = some_constant(random, &recipe);
        }
        rules.push(Rule { right: right_side(random, &left, &palette), left });
    }
    Problem { rules, recipe }
}

/// The term with variables for some of the closed arguments in it.
fn with_variables(random: &mut Random, term: &Term, palette: &Palette) -> Term {
    match term {
        Application(head, argument) => {
            let head = with_variables(random, head, palette);
            let argument = match argument.is_closed() && random.chance(60) {
                true => Variable(random.pick(&palette.variables)),
                false => with_variables(random, argument, palette),
            };
            application(head, argument)
        }
        Abstraction(body) => abstraction(with_variables(random, body, palette)),
        leaf => leaf.clone(),
    }
}

/// Another constant, with one other byte.
fn nearly(random: &mut Random, constant: &Term, palette: &Palette) -> Term {
    let Constant(number) = constant else { unreachable!("a constant") };
    Constant(near(random, *number, palette.bits()))
}

/// The term with another constant in one place: nothing changes if it has none there.
fn with_another_constant(random: &mut Random, term: &Term, palette: &Palette) -> Term {
    match term {
        Application(head, argument) => {
            if random.chance(30) {
                application(with_another_constant(random, head, palette), (**argument).clone())
            } else {
                application((**head).clone(), with_another_constant(random, argument, palette))
            }
        }
        Abstraction(body) => abstraction(with_another_constant(random, body, palette)),
        Constant(_) if random.chance(50) => nearly(random, term, palette),
        Constant(_) => constant(random, palette),
        leaf => leaf.clone(),
    }
}

// Rules used at a head, so that the whole has a redex.

fn applied_form(random: &mut Random, palette: &Palette) -> Problem {
    let [name, other] = names(random, palette);
    let (head, argument) = match random.below(10) {
        0..=4 => slow_pair(random, palette),
        5..=6 => slow_spine(random),
        7 => {
            let [head, argument] = [random.between(2, 12), random.between(1, 20)].map(|size| value(random, size, palette));
            (head, argument)
        }
        // So many copies of the argument that the whole has about 256 records, or about 96.
        _ => {
            let most = random.pick(&[MOST_SWEPT_RECORDS, MOST_RECIPE_RECORDS]);
            let copies = Copies::near(random, most, 3, 6);
            let argument = normal_term(random, copies.size, 0, true, palette);
            (abstraction(copies.of(&other, Local(copies.wrappers))), argument)
        }
    };
    let at_head = spine(&name, [Variable(0)]);
    let (rule, redex) = match random.below(3) {
        // The name becomes the head.
        0 if is_side(&head) => (Rule { left: name.clone(), right: head }, spine(&name, [argument])),
        // Applied to the head it becomes the head, with another variable thrown away or not.
        1 => {
            let left = if random.chance(20) { spine(&abstraction(at_head), [Variable(1)]) } else { at_head };
            (Rule { left, right: Variable(0) }, spine(&name, [head, argument]))
        }
        // Applied to the argument it becomes a form that the head is put into.
        _ => (Rule { left: at_head, right: abstraction(spine(&Local(0), [Variable(0)])) }, spine(&name, [argument, head])),
    };
    if redex.size() > MOST_RECIPE_RECORDS {
        return any_rules(random, palette);
    }
    Problem { rules: vec![rule], recipe: surround(random, redex, palette) }
}

/// A local applied to itself, so many of it.
pub fn itself(count: usize) -> Term {
    abstraction(spine(&Local(0), (1..count).map(|_| Local(0))))
}

/// So many times `\ @ #0`, and then `\ #0`. With an even count `itself` applied to the chain takes, as counted, 2 sweeps more than count times links, and
/// gives `\ #0`.
pub fn chain(links: usize) -> Term {
    (0..links).fold(abstraction(Local(0)), |chain, _| abstraction(application(Local(0), chain)))
}

/// A head and an argument whose application takes many sweeps.
fn slow_spine(random: &mut Random) -> (Term, Term) {
    let near_most = [(3, 20), (4, 14), (5, 12), (6, 10)];
    let (links, copies) = if random.chance(50) { random.pick(&near_most) } else { (random.between(1, 5), random.between(2, 12)) };
    let (mut head, mut argument) = (itself(copies), chain(links));
    // One sweep more for each.
    for _ in 0..random.below(4) {
        (head, argument) = (abstraction(application(Local(0), argument)), head);
    }
    (head, argument)
}

/// Puts a closed term that is no abstraction into others, as far as the recipe has room: as an argument, a body, or a head.
fn surround(random: &mut Random, term: Term, palette: &Palette) -> Term {
    let mut whole = term;
    for _ in 0..random.pick(&[0, 0, 1, 1, 2, 3]) {
        let size = random.pick(&[1, 1, 3, 5]);
        let wrapped = match random.below(5) {
            0 if !whole.is_abstraction() => application(whole.clone(), normal_term(random, size, 0, false, palette)),
            1 => abstraction(whole.clone()),
            2 => abstraction(spine(&constant(random, palette), [Local(0), whole.clone()])),
            _ => application(normal_term(random, size, 0, true, palette), whole.clone()),
        };
        if wrapped.size() <= MOST_RECIPE_RECORDS {
            whole = wrapped;
        }
    }
    whole
}

// Right sides that take many sweeps.

fn slow_right_side(random: &mut Random, palette: &Palette) -> Problem {
    let [name] = names(random, palette);
    let (head, argument) = if random.chance(70) { slow_pair(random, palette) } else { slow_spine(random) };
    let slow = application(head.clone(), argument.clone());
    let (rule, part) = if is_side(&slow) && random.chance(40) {
        let left = if random.chance(50) { spine(&name, [Variable(0)]) } else { name.clone() };
        let size = random.between(1, 9);
        let part = if left == name { left.clone() } else { spine(&name, [normal_term(random, size, 0, false, palette)]) };
        (Rule { left, right: slow }, part)
    } else {
        let slow = spine(&Variable(2), [Variable(0)]);
        let right = match random.below(4) {
            0 => abstraction(slow),
            1 => application(constant(random, palette), slow),
            // Swept once, and then dropped.
            2 => application(abstraction(constant(random, palette)), slow),
            _ => slow,
        };
        (Rule { left: spine(&name, [Variable(2), Variable(0)]), right }, spine(&name, [head, argument]))
    };
    if part.size() > MOST_RECIPE_RECORDS {
        return any_rules(random, palette);
    }
    Problem { rules: vec![rule], recipe: surround(random, part, palette) }
}

// Forms of about 256 records, and new recipes of about 96.

/// So many copies of a term of `size` records, below so many abstractions.
struct Copies {
    count: usize,
    size: usize,
    wrappers: usize,
}

impl Copies {
    /// So that they have `most` records, one or two fewer or more.
    fn near(random: &mut Random, most: usize, least_count: usize, most_count: usize) -> Copies {
        let records = most - 2 + random.below(5);
        let count = random.between(least_count, most_count);
        let size = (records - 1) / count - 1;
        Copies { count, size, wrappers: records - 1 - count * (size + 1) }
    }

    /// A constant applied to the copies.
    fn of(&self, constant: &Term, term: Term) -> Term {
        abstractions(self.wrappers, &spine(constant, (0..self.count).map(|_| term.clone())))
    }
}

fn near_limit(random: &mut Random, palette: &Palette) -> Problem {
    let palette = varied_palette(random, palette);
    let [name, other, third] = names(random, &palette);
    let p0 = Variable(0);
    let left = spine(&name, [p0.clone()]);
    let (rule, copies) = match random.below(10) {
        // The left side drops them, some with variables that nothing assigns in the place of abstractions: filled with more than `k0` it would be longer.
        0..=2 => {
            let copies = Copies::near(random, MOST_SWEPT_RECORDS, 3, 6);
            let filled = if random.chance(60) { copies.wrappers / 2 } else { 0 };
            let arguments = (0..copies.count).map(|_| p0.clone()).chain((1..=filled).map(Variable));
            let dropped = abstractions(copies.wrappers - 2 * filled, &spine(&other, arguments));
            let right = if random.chance(80) { p0 } else { spine(&third, [Variable(1)]) };
            (Rule { left: spine(&abstraction(left), [dropped]), right }, copies)
        }
        // The right side has them, or drops them.
        3..=5 => {
            let copies = Copies::near(random, MOST_SWEPT_RECORDS, 3, 6);
            let right = copies.of(&other, p0);
            (Rule { left, right: if random.chance(50) { right } else { application(abstraction(third), right) } }, copies)
        }
        // The whole has them: the part is the whole, or more stands around it.
        _ => {
            let copies = Copies::near(random, MOST_RECIPE_RECORDS, 2, 6);
            (Rule { left, right: copies.of(&other, p0) }, copies)
        }
    };
    let part = spine(&name, [normal_term(random, copies.size, 0, true, &palette)]);
    let recipe = if random.chance(60) { part } else { surround(random, part, &palette) };
    Problem { rules: vec![rule], recipe }
}

// Listings of more than 2,048 lines, and of more than 16,384 records.

fn long_listing(random: &mut Random, palette: &Palette) -> Problem {
    let [name, other, third, repeated] = names(random, palette);
    // With so many copies there are 2 to that number lines, each with a value of one record more than the recipe.
    let (count, most_size) = random.pick(&[(12, 27), (11, 25), (9, 33), (8, 66), (8, 65)]);
    let mut target = spine(&other, (0..count).map(|_| repeated.clone()));
    let more = random.below(most_size - target.size() + 1).max(random.below(most_size - target.size() + 1));
    target = match more {
        0 => target,
        1 => abstraction(target),
        more => application(target, normal_term(random, more - 1, 0, false, &Palette { constants: vec![1, 2, 3, 4], variables: Vec::new() })),
    };
    let p0 = Variable(random.below(VARIABLES));
    let flexible = application(p0.clone(), repeated);
    let right = random.pick(&[p0, Constant(1), Variable(7)]);
    let (left, part) = if random.chance(40) { (flexible, target) } else { (spine(&name, [flexible, Variable(7)]), spine(&name, [target, third])) };
    Problem { rules: vec![Rule { left, right }], recipe: surround(random, part, palette) }
}
