//! Random calls of a walk: sound ones from what the shelf has, some of them then damaged.

use super::*;
use crate::damage::damage_term;
use crate::generate::{any_term, normal_term};
use crate::palette::{palette, Palette};
use crate::random::Random;

/// One of so many calls is damaged, in percent; one of so many of these once more.
const DAMAGED: usize = 25;
const DAMAGED_AGAIN: usize = 45;
/// Longer than any table may be.
const HUGE: usize = 1 << 20;
pub const DIRECTORY_LENGTHS: &[usize] =
    &[0, 0, 1, BUOYS, DIRECTORY_BYTES - 4, DIRECTORY_BYTES - 1, DIRECTORY_BYTES + 1, DIRECTORY_BYTES + 4, RECORD_TABLE_BYTES, HUGE];
pub const RECORD_TABLE_LENGTHS: &[usize] = &[
    0,
    0,
    1,
    SHELF_RECORDS,
    DIRECTORY_BYTES,
    RECORD_TABLE_BYTES - 4,
    RECORD_TABLE_BYTES - 1,
    RECORD_TABLE_BYTES + 1,
    RECORD_TABLE_BYTES + 4,
    2 * RECORD_TABLE_BYTES,
    HUGE,
];

/// What the calls of a walk draw from.
pub struct Plan {
    pub calls: u64,
    buoys: Vec<usize>,
    /// Of recipes, in records.
    sizes: (usize, usize),
    /// Whether the shelf is to be filled to its last record, and kept so.
    fills: bool,
    palette: Palette,
}

impl Plan {
    /// Whether the shelf has room for any recipe though it is to be filled.
    fn is_filling(&self, shelf: &Shelf) -> bool {
        self.fills && SHELF_RECORDS - shelf.records() > MOST_RECIPE_RECORDS
    }
}

pub fn plan(random: &mut Random) -> Plan {
    let small = palette(random);
    // Mostly many constants, so that a recipe is seldom taken for another.
    let palette = if random.chance(80) { small.varied(random) } else { small };
    match random.below(10) {
        0..=4 => {
            let mut buoys: Vec<usize> = (0..random.between(1, 6)).map(|_| random.below(BUOYS)).collect();
            buoys.extend(random.pick(&[vec![], vec![0], vec![BUOYS - 1], vec![0, 1, BUOYS - 2, BUOYS - 1]]));
            Plan { calls: 500, buoys, sizes: (1, random.pick(&[2, 5, 20, MOST_RECIPE_RECORDS])), fills: false, palette }
        }
        5..=6 => Plan { calls: 1000, buoys: (0..BUOYS).collect(), sizes: (1, MOST_RECIPE_RECORDS), fills: false, palette },
        _ => {
            // 170 recipes of the longest don't fill the shelf.
            let mut buoys: Vec<usize> = (0..BUOYS).collect();
            for _ in 0..random.pick(&[0, 0, 0, 1, 10, 29]) {
                buoys.remove(random.below(buoys.len()));
            }
            // So long that as many of them as there are buoys together exceed the shelf by a little.
            let least = (2 * SHELF_RECORDS / buoys.len() + 2).saturating_sub(MOST_RECIPE_RECORDS).min(MOST_RECIPE_RECORDS);
            Plan { calls: 2000, buoys, sizes: (least, MOST_RECIPE_RECORDS), fills: true, palette }
        }
    }
}

pub fn call(random: &mut Random, plan: &Plan, shelf: &Shelf) -> Call {
    let operation = match random.below(100) {
        0..=54 => Put,
        55..=66 => TakeOut,
        67..=94 => Read,
        _ => Count,
    };
    let buoy = buoy(random, operation, plan, shelf);
    let mut call = Call {
        operation,
        buoy,
        recipe: if operation == Put { recipe(random, buoy, plan, shelf) } else { Vec::new() },
        directory_length: DIRECTORY_BYTES,
        records_length: RECORD_TABLE_BYTES,
        output: if operation == Read { output(random, buoy, shelf) } else { Vec::new() },
    };
    if random.chance(DAMAGED) {
        damage(random, &mut call, &plan.palette);
        while random.chance(DAMAGED_AGAIN) {
            damage(random, &mut call, &plan.palette);
        }
    }
    call
}

fn buoy(random: &mut Random, operation: Operation, plan: &Plan, shelf: &Shelf) -> usize {
    let first = random.below(plan.buoys.len());
    let any = plan.buoys[first];
    match operation {
        // One with no recipe or a short one, so that the shelf fills up, and fills up again.
        Put if plan.fills && random.chance(if plan.is_filling(shelf) { 95 } else { 25 }) => {
            let buoys = plan.buoys[first..].iter().chain(&plan.buoys[..first]);
            *buoys.min_by_key(|buoy| shelf.records_of(**buoy)).expect("a plan has buoys")
        }
        // One with a recipe, now and then the last.
        TakeOut | Read if random.chance(80) => {
            let kept = if random.chance(95) { shelf.recipes.range(any..).next() } else { shelf.recipes.last_key_value() };
            kept.map_or(any, |(buoy, _)| *buoy)
        }
        _ => any,
    }
}

/// A recipe to put: now and then one that the shelf has already.
fn recipe(random: &mut Random, buoy: usize, plan: &Plan, shelf: &Shelf) -> Vec<u8> {
    if random.chance(5) {
        if let Some((_, recipe)) = shelf.recipes.range(random.below(BUOYS)..).next() {
            return recipe.to_vec();
        }
    }
    let size = size(random, buoy, plan, shelf);
    encode(&normal_term(random, size, 0, false, &plan.palette))
}

/// The records of a recipe to put: where the shelf is nearly full often as many as there is room for, one less, one more or two more.
fn size(random: &mut Random, buoy: usize, plan: &Plan, shelf: &Shelf) -> usize {
    let room = shelf.room(buoy);
    let old = shelf.records_of(buoy);
    if room <= MOST_RECIPE_RECORDS && random.chance(60) {
        return random.pick(&[room, room, room, room + 1, room + 1, room + 2, room.saturating_sub(1)]).clamp(1, MOST_RECIPE_RECORDS);
    }
    match random.below(10) {
        _ if plan.is_filling(shelf) => random.between(plan.sizes.0.max(old), MOST_RECIPE_RECORDS),
        0 if old > 0 => old,
        // Now and then a short one, after which the shelf has to be filled again.
        1 => random.between(1, plan.sizes.1),
        _ => random.between(plan.sizes.0, plan.sizes.1),
    }
}

/// An output table: as long as the recipe, a record shorter, or longer.
fn output(random: &mut Random, buoy: usize, shelf: &Shelf) -> Vec<u8> {
    let records = shelf.records_of(buoy);
    let records = match random.below(20) {
        0..=6 => records,
        7..=9 => records.saturating_sub(1),
        10 => random.below(records + 1),
        11 => SHELF_RECORDS,
        _ => records + random.between(1, 40),
    };
    random.bytes(records * RECORD_BYTES)
}

fn damage(random: &mut Random, call: &mut Call, palette: &Palette) {
    match (random.below(10), call.operation) {
        (0..=1, _) => call.buoy = far_buoy(random, call.buoy),
        (2..=3, _) => call.directory_length = random.pick(DIRECTORY_LENGTHS),
        (4..=5, _) => call.records_length = random.pick(RECORD_TABLE_LENGTHS),
        (6..=8, Put) => damage_term(random, &mut call.recipe, MOST_RECIPE_RECORDS),
        (_, Put) => {
            let size = (call.recipe.len() / RECORD_BYTES).clamp(4, MOST_RECIPE_RECORDS);
            call.recipe = encode(&any_term(random, size, 0, palette, false, 40));
        }
        (_, Read) => {
            let length = call.output.len();
            let odd = [length.saturating_sub(1), length.saturating_sub(2), length + 1, length + 2, length + 3];
            let long = [MOST_TABLE_BYTES + 1, MOST_TABLE_BYTES + 4, 2 * MOST_TABLE_BYTES, HUGE];
            let length = if random.chance(75) { random.pick(&odd) } else { random.pick(&long) };
            call.output.resize(length, 0xAA);
        }
        _ => call.directory_length = random.pick(DIRECTORY_LENGTHS),
    }
}

/// A buoy above 199: the next ones, the last ones, and those whose low 8, 16 or 32 bits are a buoy's.
pub fn far_buoy(random: &mut Random, buoy: usize) -> usize {
    let buoy = buoy % BUOYS;
    random.pick(&[
        BUOYS,
        BUOYS,
        BUOYS + 1,
        255,
        256 + buoy,
        (1 << 16) + buoy,
        (1 << 32) + buoy,
        (1 << 63) + buoy,
        usize::MAX - buoy,
        usize::MAX,
        usize::MAX,
    ])
}
