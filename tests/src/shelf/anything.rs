//! Tables that no calls from a new shelf leave: any bytes, any lengths, and shelves with damaged directories. Document 02 leaves free
//! what such a shelf does within the machine's rules, so nothing but safety is compared: the call comes back with an answer that the
//! operation can give, writes nothing around the tables, and if it refuses leaves every table as it was.

use super::compare::{describe, make, Tables};
use super::generate::{far_buoy, DIRECTORY_LENGTHS, RECORD_TABLE_LENGTHS};
use super::*;
use crate::compare::{no_difference, Lent};
use crate::damage::damage_term;
use crate::generate::normal_term;
use crate::library;
use crate::palette::palette;
use crate::random::Random;
use crate::{fail, Options};

/// Keeps the random numbers of these calls apart from those of the walks.
const SEED: u64 = 0xA11B_17E5_5E1F_2026;
/// As many calls of the walks, for one of these.
const EVERY: u64 = 5;
/// So many calls are made on two tables, each handed what the one before left.
const CALLS: u64 = 20;
/// A run of so many calls, or more, must have met every answer.
const LONG_RUN: u64 = 20_000;
/// The refusal numbers that each operation can give.
const NUMBERS: [(Operation, &[i64]); 4] = [(Put, &[4, 5, 6, 7, 8, 18, 19]), (TakeOut, &[8, 18]), (Read, &[8, 13, 18]), (Count, &[8])];
/// The most records that a byte of the directory can say.
const MOST_COUNTED: i64 = 255;

/// How often each operation answered, number 0, or refused.
type Answers = BTreeMap<(Operation, i64), u64>;

/// Makes the calls; what isn't safe ends the program.
pub fn run(options: &Options) {
    let calls = options.shelves() / EVERY;
    let mut answers = Answers::new();
    for number in 0..calls / CALLS {
        let random = &mut Random::for_call(options.seed ^ SEED, number);
        let mut tables = start(random);
        for at in 0..CALLS {
            let call = call(random, &tables);
            let place = format!("in call {at} of tables {number} of any bytes for the shelf (seed {})", options.seed);
            options.trace(|| format!("{place}\n{}", describe(&call, &Shelf::default())));
            let (answer, output, differences) = make(&call, &mut tables, random.below(8));
            if let Err(difference) = check(&call, &tables, answer, &output, differences) {
                fail(&place, &format!("{difference}\n{}", describe(&call, &Shelf::default())));
            }
            *answers.entry((call.operation, (-answer).max(0))).or_default() += 1;
            tables.see();
            if random.chance(10) {
                damage_directory(random, &mut tables);
            }
        }
    }
    report(&answers);
    println!("all {} calls of the shelf on any bytes are safe", answers.values().sum::<u64>());
}

/// What isn't safe.
fn check(call: &Call, tables: &Tables, answer: i64, output: &Lent, differences: Vec<String>) -> Result<(), String> {
    let mut differences = differences;
    let is_possible = match call.operation {
        _ if answer < 0 => NUMBERS.iter().any(|(operation, numbers)| *operation == call.operation && numbers.contains(&-answer)),
        Put | TakeOut => answer == 1,
        Read => (1..=MOST_COUNTED).contains(&answer) && answer as usize * RECORD_BYTES <= call.output.len(),
        Count => answer <= CEILING as i64,
    };
    if !is_possible {
        differences.push(format!("no answer of this operation: {answer}"));
    }
    if answer < 0 || matches!(call.operation, Read | Count) {
        differences.extend(tables.differences());
    }
    differences.extend(output.difference("output", if answer < 0 { &call.output } else { output.table() }));
    no_difference(differences)
}

fn report(answers: &Answers) {
    println!("calls of the shelf on any bytes");
    for (operation, numbers) in NUMBERS {
        for number in std::iter::once(&0).chain(numbers) {
            let count = answers.get(&(operation, *number)).copied().unwrap_or(0);
            let label = if *number == 0 { format!("{operation:?} answered") } else { format!("{operation:?} refused {number}") };
            println!("{label:<60}{count:>9}");
            if count == 0 && answers.values().sum::<u64>() >= LONG_RUN {
                fail("in the coverage", &format!("no call of the shelf on any bytes: {label}"));
            }
        }
    }
}

/// Two tables.
fn start(random: &mut Random) -> Tables {
    if random.chance(30) {
        return damaged_shelf(random);
    }
    let length = |random: &mut Random, right: usize, others: &[usize]| match random.below(20) {
        0 => random.pick(others),
        1 => random.below(2 * right),
        _ => right,
    };
    let directory_length = length(random, DIRECTORY_BYTES, DIRECTORY_LENGTHS);
    let records_length = length(random, RECORD_TABLE_BYTES, RECORD_TABLE_LENGTHS);
    let mut directory = random.bytes(directory_length);
    // Counts of any bytes nearly always exceed the record table, so mostly lower ones, or such that fill it to the last record or exceed
    // it by one.
    if random.chance(80) && directory.len() >= BUOYS {
        let bound = random.pick(&[1, 2, 20, 97, 150, 163, 166]);
        let counts = &mut directory[..BUOYS];
        counts.fill_with(|| random.below(bound) as u8);
        if random.chance(50) {
            fill_up(counts, SHELF_RECORDS + random.pick(&[0, 0, 1]));
        }
    }
    Tables::new(directory, random.bytes(records_length), random.below(8))
}

/// Raises counts until they have so many records together, or are all as high as can be.
fn fill_up(counts: &mut [u8], records: usize) {
    for at in 0..counts.len() {
        let all: usize = counts.iter().map(|count| *count as usize).sum();
        counts[at] += records.saturating_sub(all).min((u8::MAX - counts[at]) as usize) as u8;
    }
}

/// A shelf with some recipes and some bytes of its directory changed.
fn damaged_shelf(random: &mut Random) -> Tables {
    let mut tables = Tables::of_new_shelf(random);
    let palette = palette(random);
    for _ in 0..random.between(1, 40) {
        let size = random.between(1, MOST_RECIPE_RECORDS);
        let recipe = encode(&normal_term(random, size, 0, false, &palette));
        library::shelf_put(random.below(BUOYS), &recipe, tables.directory.table_mut(), tables.records.table_mut());
    }
    tables.see();
    damage_directory(random, &mut tables);
    tables
}

/// Changes some bytes of the directory.
fn damage_directory(random: &mut Random, tables: &mut Tables) {
    let directory = tables.directory.table_mut();
    for _ in 0..random.between(1, 6) {
        let most = random.pick(&[BUOYS, BUOYS, BUOYS, BUOYS + 32, DIRECTORY_BYTES]);
        if let Some(byte) = directory.get_mut(random.below(most)) {
            let any = random.next() as u8;
            *byte = random.pick(&[0, 1, 96, 97, u8::MAX, byte.wrapping_add(1), byte.wrapping_sub(1), any]);
        }
    }
    tables.see();
}

/// A call on these tables, with any buoy.
fn call(random: &mut Random, tables: &Tables) -> Call {
    let operation = random.pick(&[Put, Put, Put, TakeOut, TakeOut, Read, Read, Read, Count]);
    let buoy = random.below(BUOYS);
    let mut recipe = Vec::new();
    if operation == Put {
        let palette = palette(random);
        let size = random.between(1, MOST_RECIPE_RECORDS);
        recipe = encode(&normal_term(random, size, 0, false, &palette));
        match random.below(10) {
            0..=1 => damage_term(random, &mut recipe, MOST_RECIPE_RECORDS),
            2 => recipe = random.bytes(size * RECORD_BYTES),
            // Not normal: `@ \ #0 k1`.
            3 => recipe = [[0, 0, 0, 0], [1, 0, 0, 0], [2, 0, 0, 0], [3, 0, 0, 1]].concat(),
            _ => {}
        }
    }
    let output_length = match random.below(10) {
        0 => random.below(2 * MOST_TABLE_BYTES),
        1 => MOST_TABLE_BYTES,
        _ => random.below(300) * RECORD_BYTES,
    };
    Call {
        operation,
        buoy: match random.below(20) {
            0 => far_buoy(random, buoy),
            1 => random.next() as usize,
            _ => buoy,
        },
        recipe,
        directory_length: tables.seen_directory.len(),
        records_length: tables.seen_records.len(),
        output: if operation == Read { random.bytes(output_length) } else { Vec::new() },
    }
}
