//! Fixed calls of the book and what each gives: which pair is used, the order of the refusals, and both sides of each limit. The answers were worked out by
//! hand, but for figures that are said to be counted: these were found with the lister and the sweep.

use super::compare::{compare, describe};
use super::generate::{chain, itself, place};
use super::*;
use crate::limits::{abstractions, copies};

/// What a call gives.
enum Given {
    /// The new recipe, and the number of pairs.
    New(Term, u64),
    Refused(u8),
}

use Given::*;

/// How many calls were compared.
pub fn run() -> Result<usize, String> {
    let calls: Vec<(Call, Given)> =
        [pairs_used(), constants(), listings(), sides(), order(), left_and_right_sides(), wholes(), lengths()].into_iter().flatten().collect();
    let count = calls.len();
    for (shift, (call, given)) in calls.into_iter().enumerate() {
        let outcome = expected_within(&call, usize::MAX);
        match given {
            Refused(number) => assert_eq!((outcome.answer, outcome.pairs), (-i64::from(number), call.pairs), "{}", describe(&call)),
            New(recipe, pairs) => {
                let bytes = encode(&recipe);
                assert_eq!((outcome.answer, outcome.pairs), (recipe.size() as i64, pairs), "{}", describe(&call));
                assert_eq!(outcome.output[..bytes.len()], bytes, "{}", describe(&call));
            }
        }
        compare(&call, &outcome, shift).map_err(|difference| difference + "\n" + &describe(&call))?;
    }
    Ok(count)
}

/// Which pair is used, and what stands in the part's place.
fn pairs_used() -> Vec<(Call, Given)> {
    let nothing = ("k9", "k8");
    let mut last_of_64 = vec![nothing; 63];
    last_of_64.push(("k1", "k2"));
    // All its parts are closed.
    let longest = abstraction(copies(47));
    vec![
        (call(&[("k1", "k2")], "k1"), new("k2", 1)),
        // All rules for a part before the next part, and the first of two rules; a local is no closed part.
        (call(&[("k2", "k9"), ("k1", "k8")], "@ k1 k2"), new("@ k8 k2", 4)),
        (call(&[("k1", "k8"), ("k1", "k9")], "k1"), new("k8", 1)),
        (call(&[("k3", "k2")], r"@ k1 \ #0"), new(r"@ k1 \ #0", 3)),
        // Heads, arguments and bodies; the first of equal parts alone.
        (call(&[("@ k3 p0", "@ k4 p0")], "@ @ k3 k1 k3"), new("@ @ k4 k1 k3", 2)),
        (call(&[("k3", "k4")], "@ @ k1 k3 @ k3 k3"), new("@ @ k1 k4 @ k3 k3", 4)),
        (call(&[("@ k3 p0", "@ p0 k3")], r"\ @ k3 k1"), new(r"\ @ k1 k3", 2)),
        // `@ k3 #0` is no closed part.
        (call(&[("@ k3 p0", "k4")], r"\ @ @ k3 #0 k1"), new(r"\ @ @ k3 #0 k1", 3)),
        // The rule at the last of 64 places; as many pairs as there can be.
        (call(&last_of_64, "k1"), new("k2", 64)),
        (call_of(book(&[nothing; MOST_PLACES]), &longest), New(longest, 6144)),
    ]
}

/// Constants of 24 bits, each of which is itself and no other one; and second bytes, which in all other kinds have to be zero.
fn constants() -> Vec<(Call, Given)> {
    let sound = || call(&[(r"@ @ k1 \ #0 p0", r"@ k2 \ @ #0 p0")], r"@ @ k1 \ #0 k3");
    let left: Records = |call| &mut call.book[2 * COUNT_BYTES..];
    let right: Records = |call| &mut call.book[2 * COUNT_BYTES + SIDE_BYTES..];
    let recipe: Records = |call| &mut call.recipe;
    let mut calls = vec![
        (call(&[("k65537", "k2")], "k1"), new("k1", 1)),
        (call(&[("k1", "k2")], "k65537"), new("k65537", 1)),
        (call(&[("k65537", "k8"), ("k1", "k9")], "@ k65537 k1"), new("@ k8 k1", 3)),
        (call(&[("k65537", "k8"), ("k1", "k9")], "@ k1 k65537"), new("@ k9 k65537", 4)),
        (call(&[("k65535", "k65536")], "@ k65536 k65535"), new("@ k65536 k65536", 3)),
        (call(&[("k65536", "k16777215")], "@ k65535 k65536"), new("@ k65535 k16777215", 3)),
        (call(&[("k16777215", "k0")], "@ k65535 k16777215"), new("@ k65535 k0", 3)),
        (call(&[("@ k65536 p0", "@ p0 k131072")], "@ k65536 k131073"), new("@ k131073 k131072", 1)),
        (call(&[(r"@ \ @ k16777215 p0 p1", "p0")], "@ k16777215 k65536"), new("k65536", 1)),
        // Line 0 of two, and not of four as with `k1` twice.
        (call(&[("@ p0 k1", "p0")], "@ @ k2 k1 k65537"), new(r"\ @ @ k2 #0 k65537", 1)),
        // The first constant of each is another.
        (sound(), new(r"@ k2 \ @ #0 k3", 1)),
        (with_second_byte(sound(), left, CONSTANT), new(r"@ @ k1 \ #0 k3", 5)),
        (with_second_byte(sound(), right, CONSTANT), new(r"@ k65538 \ @ #0 k3", 1)),
        (with_second_byte(sound(), recipe, CONSTANT), new(r"@ @ k65537 \ #0 k3", 5)),
    ];
    for kind in [0, 1, 2, 4] {
        calls.push((with_second_byte(sound(), left, kind), Refused(2)));
        calls.push((with_second_byte(sound(), right, kind), Refused(2)));
    }
    calls.extend([0, 1, 2].map(|kind| (with_second_byte(sound(), recipe, kind), Refused(5))));
    calls
}

/// The records of a part of a call.
type Records = fn(&mut Call) -> &mut [u8];

/// The first record of the kind gets the second byte 1.
fn with_second_byte(mut call: Call, records: Records, kind: u8) -> Call {
    let record = records(&mut call).chunks_exact_mut(RECORD_BYTES).find(|record| record[0] == kind);
    record.expect("a record of the kind")[1] = 1;
    call
}

/// Lines: the first one decides, and full tables have 2,048 lines and 16,384 records.
fn listings() -> Vec<(Call, Given)> {
    // Against `@ p0 k1` it has 2 to the number of copies lines, each with a value of one record more.
    let many = |copies_of_k1: usize, size: usize| application(copies(copies_of_k1), abstractions(size - 2 * copies_of_k1 - 3, &Constant(2)));
    let to_a_list = |rules: &[(&str, &str)], list: &Term| call_of(book(rules), list);
    // Line 0 of the first of them: locals come before constants.
    let all_replaced = recipe(r"\ @ @ @ @ @ @ @ @ @ @ k0 #0 #0 #0 #0 #0 #0 #0 #0 #0 p0", &[abstractions(10, &Constant(2))]);
    // 2 to the third lines for p0, and 265, counted, for p1 and p2.
    let lines_2120 = recipe("@ @ k9 p0 p1", &[copies(3), copies(8)]);
    // The records of the values, counted; 297 lines and 298.
    let [records_16034, records_16386] = [49, 50].map(|size| recipe("@ @ k9 p0 p1", &[many(8, size), copies(1)]));
    vec![
        // Line 0 of four, as in case 4 of document 01; line 0 of two, as in case 1, where the variables' numbers decide which that is.
        (call(&[("@ p0 k1", "p0")], "@ @ k2 k1 k1"), new("@ k2 k1", 1)),
        (call(&[("@ p0 p1", "@ k3 p1")], "k5"), new("@ k3 k5", 1)),
        (call(&[("@ p1 p0", "p1")], "k5"), new(r"\ k5", 1)),
        // Line 0 leaves p0 open, though line 1 doesn't.
        (call(&[("@ p1 p0", "p0")], "k5"), new("k5", 1)),
        (call(&[("@ p1 p0", "p0"), ("k5", "k6")], "k5"), new("k6", 2)),
        // p0 is open in all lines: on the left side alone it is filled; on the right the rule is passed over, as with a variable that the left lacks.
        (call(&[(r"@ \ k5 p0", "k6")], "k5"), new("k6", 1)),
        (call(&[(r"@ \ k5 p0", "p0"), ("p1", "@ k6 p1")], "k5"), new("@ k6 k5", 2)),
        (call(&[("k5", "p0")], "k5"), new("k5", 1)),
        (call(&[("p1", "@ p1 p0"), ("k5", "k6")], "@ k4 k5"), new("@ k4 k6", 6)),
        // 512 lines of 32 records fill the value table, of 33 they don't fit, nor do 2,048 lines; with 2,120 or 4,096 lines the line table comes first.
        (to_a_list(&[("@ p0 k1", "p0")], &many(9, 31)), New(all_replaced.clone(), 1)),
        (to_a_list(&[(r"@ \ @ p0 k1 p1", "p0")], &many(9, 31)), New(all_replaced, 1)),
        (to_a_list(&[("@ p0 k1", "k6")], &many(9, 32)), Refused(10)),
        (to_a_list(&[("@ p0 k1", "k6")], &many(11, 25)), Refused(10)),
        (to_a_list(&[("@ @ k9 @ p0 k1 @ p1 p2", "k6")], &lines_2120), Refused(9)),
        (to_a_list(&[("@ p0 k1", "k6")], &many(12, 27)), Refused(9)),
        (to_a_list(&[("@ @ k9 @ p0 p1 p2", "k6")], &records_16034), new("k6", 1)),
        (to_a_list(&[("@ @ k9 @ p0 p1 p2", "k6")], &records_16386), Refused(10)),
        // Also of a rule that can't be used, and at a later pair; but not behind the pair that is used.
        (to_a_list(&[("@ p0 k1", "p7")], &many(9, 32)), Refused(10)),
        (to_a_list(&[("@ p0 k1", "p7")], &many(12, 27)), Refused(9)),
        (to_a_list(&[("k6", "k7"), ("@ k5 @ p0 k1", "k6")], &recipe("@ @ k4 k3 @ k5 p0", &[many(12, 27)])), Refused(9)),
        (to_a_list(&[("@ k5 p0", "k6"), ("@ k5 @ p0 k1", "k6")], &recipe("@ k5 p0", &[many(12, 27)])), new("k6", 1)),
    ]
}

/// Counts, and what stands behind them.
fn sides() -> Vec<(Call, Given)> {
    let long = abstractions(31, &Constant(1));
    let counted = |left: u16, right: u16| {
        let mut call = call_of(one_rule(&long, &long), &long);
        call.book[..COUNT_BYTES].copy_from_slice(&left.to_be_bytes());
        call.book[COUNT_BYTES..2 * COUNT_BYTES].copy_from_slice(&right.to_be_bytes());
        call
    };
    vec![
        (counted(32, 32), New(long.clone(), 1)),
        (counted(33, 32), Refused(1)),
        (counted(32, 33), Refused(1)),
        (counted(0, 32), Refused(1)),
        (counted(32, 0), Refused(1)),
        (counted(0, 0), Refused(1)),
        (counted(65_535, 32), Refused(1)),
        (counted(32, 65_535), Refused(1)),
        // 32 with another high byte, or with its bytes exchanged.
        (counted(288, 32), Refused(1)),
        (counted(32, 288), Refused(1)),
        (counted(8192, 32), Refused(1)),
        (counted(31, 32), Refused(3)),
        (counted(32, 1), Refused(3)),
    ]
}

/// The order of refusals that meet.
fn order() -> Vec<(Call, Given)> {
    let good = ("k1", "k2");
    // Sides that are refused with 2 and with 3; for 1 a count becomes 33.
    let (bad_record, bad_shape) = ("p8", "#0");
    let with_count = |at: usize, call: Call| {
        let mut call = call;
        call.book[at * COUNT_BYTES + 1] = 33;
        call
    };
    let with_recipe = |bytes: &[u8], call: Call| Call { recipe: bytes.to_vec(), ..call };
    let with_book = |length: usize, call: Call| {
        let mut call = call;
        call.book.resize(length, 0xEE);
        call
    };
    let short_work = |call: Call| Call { work: vec![9; MOST_TABLE_BYTES - 1], ..call };
    let one = || call(&[good], "k1");
    let not_normal = encode(&Term::from_text(r"@ \ #0 k1"));
    vec![
        // 8 before 16, and 16 before all else.
        (with_book(0, one()), Refused(16)),
        (with_book(1, one()), Refused(8)),
        (with_book(PLACE_BYTES - 1, one()), Refused(8)),
        (with_book(PLACE_BYTES + 1, one()), Refused(8)),
        (with_book(65 * PLACE_BYTES, one()), Refused(16)),
        (with_book(65 * PLACE_BYTES + 1, one()), Refused(8)),
        (with_book(65 * PLACE_BYTES - 1, one()), Refused(8)),
        (with_book(253 * PLACE_BYTES, one()), Refused(16)),
        (with_recipe(&[], with_book(0, one())), Refused(16)),
        (with_recipe(&[], with_book(65 * PLACE_BYTES, call(&[(bad_record, "k2")], "k1"))), Refused(16)),
        (short_work(with_book(0, one())), Refused(8)),
        (short_work(with_book(65 * PLACE_BYTES, one())), Refused(8)),
        (short_work(call(&[(bad_record, "k2")], "k1")), Refused(8)),
        (with_output(97 * RECORD_BYTES + 1, with_book(0, one())), Refused(8)),
        (with_output(MOST_TABLE_BYTES + RECORD_BYTES, one()), Refused(8)),
        (with_output(MOST_TABLE_BYTES, one()), new("k2", 1)),
        (with_output(3, one()), Refused(8)),
        // A rule's left side, then its right side, then the next rule, then the recipe.
        (with_count(1, call(&[(bad_record, "k2")], "k1")), Refused(2)),
        (with_count(1, call(&[(bad_shape, "k2")], "k1")), Refused(3)),
        (with_count(0, call(&[("k1", bad_record)], "k1")), Refused(1)),
        (call(&[("k1", bad_shape), (bad_record, "k2")], "k1"), Refused(3)),
        (call(&[("k1", bad_record), (bad_shape, "k2")], "k1"), Refused(2)),
        (call(&[good, (bad_shape, bad_record)], "k1"), Refused(3)),
        (with_recipe(&[], call(&[good, good, ("k1", bad_shape)], "k1")), Refused(3)),
        (with_recipe(&not_normal, call(&[good, good, ("k1", bad_shape)], "k1")), Refused(3)),
        (with_recipe(&[], one()), Refused(4)),
        (with_recipe(&[3, 0, 0], one()), Refused(4)),
        (with_recipe(&encode(&abstractions(96, &Constant(1))), one()), Refused(4)),
        (with_recipe(&[5, 0, 0, 0], one()), Refused(5)),
        (with_recipe(&[4, 0, 0, 0], one()), Refused(5)),
        (with_recipe(&[2, 0, 0, 0], one()), Refused(6)),
        (with_recipe(&not_normal, one()), Refused(7)),
        (with_recipe(&not_normal, with_output(0, one())), Refused(7)),
    ]
}

/// 12 on the left side; 12 and 15 on the right side.
fn left_and_right_sides() -> Vec<(Call, Given)> {
    let part = |size: usize| recipe("@ k3 p0", &[long(size)]);
    let at_part = |left: &str, right: &str, size: usize| call_of(book(&[(left, right)]), &part(size));
    // `k4` applied to three copies of 84 records has 256.
    let copies = "@ @ @ k4 p0 p0 p0";
    let left = |dropped: &str| format!(r"@ \ @ k3 p0 {dropped}");
    let right = |dropped: &str| format!(r"@ \ k5 {dropped}");
    let endless = r"@ \ @ #0 #0 \ @ #0 #0";
    // 62 sweeps, counted, and one more for each `\ @ #0` before.
    let (head, argument) = (itself(20), chain(3));
    let at_pair = |right: &str| call_of(book(&[("@ @ k3 p0 p1", right)]), &recipe("@ @ k3 p0 p1", &[head.clone(), argument.clone()]));
    vec![
        // The left side drops 256 records, and 257.
        (at_part(&left(copies), "k5", 84), new("k5", 1)),
        (at_part(&left(&format!(r"\ {copies}")), "k5", 84), Refused(12)),
        // With a variable that is filled, as an argument and as a head: `k0` is one record, and no abstraction.
        (at_part(&left(&format!(r"\ @ {copies} p1")), "k5", 83), new("k5", 1)),
        (at_part(&left(&format!(r"\ \ @ {copies} p1")), "k5", 83), Refused(12)),
        (at_part(&left(&format!(r"\ @ p1 {copies}")), "k5", 83), new("k5", 1)),
        (at_part(&left(&format!(r"\ \ @ p1 {copies}")), "k5", 83), Refused(12)),
        // It comes before 15 on the right side, and is the pair's that is used alone.
        (at_part(&left(copies), endless, 84), Refused(15)),
        (at_part(&left(&format!(r"\ {copies}")), endless, 84), Refused(12)),
        (call_of(book(&[(&left(&format!(r"\ {copies}")), "p1"), ("@ k3 p0", "k5")]), &part(84)), new("k5", 2)),
        // The right side has 256 records, which is too long for a recipe, and 257; they are dropped.
        (at_part("@ k3 p0", copies, 84), Refused(17)),
        (at_part("@ k3 p0", &format!(r"\ {copies}"), 84), Refused(12)),
        (at_part("@ k3 p0", &right(copies), 84), new("k5", 1)),
        (at_part("@ k3 p0", &right(&format!(r"\ {copies}")), 84), Refused(12)),
        // Dropped by the second sweep: the first gives `@ \ k5` and the copies.
        (at_part("@ k3 p0", &format!(r"@ \ @ #0 {copies} \ k5"), 83), new("k5", 1)),
        (at_part("@ k3 p0", &format!(r"@ \ @ #0 \ {copies} \ k5"), 83), Refused(12)),
        // 64 sweeps, and 65.
        (at_pair(r"@ \ @ #0 p0 \ @ #0 p1"), new(r"\ #0", 1)),
        (at_pair(r"@ \ @ #0 \ @ #0 p1 \ @ #0 p0"), Refused(15)),
    ]
}

/// 12, 15 and 17 on the whole.
fn wholes() -> Vec<(Call, Given)> {
    let at = |rule: (&str, &str), text: &str, parts: &[Term]| call_of(book(&[rule]), &recipe(text, parts));
    // 253 records, after two sweeps: `\ @ @ k1 #0 #0` applied six times, to `k1`.
    let many = r"@ @ \ \ @ #1 @ #1 @ #1 @ #1 @ #1 @ #1 #0 \ @ @ k1 #0 #0 k1";
    let many_below_3 = format!(r"\ \ \ {many}");
    // 62 sweeps, counted, for the first applied to the second, and one more for each `\ @ #0` before; and 58.
    let (head, argument) = (itself(20), chain(3));
    let delayed = abstraction(application(Local(0), argument.clone()));
    let (anew_head, anew_argument) = (itself(14), chain(4));
    vec![
        // Normal at once: 96 records and 97. What is made at a head is swept, and then has fewer.
        (at(("k3", "k4"), "@ k0 p0", &[abstractions(93, &Constant(3))]), New(application(Constant(0), abstractions(93, &Constant(4))), 96)),
        (at(("k3", r"\ k4"), "@ k0 p0", &[abstractions(93, &Constant(3))]), Refused(17)),
        (at(("k3", r"\ k4"), "@ k3 p0", &[long(94)]), new("k4", 2)),
        (at(("k3", r"\ #0"), "@ k3 p0", &[long(94)]), New(long(94), 2)),
        (at(("k3", r"\ @ k4 #0"), "@ k3 p0", &[long(93)]), New(application(Constant(4), long(93)), 2)),
        (at(("k3", r"\ @ @ k4 k4 #0"), "@ k3 p0", &[long(93)]), Refused(17)),
        // A form of 256 records, so that the whole has 351: normal, and swept to 255. A form of 257.
        (at(("k3", &many_below_3), "@ p0 k3", &[recipe("@ k0 p0", &[long(92)])]), Refused(17)),
        (at(("k3", &many_below_3), "@ k3 p0", &[long(94)]), Refused(17)),
        (at(("k3", &format!(r"\ {many_below_3}")), "@ k3 p0", &[long(94)]), Refused(12)),
        // The first sweep gives 256 records and 257, which are dropped, or too many for a recipe.
        (at(("k3", &format!(r"\ @ #0 {many}")), r"@ k3 \ k5", &[]), new("k5", 2)),
        (at(("k3", &format!(r"\ @ #0 {many}")), r"@ k3 \ \ k5", &[]), Refused(12)),
        (at(("k3", r"\ @ @ @ k4 #0 #0 #0"), "@ k3 p0", &[long(84)]), Refused(17)),
        (at(("k3", r"\ \ @ @ @ k4 #1 #1 #1"), "@ k3 p0", &[long(84)]), Refused(12)),
        // The second sweep gives 256 records and 257.
        (at(("@ k3 p0", r"\ @ #0 p0"), r"@ @ k3 p0 \ @ @ @ k4 #0 #0 #0", &[long(84)]), Refused(17)),
        (at(("@ k3 p0", r"\ @ #0 p0"), r"@ @ k3 p0 \ \ @ @ @ k4 #1 #1 #1", &[long(84)]), Refused(12)),
        // A whole that sweeps to itself; 64 sweeps, and 65.
        (at(("k3", r"\ @ #0 #0"), r"@ k3 \ @ #0 #0", &[]), Refused(15)),
        (at(("@ k3 p0", r"\ @ #0 p0"), "@ @ k3 p0 p1", &[head.clone(), delayed.clone()]), new(r"\ #0", 2)),
        (at(("@ k3 p0", r"\ @ #0 p0"), r"@ @ k3 p0 \ @ #0 p1", &[delayed, head]), Refused(15)),
        // 58 sweeps of the right side, and then 58 of the whole.
        (at(("@ @ k3 p0 p1", "@ @ p0 p1 p0"), "@ @ @ k3 p0 p1 p1", &[anew_head, anew_argument]), new(r"\ #0", 2)),
    ]
}

/// Room for what is written, and for a record less.
fn lengths() -> Vec<(Call, Given)> {
    let records = |count: usize, call: Call| with_output(count * RECORD_BYTES, call);
    let grown = || call(&[("k3", "@ k4 k4")], "@ k1 k3");
    let given_back = || call_of(book(&[("k3", "k4")]), &abstractions(95, &Constant(1)));
    let too_long = || call_of(book(&[("k3", r"\ k4")]), &application(Constant(0), abstractions(93, &Constant(3))));
    vec![
        (records(5, grown()), new("@ k1 @ k4 k4", 3)),
        (records(4, grown()), Refused(13)),
        (records(0, grown()), Refused(13)),
        (records(96, given_back()), New(abstractions(95, &Constant(1)), 96)),
        (records(95, given_back()), Refused(13)),
        (records(0, given_back()), Refused(13)),
        // 17 before 13; 9, 12 and 15 before both.
        (records(96, too_long()), Refused(17)),
        (records(0, too_long()), Refused(17)),
        (records(0, call_of(book(&[("@ p0 k1", "p7")]), &copies(12))), Refused(9)),
        (records(0, call_of(book(&[("k3", r"\ \ @ @ @ k4 #1 #1 #1")]), &recipe("@ k3 p0", &[long(84)]))), Refused(12)),
        (records(0, call(&[("k3", r"\ @ #0 #0")], r"@ k3 \ @ #0 #0")), Refused(15)),
        // Room for the new recipe and not for the forms before it.
        (records(1, call(&[("k3", r"@ \ k4 @ @ k5 k5 k5")], "k3")), new("k4", 1)),
    ]
}

/// A new recipe in the notation of document 01, and the number of pairs.
fn new(text: &str, pairs: u64) -> Given {
    New(Term::from_text(text), pairs)
}

/// A term in the notation of document 01, with these parts for its variables.
fn recipe(text: &str, parts: &[Term]) -> Term {
    let mut values = Line::default();
    for (value, part) in values.iter_mut().zip(parts) {
        *value = Some(part.clone());
    }
    Term::from_text(text).fill(&values)
}

/// So many records that are no abstraction.
fn long(size: usize) -> Term {
    application(Constant(0), abstractions(size - 3, &Constant(1)))
}

fn call(rules: &[(&str, &str)], text: &str) -> Call {
    call_of(book(rules), &Term::from_text(text))
}

fn call_of(book: Vec<u8>, recipe: &Term) -> Call {
    Call { book, recipe: encode(recipe), output: vec![9; 97 * RECORD_BYTES], work: vec![9; MOST_TABLE_BYTES], pairs: 0x0123_4567_89AB_CDEF }
}

fn with_output(length: usize, call: Call) -> Call {
    Call { output: vec![9; length], ..call }
}

fn book(rules: &[(&str, &str)]) -> Vec<u8> {
    rules.iter().flat_map(|(left, right)| one_rule(&Term::from_text(left), &Term::from_text(right))).collect()
}

/// A book of one rule. Behind the counted records stands what is no record.
fn one_rule(left: &Term, right: &Term) -> Vec<u8> {
    place(&Rule { left: left.clone(), right: right.clone() }, |length| vec![0xEE; length])
}
