//! Document 02, request 2026-01, "Where the type is wrong": descriptions with
//! types that break the rule of 6 or of 7, and what must be told of each.

use crate::description::{ARRAY, BASIC, HEAD, STRUCT, UNION};
use crate::draft::Draft;
use crate::generator::{random_description, LARGE, MIDDLE, SMALL};
use crate::places::accepted;
use crate::random::Random;
use crate::refusal::Told;
use crate::types::code;
use std::ops::Range;

/// A description and what every call that takes it must tell.
pub struct Broken {
    pub name: &'static str,
    pub bytes: Vec<u8>,
    pub told: Told,
}

fn case(name: &'static str, draft: &Draft, number: u8, type_number: u8) -> Broken {
    Broken { name, bytes: draft.bytes(), told: Told { number, type_number } }
}

const INT: [u8; 4] = [BASIC, code::INT, 0, 0];
/// No kind.
const WRONG: [u8; 4] = [4, 0, 0, 0];
/// 4,096 of type 0, which are too many where that is an int.
const TOO_LARGE: [u8; 4] = [ARRAY, 0, 0, 16];

/// A variadic function of two ints, with so many types, all int but for those
/// that are `wrong` or `large`.
fn ints(count: usize, wrong: &[usize], large: &[usize]) -> Draft {
    let mut draft = Draft::new();
    draft.records = vec![INT; count];
    for &number in large {
        draft.records[number] = TOO_LARGE;
    }
    for &number in wrong {
        draft.records[number] = WRONG;
    }
    draft.argument(0);
    draft.ellipsis();
    draft.argument(0);
    draft
}

/// "the lowest type number that breaks the rule", each rule "over the whole
/// description": 6 before 7, whichever type is lower.
pub fn broken() -> Vec<Broken> {
    let all: Vec<usize> = (0..64).collect();
    let of = |name, count, wrong: &[usize], large: &[usize], number, lowest| {
        case(name, &ints(count, wrong, large), number, lowest)
    };
    let mut cases = vec![
        of("the only type", 1, &[0], &[], 6, 0),
        of("the first of 40", 40, &[0], &[], 6, 0),
        of("type 12 of 40", 40, &[12], &[], 6, 12),
        of("the last of 64", 64, &[63], &[], 6, 63),
        of("the lowest and the highest", 64, &[0, 63], &[], 6, 0),
        of("type 12 and two above it", 64, &[12, 40, 63], &[], 6, 12),
        of("all of them", 64, &all, &[], 6, 0),
        of("too large below a wrong one", 40, &[12], &[3], 6, 12),
        of("too large above a wrong one", 40, &[3], &[12], 6, 3),
        of("too large on both sides of a wrong one", 40, &[12], &[3, 20], 6, 12),
        of("all too large but the last, which is wrong", 64, &[63], &all[1..], 6, 63),
        of("too large, the lowest that can be", 40, &[], &[1], 7, 1),
        of("type 12 too large", 40, &[], &[12], 7, 12),
        of("the last of 64 too large", 64, &[], &[63], 7, 63),
        of("three too large", 40, &[], &[3, 5, 39], 7, 3),
        of("all too large but the first", 64, &[], &all[1..], 7, 1),
    ];
    cases.extend(owners());
    cases.extend(others_give_zero());
    cases
}

/// The type that breaks the rule is told, not one that it names, nor one that
/// names it.
fn owners() -> Vec<Broken> {
    let mut of_a_later_one = ints(4, &[], &[]);
    of_a_later_one.records[2] = [ARRAY, 3, 1, 0];
    let mut member_of_itself = ints(2, &[], &[]);
    member_of_itself.structure(&[0, 1]);
    member_of_itself.structure(&[1, 3]);
    let mut run_past_the_end = ints(2, &[], &[]);
    run_past_the_end.union(&[1]);
    run_past_the_end.record(STRUCT, 0, 2);
    let mut of_a_wrong_one = ints(2, &[1], &[]);
    of_a_wrong_one.array(1, 2);
    of_a_wrong_one.structure(&[1, 2]);
    let mut of_a_large_one = ints(1, &[], &[]);
    let block = of_a_large_one.block(4096);
    let larger = of_a_large_one.structure(&[block, 1]);
    of_a_large_one.structure(&[larger]);
    of_a_large_one.array(larger, 1);
    of_a_large_one.union(&[block, larger]);
    vec![
        case("an array of a later type", &of_a_later_one, 6, 2),
        case("a struct in itself", &member_of_itself, 6, 3),
        case("a run past the end", &run_past_the_end, 6, 3),
        case("types of a wrong one", &of_a_wrong_one, 6, 1),
        case("types of one of 4,097 bytes", &of_a_large_one, 7, larger),
    ]
}

/// "All other refusals give 0 there": lower ones, although a type is wrong, and
/// higher ones, although a type's number is at fault.
fn others_give_zero() -> Vec<Broken> {
    let wrong = ints(40, &[12], &[3]);
    let mut counts = wrong.clone();
    counts.named = 9;
    let mut version = wrong.clone();
    version.version = 2;
    let mut passed = ints(13, &[], &[]);
    passed.argument(13);
    let mut returned = ints(13, &[], &[]);
    returned.returned = returned.array(12, 1);
    let mut small = ints(12, &[], &[]);
    let character = small.record(BASIC, code::CHAR, 0);
    small.argument(character);
    let mut behind = case("a wrong type and a byte behind", &wrong, 5, 0);
    behind.bytes.push(0);
    vec![
        case("a wrong type and a wrong version", &version, 3, 0),
        case("a wrong type and wrong counts", &counts, 4, 0),
        behind,
        case("argument of type 13, of 13", &passed, 8, 0),
        case("type 13 returned, an array", &returned, 8, 0),
        case("type 12 unnamed, a char", &small, 9, 0),
    ]
}

/// A record that the type of this number must not have.
fn wrong_record(random: &mut Random, number: u8) -> [u8; 4] {
    match random.below(6) {
        0 => [random.between(4, 255) as u8, 0, 0, 0],
        1 => [BASIC, random.between(17, 255) as u8, 0, 0],
        2 => [BASIC, code::INT, 1, 0],
        3 => [ARRAY, random.between(number as usize, 255) as u8, 2, 0],
        4 => [ARRAY, 0, 1, 16],
        _ => [random.choose(&[STRUCT, UNION]), 0, 0, 0],
    }
}

/// A random description in which up to three records are wrong, or arrays of
/// 4,096, or some of each.
pub fn random_broken(random: &mut Random) -> Vec<u8> {
    let shape = random.choose(&[SMALL, MIDDLE, LARGE]);
    let mut bytes = random_description(random, shape);
    let types = bytes[5] as usize;
    for _ in 0..random.between(1, 3) {
        let number = random.below(types) as u8;
        let record = if number > 0 && random.one_in(2) {
            [ARRAY, random.below(number as usize) as u8, 0, 16]
        } else {
            wrong_record(random, number)
        };
        set_record(&mut bytes, number as usize, record);
    }
    bytes
}

fn set_record(bytes: &mut [u8], number: usize, record: [u8; 4]) {
    let at = HEAD + 4 * number;
    bytes[at..at + 4].copy_from_slice(&record);
}

/// The same with an int for each of these types.
pub fn mended(bytes: &[u8], numbers: Range<usize>) -> Vec<u8> {
    let mut bytes = bytes.to_vec();
    for number in numbers {
        set_record(&mut bytes, number, INT);
    }
    bytes
}

/// The same with all types mended, where nothing else was wrong.
pub fn wholly_mended(bytes: &[u8]) -> Option<Vec<u8>> {
    let types = bytes[5] as usize;
    let whole = mended(bytes, 0..types);
    accepted(&whole).is_ok().then_some(whole)
}
