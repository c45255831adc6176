//! Descriptions for each refusal 1 to 10 and for each pair of them, in which
//! both conditions hold: the lower number must be answered.

use crate::description::{ARRAY, BASIC, ILP32, STRUCT, UNION, VOID};
use crate::draft::Draft;
use crate::random::Random;
use crate::types::code;

/// A description to which all the `refusals` apply, each in one of several ways
/// drawn at random. Damage to the draft comes first, then to its bytes, the
/// outermost last.
pub fn damaged(random: &mut Random, refusals: &[u8]) -> Vec<u8> {
    let has = |number: u8| refusals.contains(&number);
    let mut draft = ground(random);
    if has(10) {
        fill_area(random, &mut draft);
    }
    if has(9) {
        add_unnamed_small(random, &mut draft);
    }
    if has(8) {
        add_wrong_number(random, &mut draft);
    }
    if has(7) {
        add_large_type(random, &mut draft);
    }
    if has(6) {
        add_wrong_record(random, &mut draft);
    }
    let mut bytes = draft.bytes();
    if has(5) {
        change_length(random, &mut bytes);
    }
    if has(4) {
        change_counts(random, &mut bytes);
    }
    if has(3) {
        change_version(random, &mut bytes);
    }
    if has(2) {
        let at = random.below(3);
        bytes[at] = bytes[at].wrapping_add(random.between(1, 255) as u8);
    }
    if has(1) {
        bytes.truncate(random.below(11));
    }
    bytes
}

/// A plain ground: some basic types, a struct, an array and a variadic function
/// of a few arguments, of either model.
fn ground(random: &mut Random) -> Draft {
    let mut draft = Draft::new();
    draft.flags = random.choose(&[0, ILP32]);
    for code in [code::INT, code::DOUBLE, code::LONG, code::LONG_DOUBLE, code::POINTER] {
        draft.basic(code);
    }
    let pair = [random.below(5) as u8, random.below(5) as u8];
    let structure = draft.structure(&pair);
    let array = draft.array(1, random.between(1, 5));
    draft.union(&[array, 2]);
    draft.returned = random.choose(&[VOID, 0, 1, 3, structure]);
    for _ in 0..random.below(3) {
        draft.argument(random.below(5) as u8);
    }
    draft.ellipsis();
    for _ in 0..random.below(3) {
        draft.argument(random.below(6) as u8);
    }
    draft
}

fn fill_area(random: &mut Random, draft: &mut Draft) {
    let block = draft.block(4096);
    draft.arguments(block, 4);
    if random.one_in(2) {
        let long = draft.basic(code::LONG);
        draft.arguments(long, 7);
    } else {
        draft.arguments(block, 1);
    }
}

fn add_unnamed_small(random: &mut Random, draft: &mut Draft) {
    let small = random.choose(&[code::BOOL, code::CHAR, code::SHORT, code::FLOAT]);
    let number = draft.basic(small);
    let named = draft.named as usize;
    let position = random.between(named, draft.arguments.len());
    draft.arguments.insert(position, number);
}

fn add_wrong_number(random: &mut Random, draft: &mut Draft) {
    match random.below(5) {
        0 => draft.returned = random.choose(&[64, 100, 254]),
        1 => draft.argument(255),
        2 => draft.argument(random.between(64, 254) as u8),
        3 => {
            let array = draft.array(0, 2);
            draft.argument(array);
        }
        _ => draft.returned = draft.array(1, 1),
    }
}

fn add_large_type(random: &mut Random, draft: &mut Draft) {
    match random.below(5) {
        0 => {
            draft.array(2, 513);
        }
        1 => {
            let pointer = draft.basic(code::POINTER);
            draft.array(pointer, 1025);
        }
        2 => {
            let block = draft.block(4096);
            let character = draft.basic(code::CHAR);
            draft.structure(&[block, character]);
        }
        3 => {
            let inner = draft.array(2, 512);
            let outer = draft.array(inner, 4096);
            draft.union(&[outer]);
        }
        _ => {
            let inner = draft.array(0, 1024);
            draft.structure(&[inner, 0]);
        }
    }
}

/// Each way in which a record can be against the rules.
fn add_wrong_record(random: &mut Random, draft: &mut Draft) {
    let own = draft.records.len() as u8;
    let members = draft.members.len();
    let kind = random.choose(&[STRUCT, UNION]);
    match random.below(10) {
        0 => draft.record(random.between(4, 255) as u8, 0, 0),
        1 => draft.record(BASIC, random.between(17, 255) as u8, 0),
        2 => draft.record(BASIC, 3, random.choose(&[1, 256, 65535])),
        3 => draft.record(ARRAY, own, 2),
        4 => draft.record(ARRAY, random.between(own as usize + 1, 255) as u8, 2),
        5 => draft.record(ARRAY, 0, random.choose(&[0, 4097, 65535])),
        6 => draft.record(kind, 0, 0),
        7 => draft.record(kind, 0, random.choose(&[members + 1, 256, 65535])),
        8 => draft.record(kind, members as u8, 1),
        _ => {
            draft.members.push(own);
            draft.record(kind, members as u8, 1)
        }
    };
}

fn change_length(random: &mut Random, bytes: &mut Vec<u8>) {
    match random.below(3) {
        0 => bytes.push(random.byte()),
        1 => {
            bytes.pop();
        }
        _ => bytes.extend(random.bytes(5)),
    }
}

/// T, A, N or byte 6. Where the length should stay right for the records, N and
/// byte 6 are the ones to change.
fn change_counts(random: &mut Random, bytes: &mut [u8]) {
    match random.below(6) {
        0 => bytes[5] = random.choose(&[65, 128, 255]),
        1 => bytes[8] = random.choose(&[65, 255]),
        2 | 3 => bytes[6] = random.choose(&[4, 5, 6, 7, 128, 255]),
        4 => bytes[7] = bytes[8] + 1,
        // N is not A, and bit 0 is 0.
        _ => {
            bytes[6] &= ILP32;
            bytes[7] = bytes[8].checked_sub(1).unwrap_or(1);
        }
    }
}

fn change_version(random: &mut Random, bytes: &mut [u8]) {
    let version: [u8; 2] = random.choose(&[[0, 0], [2, 0], [1, 1], [0, 1], [255, 255]]);
    bytes[3..5].copy_from_slice(&version);
}

/// Each of 1 to 10 alone, then each pair of them.
pub fn refusals_and_pairs() -> Vec<Vec<u8>> {
    let mut all: Vec<Vec<u8>> = (1..=10).map(|number| vec![number]).collect();
    for low in 1..=9 {
        for high in low + 1..=10 {
            all.push(vec![low, high]);
        }
    }
    all
}
