//! Descriptions of the same call in another form, and of one that differs in one thing:
//! what the tidy form must and must not tell apart.

use crate::description::{form, Description, ARRAY, BASIC, MOST_TYPES, STRUCT, UNION, VOID};
use crate::draft::Draft;
use crate::places::check;
use crate::random::Random;
use crate::tidying::{is_same_call, MOST_MEMBERS};

/// The same call with its types in another order, some of them twice or more, with dead
/// ones between them, with runs that overlap and bytes that are in none. As it is where
/// that does not fit the limits.
pub fn scrambled(random: &mut Random, bytes: &[u8]) -> Vec<u8> {
    let given = form(bytes).expect("an accepted description");
    let mut draft = Draft::new();
    let mut copies: Vec<Vec<u8>> = vec![Vec::new(); given.types()];
    while let Some(next) = next_type(random, given, &copies) {
        if random.one_in(6) {
            draft.record(BASIC, random.below(17) as u8, 0);
        }
        let number = add_copy(random, given, next, &copies, &mut draft);
        copies[next as usize].push(number);
        if draft.records.len() > MOST_TYPES || draft.members.len() > MOST_MEMBERS {
            return bytes.to_vec();
        }
    }
    draft.flags = given.flags();
    draft.named = given.named() as u8;
    if given.return_number() != VOID {
        draft.returned = random.choose(&copies[given.return_number() as usize]);
    }
    for position in 0..given.arguments() {
        draft.arguments.push(random.choose(&copies[given.argument(position) as usize]));
    }
    draft.bytes()
}

fn parts(given: Description, type_number: u8) -> Vec<u8> {
    let record = given.record(type_number);
    match record.kind {
        BASIC => Vec::new(),
        ARRAY => vec![record.a],
        _ => given.run(record).to_vec(),
    }
}

/// A type all of whose parts are there: one that is not there itself, or now and then
/// one more of another. None once each is there.
fn next_type(random: &mut Random, given: Description, copies: &[Vec<u8>]) -> Option<u8> {
    let there = |number: u8| !copies[number as usize].is_empty();
    let numbers = 0..given.types() as u8;
    let ready = numbers.filter(|&number| parts(given, number).into_iter().all(there));
    let ready: Vec<u8> = ready.collect();
    let missing: Vec<u8> = ready.iter().copied().filter(|&number| !there(number)).collect();
    if missing.is_empty() {
        return None;
    }
    let among = if random.one_in(5) { &ready } else { &missing };
    Some(random.choose(among))
}

fn add_copy(
    random: &mut Random,
    given: Description,
    type_number: u8,
    copies: &[Vec<u8>],
    draft: &mut Draft,
) -> u8 {
    let record = given.record(type_number);
    let mut copy = |number: u8| random.choose(&copies[number as usize]);
    match record.kind {
        BASIC => draft.record(BASIC, record.a, 0),
        ARRAY => {
            let element = copy(record.a);
            draft.array(element, record.count)
        }
        kind => {
            let run: Vec<u8> = given.run(record).iter().map(|&member| copy(member)).collect();
            let found = draft.members.windows(run.len()).position(|window| window == run);
            if let (Some(start), true) = (found, random.one_in(2)) {
                return draft.record(kind, start as u8, run.len());
            }
            if random.one_in(8) {
                draft.members.push(random.byte());
            }
            if kind == STRUCT {
                draft.structure(&run)
            } else {
                draft.union(&run)
            }
        }
    }
}

/// The description with one byte of it changed so that it is accepted and another call;
/// None where no such byte was found.
pub fn differing(random: &mut Random, bytes: &[u8]) -> Option<Vec<u8>> {
    let given = form(bytes).expect("an accepted description");
    for _ in 0..40 {
        let mut other = bytes.to_vec();
        change(random, given, &mut other);
        if check(&other).number == 0 {
            let changed = form(&other).expect("accepted");
            if !is_same_call(given, changed) {
                return Some(other);
            }
        }
    }
    None
}

/// Byte 6, N, the return type, an argument, a member, or a type's kind, code, element or
/// count.
fn change(random: &mut Random, given: Description, bytes: &mut [u8]) {
    let types = given.types().max(1);
    let behind = given.members_start();
    match random.below(6) {
        0 => bytes[6] ^= 1,
        1 => bytes[7] = random.below(given.arguments() + 1) as u8,
        2 => bytes[9] = if random.one_in(3) { VOID } else { random.below(types) as u8 },
        3 if given.arguments() > 0 => {
            let position = random.below(given.arguments());
            bytes[behind + given.members() + position] = random.below(types) as u8;
        }
        4 if given.members() > 0 => {
            bytes[behind + random.below(given.members())] = random.below(types) as u8;
        }
        _ if given.types() > 0 => {
            let number = random.below(given.types()) as u8;
            let at = 11 + 4 * number as usize;
            match given.record(number).kind {
                BASIC => bytes[at + 1] = random.below(17) as u8,
                ARRAY => bytes[at + 2] = random.between(1, 8) as u8,
                STRUCT => bytes[at] = UNION,
                _ => bytes[at] = STRUCT,
            }
        }
        _ => {}
    }
}
