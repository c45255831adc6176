//! All small aggregates: structs and unions of one to three members over the
//! seventeen basic types, each as the sole argument and as the return type; and
//! those with a pointer under ILP32 as well. And what may be within a vector of 32
//! bytes: unions of __m256 with each struct or union of two members, with each array
//! of up to four elements, and structs of such a union.

use independent::draft::{in_ilp32, Draft};
use independent::types::code;

const CODES: usize = 17;

/// How many there are with at most `most` members.
fn runs(most: u32) -> usize {
    (1..=most).map(|members| CODES.pow(members)).sum()
}

/// The member codes of the run of this number: first all of one member, then
/// all of two, then all of three.
fn codes_of(mut number: usize) -> Vec<u8> {
    let mut members = 1;
    while number >= CODES.pow(members) {
        number -= CODES.pow(members);
        members += 1;
    }
    (0..members).map(|place| (number / CODES.pow(place) % CODES) as u8).collect()
}

fn description(codes: &[u8], is_union: bool) -> Vec<u8> {
    let mut draft = Draft::new();
    let run: Vec<u8> = codes.iter().map(|&code| draft.basic(code)).collect();
    let number = if is_union { draft.union(&run) } else { draft.structure(&run) };
    draft.argument(number);
    draft.returned = number;
    draft.bytes()
}

/// Every one with at most two members, and of those with three each `stride`-th
/// (1 for all), beginning with `first`.
pub fn small_aggregates(stride: usize, first: usize) -> Vec<Vec<u8>> {
    let mut all = Vec::new();
    for number in 0..runs(3) {
        let is_wanted = number < runs(2) || number % stride == first % stride;
        if is_wanted {
            let codes = codes_of(number);
            let both = [description(&codes, false), description(&codes, true)];
            if codes.contains(&code::POINTER) {
                all.extend(both.iter().map(|bytes| in_ilp32(bytes)));
            }
            all.extend(both);
        }
    }
    all
}

/// A union of __m256 and a type, in either order of the two, and a struct of the first
/// such union.
fn beside_vector(inner: impl Fn(&mut Draft) -> u8) -> Vec<Vec<u8>> {
    let whole = |finish: &dyn Fn(&mut Draft, u8, u8) -> u8| {
        let mut draft = Draft::new();
        let vector = draft.basic(code::M256);
        let inner = inner(&mut draft);
        let number = finish(&mut draft, vector, inner);
        draft.argument(number);
        draft.returned = number;
        draft.bytes()
    };
    vec![
        whole(&|draft, vector, inner| draft.union(&[vector, inner])),
        whole(&|draft, vector, inner| draft.union(&[inner, vector])),
        whole(&|draft, vector, inner| {
            let union = draft.union(&[vector, inner]);
            draft.structure(&[union])
        }),
    ]
}

/// Aggregates within a vector's bytes: each is judged by its own size.
pub fn vector_nests() -> Vec<Vec<u8>> {
    let codes = 0..CODES as u8;
    let pairs = codes.clone().flat_map(|first| codes.clone().map(move |second| (first, second)));
    let mut all = Vec::new();
    for (first, second) in pairs {
        let run = |draft: &mut Draft| [first, second].map(|code| draft.basic(code));
        all.extend(beside_vector(|draft| {
            let run = run(draft);
            draft.structure(&run)
        }));
        all.extend(beside_vector(|draft| {
            let run = run(draft);
            draft.union(&run)
        }));
    }
    for code in codes {
        for count in 1..=4 {
            all.extend(beside_vector(|draft| {
                let element = draft.basic(code);
                draft.array(element, count)
            }));
        }
    }
    all
}
