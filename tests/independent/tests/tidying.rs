//! The tidy form: the request's words as examples, and its sentences over random
//! descriptions, with pairs that are the same call and pairs that differ in one thing.

use independent::description::form;
use independent::draft::Draft;
use independent::generator::{random_description, towers, LARGE, MIDDLE, SMALL};
use independent::notation::description;
use independent::places::{accepted, check, Layout, ReturnPlace};
use independent::random::Random;
use independent::refusal::Refusal;
use independent::tidying::{is_same_call, tidy, tidying};
use independent::types::code;
use independent::untidy::{differing, scrambled};

/// Types 0 and 5 are dead, 3 and 4 are equal, the union's run overlaps type 3's, and
/// type 4's begins behind a gap. Through return: char, int, the struct, the union.
#[test]
fn the_words_of_the_request() {
    let untidy = [
        b"KCB\x01\x00".to_vec(),
        vec![7, 0, 2, 2, 6, 5],
        vec![0, 8, 0, 0, 0, 3, 0, 0, 0, 1, 0, 0, 2, 0, 2, 0, 2, 3, 2, 0, 1, 0, 2, 0, 3, 1, 2, 0],
        vec![1, 2, 3, 1, 2, 4, 1],
    ]
    .concat();
    let expected = [
        b"KCB\x01\x00".to_vec(),
        vec![4, 0, 2, 2, 3, 4],
        vec![0, 1, 0, 0, 0, 3, 0, 0, 2, 0, 2, 0, 3, 2, 2, 0],
        vec![1, 0, 0, 2, 2, 1],
    ]
    .concat();
    assert_eq!(tidy(&untidy), Ok(expected));
}

#[test]
fn types_are_numbered_as_each_is_completed() {
    let bytes = description("void: struct{int, char}, int, struct{int, char}");
    let tidied = tidy(&bytes).expect("tidy");
    assert_eq!(tidied[5], 3);
    assert_eq!(tidied[11..23], [0, 3, 0, 0, 0, 1, 0, 0, 2, 0, 2, 0]);
    assert_eq!(tidied[23..], [0, 1, 2, 0, 2]);
}

#[test]
fn the_order_of_members_counts_and_so_does_byte_six() {
    let of = |text: &str| tidy(&description(text)).expect("tidy");
    assert_ne!(of("void: struct{int, char}"), of("void: struct{char, int}"));
    assert_ne!(of("void: struct{int}"), of("void: union{int}"));
    let plain = description("int: int");
    let mut variadic = plain.clone();
    variadic[6] = 1;
    let (one, other) = (tidy(&plain).expect("tidy"), tidy(&variadic).expect("tidy"));
    assert_eq!(one[7..], other[7..]);
    assert_ne!(one, other);
}

/// A struct of 255 ints and others of `shorter` ints over the same run.
fn over_one_run(shorter: &[usize]) -> Vec<u8> {
    let mut draft = Draft::new();
    let int = draft.basic(code::INT);
    let longest = draft.structure(&[int; 255]);
    draft.argument(longest);
    for &count in shorter {
        let type_number = draft.record(2, 0, count);
        draft.argument(type_number);
    }
    draft.bytes()
}

#[test]
fn twenty_nine_comes_before_eleven_and_a_refusal_leaves_the_buffer() {
    let mut out = [9; 600];
    assert_eq!(tidying(&over_one_run(&[1]), &mut out), Err(Refusal::TooManyMembers));
    assert_eq!(tidying(&over_one_run(&[255, 255]), &mut out), Err(Refusal::WrongLength));
    assert_eq!(tidying(&over_one_run(&[]), &mut out), Err(Refusal::WrongLength));
    assert_eq!(
        tidying(&description("void: struct{char[4096], char}"), &mut out[..1])
            .map_err(Refusal::number),
        Err(7)
    );
    assert_eq!(out, [9; 600]);
    let tidied = tidy(&over_one_run(&[255, 255])).expect("equal ones are one");
    assert_eq!(tidying(&over_one_run(&[255, 255]), &mut out[..tidied.len()]), Ok(()));
    assert_eq!(out[..tidied.len()], tidied);
    assert_eq!(out[tidied.len()..], [9; 600][tidied.len()..]);
}

#[test]
fn towers_are_tidied() {
    for (name, bytes) in towers() {
        if check(&bytes).number == 0 {
            let tidied = tidy(&bytes);
            assert!(tidied.is_err() || tidy(tidied.as_ref().expect("tidy")) == tidied, "{name}");
        }
    }
}

/// The layout without the numbers of the types.
fn without_numbers(mut layout: Layout) -> Layout {
    for placement in &mut layout.placements {
        placement.type_number = 0;
    }
    layout.return_place = match layout.return_place {
        ReturnPlace::Void => ReturnPlace::Void,
        ReturnPlace::Memory(_) => ReturnPlace::Memory(0),
        ReturnPlace::Registers(_, registers) => ReturnPlace::Registers(0, registers),
    };
    layout
}

#[test]
fn what_the_request_says_of_all_descriptions() {
    let mut random = Random::new(31);
    let (mut same, mut different, mut refused) = (0, 0, 0);
    for index in 0..100_000 {
        let shape = match index % 100 {
            0 => LARGE,
            1..=9 => MIDDLE,
            _ => SMALL,
        };
        let bytes = random_description(&mut random, shape);
        let Ok(tidied) = tidy(&bytes) else {
            refused += 1;
            continue;
        };
        let again = accepted(&tidied).expect("accepted again");
        let given = accepted(&bytes).expect("accepted");
        assert!(tidied[5] <= bytes[5], "no more types");
        assert_eq!(tidy(&tidied).expect("tidy"), tidied, "twice");
        assert!(is_same_call(given.types.description(), again.types.description()));
        assert_eq!(without_numbers(given.layout), without_numbers(again.layout));
        let other = scrambled(&mut random, &bytes);
        if check(&other).number == 0 {
            assert!(is_same_call(form(&bytes).expect("form"), form(&other).expect("form")));
            assert_eq!(tidy(&other).expect("tidy"), tidied, "the same call");
            same += usize::from(other != bytes);
        }
        if let Some(other) = differing(&mut random, &bytes) {
            assert_ne!(tidy(&other).ok(), Some(tidied), "another call");
            different += 1;
        }
    }
    assert!(same > 60_000 && different > 60_000 && refused < 1000, "{same} {different} {refused}");
}
