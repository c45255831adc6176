//! Returned values: where each byte stands, the two round trips, and the order
//! of refusals.

use independent::generator::{random_description, MIDDLE, SMALL};
use independent::history::{random_address, FILLING};
use independent::notation::description;
use independent::places::{accepted, ReturnPlace};
use independent::random::Random;
use independent::refusal::Refusal;
use independent::returning::{
    putting, return_spots, taking, value_length, RETURN_IMAGE, RETURN_UPPER,
};
use independent::types::code;

const HIDDEN: u64 = 0x1122_3344_5566_7788;

/// The bytes from `first` on.
fn counted(first: u8, length: usize) -> Vec<u8> {
    (first..).take(length).collect()
}

/// Puts 1, 2, 3 .. and says what must stand in the image and, from 80 on, in the
/// second one: starts, first bytes and lengths; zeros elsewhere.
fn holds(function: &str, length: usize, stretches: &[(usize, u8, usize)]) {
    let mut both = [FILLING; RETURN_IMAGE + RETURN_UPPER];
    let (image, upper) = both.split_at_mut(RETURN_IMAGE);
    putting(&description(function), HIDDEN, &counted(1, length), image, upper).expect("right");
    let mut expected = [0; RETURN_IMAGE + RETURN_UPPER];
    for &(start, first, length) in stretches {
        expected[start..start + length].copy_from_slice(&counted(first, length));
    }
    assert_eq!(both, expected, "{function}");
}

#[test]
fn each_eightbyte_goes_to_its_register() {
    holds("void: int", 0, &[]);
    holds("bool:", 1, &[(0, 1, 1)]);
    holds("int:", 4, &[(0, 1, 4)]);
    holds("int128:", 16, &[(0, 1, 16)]);
    holds("struct{char[11]}:", 11, &[(0, 1, 11)]);
    holds("float:", 4, &[(16, 1, 4)]);
    holds("m128:", 16, &[(16, 1, 16)]);
    holds("complex_double:", 16, &[(16, 1, 8), (32, 9, 8)]);
    holds("struct{double, long}:", 16, &[(16, 1, 8), (0, 9, 8)]);
    holds("struct{long, double}:", 16, &[(0, 1, 8), (16, 9, 8)]);
    holds("struct{float, float, int}:", 12, &[(16, 1, 8), (0, 9, 4)]);
    holds("m256:", 32, &[(16, 1, 16), (80, 17, 16)]);
    holds("union{m256, double}:", 32, &[(16, 1, 16), (80, 17, 16)]);
}

#[test]
fn ten_bytes_of_a_long_double_are_moved() {
    holds("long_double:", 16, &[(48, 1, 10)]);
    holds("struct{long_double}:", 16, &[(48, 1, 10)]);
    holds("complex_long_double:", 32, &[(48, 1, 10), (64, 17, 10)]);
    let image = [FILLING; RETURN_IMAGE];
    let mut value = [7; 32];
    let upper = [FILLING; RETURN_UPPER];
    assert_eq!(taking(&description("complex_long_double:"), &image, &upper, &mut value), Ok(0));
    for (place, byte) in value.iter().enumerate() {
        assert_eq!(*byte, if place % 16 < 10 { FILLING } else { 0 });
    }
}

#[test]
fn a_value_in_memory_is_its_address() {
    let bytes = description("struct{char[17]}: int");
    let (mut image, mut upper) = ([FILLING; RETURN_IMAGE], [FILLING; RETURN_UPPER]);
    assert_eq!(putting(&bytes, HIDDEN, &[], &mut image, &mut upper), Ok(()));
    assert_eq!(image[..8], HIDDEN.to_le_bytes());
    assert_eq!(image[8..], [0; 72]);
    assert_eq!(upper, [0; RETURN_UPPER]);
    assert_eq!(taking(&bytes, &image, &upper, &mut []), Ok(HIDDEN));
    let long = putting(&bytes, HIDDEN, &[1; 17], &mut image, &mut upper);
    assert_eq!(long, Err(Refusal::WrongLength));
}

#[test]
fn lengths_come_before_bools_and_a_refusal_writes_nothing() {
    let bytes = description("bool:");
    let (mut image, mut upper) = ([9; RETURN_IMAGE + 1], [9; RETURN_UPPER + 1]);
    let mut put = |value: &[u8], skipped: usize, second: usize| {
        putting(&bytes, 0, value, &mut image[skipped..], &mut upper[second..])
    };
    assert_eq!(put(&[2], 0, 1), Err(Refusal::WrongLength));
    assert_eq!(put(&[2], 1, 0), Err(Refusal::WrongLength));
    assert_eq!(put(&[2], 1, 2), Err(Refusal::WrongLength));
    assert_eq!(put(&[2, 0], 1, 1), Err(Refusal::WrongLength));
    assert_eq!(put(&[2], 1, 1), Err(Refusal::WrongBool));
    assert_eq!(image, [9; RETURN_IMAGE + 1]);
    assert_eq!(upper, [9; RETURN_UPPER + 1]);
    let mut value = [0];
    assert_eq!(taking(&bytes, &image[1..], &upper[1..], &mut value), Ok(0));
    assert_eq!(value, [9]);
    assert_eq!(taking(&bytes, &image[1..], &upper, &mut value), Err(Refusal::WrongLength));
    let (mut image, mut upper) = ([9; RETURN_IMAGE], [9; RETURN_UPPER]);
    let put = putting(&description("struct{bool}:"), 0, &[2], &mut image, &mut upper);
    assert_eq!(put, Ok(()));
}

#[test]
fn values_put_and_taken_are_the_same_but_for_those_six_bytes() {
    let mut random = Random::new(21);
    for index in 0..6000 {
        let shape = if index % 10 == 0 { MIDDLE } else { SMALL };
        let bytes = random_description(&mut random, shape);
        let accepted = accepted(&bytes).expect("accepted");
        let mut value = random.bytes(value_length(&accepted));
        if let ReturnPlace::Registers(number, _) = accepted.layout.return_place {
            if accepted.types.is_basic(number, code::BOOL) {
                value[0] %= 2;
            }
        }
        let mut image = random.bytes(RETURN_IMAGE);
        let mut upper = random.bytes(RETURN_UPPER);
        let hidden = random_address(&mut random, &bytes);
        putting(&bytes, hidden, &value, &mut image, &mut upper).expect("right");
        let mut back = vec![FILLING; value.len()];
        let address = taking(&bytes, &image, &upper, &mut back).expect("right");
        assert_eq!(address, if accepted.layout.hidden_address { hidden } else { 0 });
        let spots = return_spots(&accepted);
        for (place, spot) in spots.iter().enumerate() {
            assert_eq!(back[place], if spot.is_some() { value[place] } else { 0 });
        }
        let (mut again, mut second) = (random.bytes(RETURN_IMAGE), random.bytes(RETURN_UPPER));
        putting(&bytes, address, &back, &mut again, &mut second).expect("right");
        assert_eq!((again, second), (image, upper));
    }
}
