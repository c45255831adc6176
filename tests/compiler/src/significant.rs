//! The masks: which bytes of a value a compiler must keep, and values that it
//! does keep.
//!
//! Left out of the comparison are padding (no compiler need copy it) and bytes
//! 10 to 15 of each long double (an x87 load and store moves ten). Bytes above a
//! small integer or float in its register, and everything else that is no value
//! byte, are unused and never compared. A byte of a union counts where it counts
//! in any member. A _Bool argument or return value is 0 or 1. Long doubles are
//! normal numbers: the top mantissa bit is set and the exponent is neither 0 nor
//! the largest.

use independent::description::BASIC;
use independent::random::Random;
use independent::types::{code, Types};

/// For each byte of a value of the type, 1 where it is compared, else 0.
pub fn significant(types: &Types, type_number: u8) -> Vec<u8> {
    let mut mask = vec![0; types.size(type_number).0];
    mark(types, type_number, 0, &mut mask);
    mask
}

fn mark(types: &Types, type_number: u8, offset: usize, mask: &mut [u8]) {
    let record = types.record(type_number);
    if record.kind == BASIC {
        let (_, ranges) = basic_ranges(record.a, types.size(type_number).0);
        for (start, length) in ranges {
            mask[offset + start..offset + start + length].fill(1);
        }
        return;
    }
    for part in types.parts(type_number) {
        mark(types, part.type_number, offset + part.offset.0, mask);
    }
}

/// Whether a basic type holds x87 numbers, and the ranges of bytes it keeps.
fn basic_ranges(basic: u8, size: usize) -> (bool, Vec<(usize, usize)>) {
    match basic {
        code::LONG_DOUBLE => (true, vec![(0, 10)]),
        code::COMPLEX_LONG_DOUBLE => (true, vec![(0, 10), (16, 10)]),
        _ => (false, vec![(0, size)]),
    }
}

/// A random value of a type that stands alone as argument or return value.
pub fn random_value(random: &mut Random, types: &Types, type_number: u8) -> Vec<u8> {
    let mut value = random.bytes(types.size(type_number).0);
    normalise(types, type_number, 0, &mut value);
    if types.is_basic(type_number, code::BOOL) {
        value[0] &= 1;
    }
    value
}

/// Makes each long double in the value a normal number.
fn normalise(types: &Types, type_number: u8, offset: usize, value: &mut [u8]) {
    let record = types.record(type_number);
    if record.kind == BASIC {
        let (is_x87, ranges) = basic_ranges(record.a, types.size(type_number).0);
        for (start, _) in ranges.into_iter().filter(|_| is_x87) {
            let number = &mut value[offset + start..offset + start + 10];
            number[7] |= 0x80;
            number[8] |= 0x01;
            number[9] &= 0xBF;
        }
        return;
    }
    for part in types.parts(type_number) {
        normalise(types, part.type_number, offset + part.offset.0, value);
    }
}
