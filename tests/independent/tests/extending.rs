//! Document 02, request 2026-13, "Adding an argument must move nothing": random
//! descriptions, each beside one without its last arguments.

use independent::description::VARIADIC;
use independent::generator::{random_description, LARGE, MIDDLE, SMALL};
use independent::history::{random_address, random_values};
use independent::moving::{placing, spots, Image, REGISTER_IMAGE, UPPER_IMAGE};
use independent::places::accepted;
use independent::random::Random;

/// The same call without its last arguments; of one without unnamed ones the variadic
/// mark says nothing, and is drawn.
fn without_the_last(random: &mut Random, bytes: &[u8], left: usize) -> Vec<u8> {
    let (named, all) = (bytes[7] as usize, bytes[8] as usize);
    let mut shorter = bytes[..bytes.len() - (all - left)].to_vec();
    shorter[7] = named.min(left) as u8;
    shorter[8] = left as u8;
    if named >= left {
        shorter[6] = if random.one_in(2) { bytes[6] | VARIADIC } else { bytes[6] & !VARIADIC };
    }
    shorter
}

fn placed(bytes: &[u8], address: u64, values: &[u8]) -> (Vec<u8>, Vec<u8>, Vec<u8>) {
    let mut registers = vec![0x55; REGISTER_IMAGE];
    let mut upper = vec![0x66; UPPER_IMAGE];
    let mut stack = vec![0xAA; accepted(bytes).expect("accepted").layout.area.0];
    placing(bytes, address, values, &mut registers, &mut upper, &mut stack).expect("placed");
    (registers, upper, stack)
}

#[test]
fn adding_an_argument_moves_nothing() {
    let mut random = Random::new(61);
    for (shape, count) in [(SMALL, 3000), (MIDDLE, 600), (LARGE, 60)] {
        for _ in 0..count {
            let longer = random_description(&mut random, shape);
            let left = random.below(longer[8] as usize + 1);
            let shorter = without_the_last(&mut random, &longer, left);
            let (one, other) = (
                accepted(&shorter).expect("accepted without its last").layout,
                accepted(&longer).expect("accepted").layout,
            );
            assert_eq!(one.placements, other.placements[..left]);
            assert_eq!(one.taken, other.taken[..=left]);
            assert!(one.registers_used() <= other.registers_used());
            assert!(one.vector_count() <= other.vector_count());
            assert!(one.area <= other.area);

            let address = random_address(&mut random, &longer);
            let values = random_values(&mut random, &longer);
            let old = placed(&shorter, address, &values[..one.values_length()]);
            let new = placed(&longer, address, &values);
            for spot in spots(&one) {
                let at = spot.offset.0;
                match spot.image {
                    Image::Registers => assert_eq!(old.0[at], new.0[at]),
                    Image::Upper => assert_eq!(old.1[at], new.1[at]),
                    Image::Stack => assert_eq!(old.2[at], new.2[at]),
                }
            }
            if one.hidden_address {
                assert_eq!(old.0[..8], new.0[..8]);
            }
        }
    }
}
