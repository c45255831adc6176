//! Bytes of every kind for long runs: accepted descriptions of all sizes, refused
//! ones, towers, and bytes that are hardly descriptions at all.

use crate::broken::{broken, random_broken};
use crate::damage::{damaged, refusals_and_pairs};
use crate::draft::in_both_models;
use crate::generator::{limits, random_description, towers, LARGE, MIDDLE, SMALL};
use crate::random::Random;

/// Draws from the mixture.
pub struct Mixture {
    refusals: Vec<Vec<u8>>,
    by_hand: Vec<Vec<u8>>,
}

impl Mixture {
    pub fn new() -> Mixture {
        let named = limits().into_iter().chain(towers()).map(|(_, bytes)| bytes);
        let by_hand = named.chain(broken().into_iter().map(|one| one.bytes)).collect();
        Mixture { refusals: refusals_and_pairs(), by_hand: in_both_models(by_hand) }
    }

    /// The next bytes: more than half of them are an accepted description.
    pub fn draw(&self, random: &mut Random) -> Vec<u8> {
        match random.below(20) {
            0..=7 => random_description(random, SMALL),
            8..=11 => random_description(random, MIDDLE),
            12 => random_description(random, LARGE),
            13 => {
                let index = random.below(self.by_hand.len());
                self.by_hand[index].clone()
            }
            14 | 15 => {
                let index = random.below(self.refusals.len());
                damaged(random, &self.refusals[index])
            }
            16 => random_broken(random),
            _ => changed(random),
        }
    }
}

impl Default for Mixture {
    fn default() -> Mixture {
        Mixture::new()
    }
}

/// A description in which a few bits are turned over, or with an end cut off, or
/// with something behind it; now and then no description at all.
fn changed(random: &mut Random) -> Vec<u8> {
    let mut bytes = random_description(random, SMALL);
    match random.below(8) {
        0 => {
            let length = random.below(bytes.len());
            bytes.truncate(length);
        }
        1 => {
            let behind = random.between(1, 600);
            bytes.extend(random.bytes(behind));
        }
        2 => {
            let length = random.below(40);
            bytes = random.bytes(length);
        }
        _ => {
            for _ in 0..random.between(1, 3) {
                let at = random.below(bytes.len());
                bytes[at] ^= 1 << random.below(8);
            }
        }
    }
    bytes
}
