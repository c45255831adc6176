//! Laws that hold for every accepted description, over random ones.

use independent::generator::{random_description, Shape, LARGE, MIDDLE, SMALL};
use independent::history::{random_address, random_values, FILLING};
use independent::listing::listing;
use independent::moving::{gathering, placing, spots, Image, Spot, REGISTER_IMAGE, UPPER_IMAGE};
use independent::places::{accepted, Place, Placement, Register};
use independent::random::Random;
use independent::station::{attach, Station, SEAT};
use independent::types::code;
use independent::units::{Bytes, Eightbytes};
use independent::walk::{offsets_after, open, show, shown_piece, step};
use std::collections::HashSet;

fn for_random_descriptions(seed: u64, mut law: impl FnMut(&mut Random, &[u8])) {
    let mut random = Random::new(seed);
    for (shape, count) in [(SMALL, 3000), (MIDDLE, 600), (LARGE, 40)] {
        let shape: Shape = shape;
        for _ in 0..count {
            let bytes = random_description(&mut random, shape);
            law(&mut random, &bytes);
        }
    }
}

#[test]
fn every_value_byte_has_one_place_of_its_own() {
    for_random_descriptions(11, |_, bytes| {
        let layout = accepted(bytes).expect("accepted").layout;
        let mut seen = HashSet::new();
        for spot in spots(&layout) {
            let room = match spot.image {
                Image::Registers => REGISTER_IMAGE,
                Image::Upper => UPPER_IMAGE,
                Image::Stack => layout.area.0,
            };
            assert!(spot.offset.0 < room);
            assert!(seen.insert(spot));
            let in_rdi = spot.image == Image::Registers && spot.offset.0 < 8;
            assert!(!(in_rdi && layout.hidden_address));
        }
    });
}

#[test]
fn values_are_packed_from_0_to_the_total_and_the_first_n_are_named() {
    for_random_descriptions(13, |_, bytes| {
        let accepted = accepted(bytes).expect("accepted");
        let mut next = 0;
        for (position, placement) in accepted.layout.placements.iter().enumerate() {
            assert_eq!(placement.value.0, next);
            next += placement.size.0;
            assert_eq!(placement.named, position < bytes[7] as usize);
        }
        assert_eq!(next, accepted.layout.values_length());
    });
}

#[test]
fn each_line_ends_with_the_offset_and_the_mark() {
    for_random_descriptions(14, |_, bytes| {
        let layout = accepted(bytes).expect("accepted").layout;
        let text = listing(bytes);
        for (line, placement) in text.lines().skip(1).zip(&layout.placements) {
            let mark = if placement.named { "named" } else { "unnamed" };
            assert!(line.ends_with(&format!(" at {} {mark}", placement.value.0)), "{line}");
        }
        assert!(text.len() <= 4540, "{text}");
    });
}

#[test]
fn counts_are_those_of_the_places() {
    for_random_descriptions(12, |_, bytes| {
        let layout = accepted(bytes).expect("accepted").layout;
        let mut general = layout.hidden_address as usize;
        let mut vector = 0;
        for placement in &layout.placements {
            match &placement.place {
                Place::Stack(offset) => {
                    assert_eq!(offset.0 % placement.alignment.0.max(8), 0);
                }
                Place::Registers(registers) => {
                    assert_eq!(registers.len(), placement.size.eightbytes().0);
                    let is_general = |one: &&Register| matches!(one, Register::General(_));
                    let is_vector =
                        |one: &&Register| matches!(one, Register::Vector(_, Eightbytes(0)));
                    general += registers.iter().filter(is_general).count();
                    vector += registers.iter().filter(is_vector).count();
                }
            }
        }
        assert_eq!(layout.registers_used().0, general);
        assert_eq!(layout.vector_count().0, vector);
        assert!(general <= 6 && vector <= 8);
        // "an area with a 32-byte aligned argument on it is rounded up to 32"
        let lies = |one: &&Placement| matches!(one.place, Place::Stack(_));
        let strict = layout.placements.iter().filter(lies).any(|one| one.alignment == Bytes(32));
        assert_eq!(layout.area_alignment.0, if strict { 32 } else { 16 });
        assert_eq!(
            layout.area,
            layout.taken[layout.placements.len()].stack.raised_to(layout.area_alignment)
        );
    });
}

#[test]
fn values_placed_and_gathered_are_the_same_bytes() {
    for_random_descriptions(13, |random, bytes| {
        let accepted = accepted(bytes).expect("accepted");
        let values = random_values(random, bytes);
        let mut registers = random.bytes(REGISTER_IMAGE);
        let mut upper = random.bytes(UPPER_IMAGE);
        let mut stack = random.bytes(accepted.layout.area.0);
        let hidden = random_address(random, bytes);
        placing(bytes, hidden, &values, &mut registers, &mut upper, &mut stack).expect("right");
        let mut back = vec![FILLING; values.len()];
        let found = gathering(bytes, &registers, &upper, &stack, &mut back).expect("right");
        assert_eq!(back, values);
        assert_eq!(found, if accepted.layout.hidden_address { hidden } else { 0 });
        let used = spots(&accepted.layout).len() + 8 * accepted.layout.hidden_address as usize;
        let images = registers.iter().chain(&upper).chain(&stack);
        let zeros = images.filter(|&&byte| byte == 0).count();
        assert!(zeros + used >= REGISTER_IMAGE + UPPER_IMAGE + accepted.layout.area.0);
    });
}

#[test]
fn gathered_and_placed_again_is_the_same_when_unused_bytes_are_zero() {
    for_random_descriptions(14, |random, bytes| {
        let accepted = accepted(bytes).expect("accepted");
        let is_bool = |number: u8| accepted.types.is_basic(number, code::BOOL);
        let placements = &accepted.layout.placements;
        if placements.iter().any(|placement| is_bool(placement.type_number)) {
            return;
        }
        let mut registers = random.bytes(REGISTER_IMAGE);
        // "images placed again under demand 2 need one below that"
        registers[0..8].copy_from_slice(&random_address(random, bytes).to_le_bytes());
        let upper = random.bytes(UPPER_IMAGE);
        let stack = random.bytes(accepted.layout.area.0);
        let mut values = vec![0; accepted.layout.values_length()];
        let hidden = gathering(bytes, &registers, &upper, &stack, &mut values).expect("right");
        let mut again = [registers.clone(), upper.clone(), stack.clone()];
        let [registers_again, upper_again, stack_again] = &mut again;
        placing(bytes, hidden, &values, registers_again, upper_again, stack_again).expect("right");
        let mut values_again = vec![0; values.len()];
        gathering(bytes, registers_again, upper_again, stack_again, &mut values_again)
            .expect("right");
        assert_eq!(values, values_again);
        let used: HashSet<Spot> = spots(&accepted.layout).into_iter().collect();
        let images = [Image::Registers, Image::Upper, Image::Stack];
        for ((image, before), after) in
            images.into_iter().zip([registers, upper, stack]).zip(&again)
        {
            for (offset, (byte, again)) in before.iter().zip(after).enumerate() {
                let hidden_byte =
                    accepted.layout.hidden_address && image == Image::Registers && offset < 8;
                let is_used = hidden_byte || used.contains(&Spot { image, offset: Bytes(offset) });
                assert_eq!(*again, if is_used { *byte } else { 0 });
            }
        }
    });
}

#[test]
fn a_walk_hands_back_each_unnamed_argument() {
    for_random_descriptions(15, |random, bytes| {
        let accepted = accepted(bytes).expect("accepted");
        let layout = &accepted.layout;
        let values = random_values(random, bytes);
        let (mut registers, mut stack) = (vec![0; REGISTER_IMAGE], vec![0; layout.area.0]);
        let mut upper = [0; UPPER_IMAGE];
        placing(bytes, 1, &values, &mut registers, &mut upper, &mut stack).expect("right");
        let mut station = Station { number: random.below(1000) as u32, ..Station::default() };
        let mut seat = random.bytes(SEAT);
        attach(&mut station, &mut seat, bytes).expect("accepted");
        let Ok(mut walk) = open(&station, &seat) else {
            return;
        };
        let named = accepted.types.description().named();
        let mut start: usize = layout.placements[..named].iter().map(|one| one.size.0).sum();
        for (position, placement) in layout.placements.iter().enumerate().skip(named) {
            let asked = placement.type_number;
            let value = &values[start..start + placement.size.0];
            let part = show(&station, &seat, &walk, asked, &registers, &stack);
            let piece = shown_piece(&station, &seat, &walk, asked, &registers, &stack);
            assert_eq!(piece.expect("right").is_some(), !part.is_empty());
            assert!(part.is_empty() || part == value);
            let mut out = vec![FILLING; placement.size.0];
            step(&station, &seat, &mut walk, asked, &registers, &stack, &mut out).expect("right");
            assert_eq!(out, value);
            let offsets = offsets_after(layout.taken[position + 1]);
            assert_eq!(walk.overflow, offsets.overflow.0 as u64);
            start += placement.size.0;
        }
        assert_eq!(start, values.len());
    });
}
