//! Whether a call needs the stack: the request's words as examples, and its sentences
//! over random descriptions.

use independent::damage::{damaged, refusals_and_pairs};
use independent::generator::{random_description, LARGE, MIDDLE, SMALL};
use independent::needing::{needs_stack, StackNeed};
use independent::notation::description;
use independent::places::accepted;
use independent::random::Random;
use independent::refusal::Refusal;

fn needed(text: &str) -> (bool, usize) {
    let need = needs_stack(&description(text)).expect("known");
    (need.needed, need.looked)
}

#[test]
fn the_first_argument_on_the_stack_tells() {
    assert_eq!(needed("void:"), (false, 0));
    assert_eq!(needed("void: long, long, long, long, long, long, double"), (false, 7));
    assert_eq!(needed("void: long, long, long, long, long, long, long, double"), (true, 7));
    assert_eq!(needed("void: long_double, int, int"), (true, 1));
    assert_eq!(needed("void: int, double, ..., struct{char[17]}, long_double"), (true, 3));
    // The one that does not fit goes to the stack, though one behind it takes the last register.
    assert_eq!(needed("void: long, long, long, long, long, int128, long"), (true, 6));
    // The hidden address takes a register and no stack.
    assert_eq!(needed("struct{char[17]}: int"), (false, 1));
    assert_eq!(needed("struct{char[17]}: int128, int128, long, long"), (true, 4));
}

#[test]
fn a_too_large_area_is_needed_and_not_refused() {
    let bytes = description("void: int, struct{char[4096]}, struct{char[4096]}, struct{char[4096]}, struct{char[4096]}, long_double");
    assert!(matches!(accepted(&bytes), Err(Refusal::AreaTooLarge)));
    assert_eq!(needs_stack(&bytes), Ok(StackNeed { needed: true, looked: 2 }));
}

/// "It equals "area is not 0" of the full layout, and is yes where only 10 would
/// refuse .. Refusals: 1..9 as before; 10 is not given here."
fn beside_the_layout(bytes: &[u8]) {
    match accepted(bytes) {
        Ok(accepted) => {
            let need = needs_stack(bytes).expect("known");
            assert_eq!(need.needed, accepted.layout.area.0 != 0);
            assert!(need.looked <= accepted.layout.placements.len());
        }
        Err(Refusal::AreaTooLarge) => assert!(needs_stack(bytes).expect("known").needed),
        Err(refusal) => assert_eq!(needs_stack(bytes), Err(refusal)),
    }
}

#[test]
fn it_is_the_area_of_the_layout() {
    let mut random = Random::new(51);
    for (shape, count) in [(SMALL, 3000), (MIDDLE, 600), (LARGE, 40)] {
        for _ in 0..count {
            beside_the_layout(&random_description(&mut random, shape));
        }
    }
    for refusals in refusals_and_pairs() {
        for _ in 0..20 {
            beside_the_layout(&damaged(&mut random, &refusals));
        }
    }
}
