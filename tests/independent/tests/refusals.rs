//! Refusals: each number, each pair in its order, and each call's own order.

use independent::broken::{broken, mended, random_broken};
use independent::cases::{bytes_of_hex, LISTER};
use independent::classes::classes;
use independent::damage::{damaged, refusals_and_pairs};
use independent::history::{random_images, random_values};
use independent::listing::listing;
use independent::moving::{gathering, placing, REGISTER_IMAGE, UPPER_IMAGE};
use independent::notation::description;
use independent::places::{check, layout};
use independent::random::Random;
use independent::refusal::{told, Refusal, Told};
use independent::returning::{putting, taking, RETURN_IMAGE, RETURN_UPPER};
use independent::station::{attach, change, detach, Station, SEAT};
use independent::types::{alignment, size, types};
use independent::walk::{open, show_number, step, Walk};

#[test]
fn the_lower_of_two_conditions_is_answered() {
    let mut random = Random::new(7);
    for refusals in refusals_and_pairs() {
        for _ in 0..200 {
            let bytes = damaged(&mut random, &refusals);
            assert_eq!(check(&bytes).number, refusals[0], "{refusals:?} {bytes:?}");
            let question = types(&bytes).err().map_or(0, Refusal::number);
            let expected = if refusals[0] <= 7 { refusals[0] } else { 0 };
            assert_eq!(question, expected, "{refusals:?} {bytes:?}");
        }
    }
}

/// What each call tells that takes a description, and those on a seat that holds
/// it, however it came there.
fn told_by_each_call(bytes: &[u8]) -> Vec<Told> {
    let mut registers = vec![9; REGISTER_IMAGE];
    let mut seat = vec![0; SEAT];
    let mut new = Station::default();
    let refused = attach(&mut new, &mut seat, bytes);
    seat[..bytes.len()].copy_from_slice(bytes);
    let station = Station { attached: true, length: bytes.len(), number: 1 };
    let mut walk = Walk::default();
    let mut upper = [0; UPPER_IMAGE];
    let (mut image, mut second) = ([0; RETURN_IMAGE], [0; RETURN_UPPER]);
    vec![
        check(bytes),
        told(&layout(bytes, &mut [])),
        told(&placing(bytes, 0, &[], &mut registers, &mut upper, &mut [])),
        told(&gathering(bytes, &registers, &upper, &[], &mut [])),
        told(&putting(bytes, 0, &[], &mut image, &mut second)),
        told(&taking(bytes, &image, &second, &mut [])),
        told(&refused),
        told(&open(&station, &seat)),
        told(&step(&station, &seat, &mut walk, 0, &registers, &[], &mut [])),
        show_number(&station, &seat, &walk, 0, &registers, &[]),
    ]
}

fn told_by_each_question(bytes: &[u8]) -> Vec<Told> {
    let of = |number: u8| {
        let classes = told(&classes(bytes, number));
        [told(&size(bytes, number)), told(&alignment(bytes, number)), classes]
    };
    [of(0), of(12), of(255)].concat()
}

#[test]
fn every_call_tells_the_lowest_type_that_breaks_the_rule() {
    for one in broken() {
        let all = told_by_each_call(&one.bytes);
        assert!(all.iter().all(|told| *told == one.told), "{}: {all:?}", one.name);
        if one.told.number <= 7 {
            let all = told_by_each_question(&one.bytes);
            assert!(all.iter().all(|told| *told == one.told), "{}: {all:?}", one.name);
        }
    }
}

#[test]
fn the_lister_prints_the_type_by_the_number_of_the_refusal() {
    for one in broken() {
        let Told { number, type_number } = one.told;
        let line = match number {
            6 | 7 => format!("refused {number} type {type_number}\n"),
            _ => format!("refused {number}\n"),
        };
        assert_eq!(listing(&one.bytes), line, "{}", one.name);
    }
}

/// None below it breaks the rule, since mending it and all above it is enough;
/// it does, since mending the others is not.
#[test]
fn the_type_that_is_told_is_the_lowest() {
    let mut random = Random::new(9);
    let mut seen = [0; 8];
    for _ in 0..3000 {
        let bytes = random_broken(&mut random);
        let refusal = check(&bytes);
        let (lowest, types) = (refusal.type_number as usize, bytes[5] as usize);
        if refusal.number != 6 && refusal.number != 7 {
            assert_eq!(lowest, 0, "{bytes:?}");
            continue;
        }
        seen[refusal.number as usize] += 1;
        let below = check(&mended(&bytes, lowest..types));
        assert!(below.number != refusal.number, "{bytes:?}");
        assert_eq!(check(&mended(&bytes, lowest + 1..types)), refusal, "{bytes:?}");
        if refusal.number == 6 {
            let alone = mended(&mended(&bytes, lowest + 1..types), 0..lowest);
            assert_eq!(check(&alone), refusal, "{bytes:?}");
        }
    }
    assert!(seen[6] > 500 && seen[7] > 500, "{seen:?}");
}

#[test]
fn bytes_changed_at_random_never_break_it() {
    let mut random = Random::new(8);
    let good = bytes_of_hex(LISTER);
    for _ in 0..20_000 {
        let mut bytes = good.clone();
        for _ in 0..random.between(1, 3) {
            let at = random.below(bytes.len());
            bytes[at] = random.byte();
        }
        assert!(check(&bytes).number <= 10);
    }
}

#[test]
fn lengths_come_before_bools() {
    let bytes = description("void: bool, int");
    let mut registers = vec![9; REGISTER_IMAGE];
    let mut stack = vec![];
    let mut place = |values: &[u8]| {
        placing(&bytes, 0, values, &mut registers, &mut [9; UPPER_IMAGE], &mut stack)
    };
    assert_eq!(place(&[2, 0, 0, 0]), Err(Refusal::WrongLength));
    assert_eq!(place(&[2, 0, 0, 0, 0]), Err(Refusal::WrongBool));
    assert!(registers.iter().all(|&byte| byte == 9), "a refusal writes nothing");
}

#[test]
fn gathering_takes_a_bool_as_it_finds_it() {
    let bytes = description("void: bool");
    let mut values = [0];
    let upper = [7; UPPER_IMAGE];
    assert_eq!(gathering(&bytes, &[7; REGISTER_IMAGE], &upper, &[], &mut values), Ok(0));
    assert_eq!(values, [7]);
}

#[test]
fn attach_and_detach_keep_their_orders() {
    let good = description("void: int, ..., long");
    let mut seat = vec![3; SEAT];
    let mut station = Station { attached: true, length: 587, number: u32::MAX };
    let before = station;
    assert_eq!(attach(&mut station, &mut seat, &good), Err(Refusal::WrongLength));
    assert_eq!(detach(&mut station, &mut seat), Err(Refusal::WrongLength));
    station.length = 0;
    assert_eq!(attach(&mut station, &mut seat, &[]), Err(Refusal::AlreadyAttached));
    station.attached = false;
    assert_eq!(attach(&mut station, &mut seat, &[]), Err(Refusal::NumbersUsedUp));
    assert_eq!(detach(&mut station, &mut seat), Err(Refusal::NothingAttached));
    station.number = u32::MAX - 1;
    assert_eq!(attach(&mut station, &mut seat, &[]), Err(Refusal::UnderElevenBytes));
    assert!(seat.iter().all(|&byte| byte == 3), "a refusal writes nothing");
    assert_eq!(attach(&mut station, &mut seat, &good), Ok(()));
    assert_eq!(station, Station { attached: true, length: good.len(), ..before });
    assert_eq!(&seat[..good.len()], good.as_slice());
    assert!(seat[good.len()..].iter().all(|&byte| byte == 0));
    assert_eq!(detach(&mut station, &mut seat), Ok(()));
    assert_eq!(station, Station { attached: false, length: 0, ..before });
    assert!(seat.iter().all(|&byte| byte == 0));
    assert_eq!(attach(&mut station, &mut seat, &good), Err(Refusal::NumbersUsedUp));
}

#[test]
fn a_change_keeps_its_order_and_is_the_one_call_where_a_refusal_writes() {
    let good = description("void: int, ..., long");
    let mut seat = vec![3; SEAT];
    let mut station = Station { attached: true, length: 587, number: u32::MAX };
    let before = station;
    assert_eq!(change(&mut station, &mut seat, &good), Err(Refusal::WrongLength));
    assert_eq!(station, before);
    station = Station { attached: false, length: 0, number: u32::MAX };
    let before = station;
    assert_eq!(change(&mut station, &mut seat, &[]), Err(Refusal::NumbersUsedUp));
    assert_eq!(station, before);
    station.number = 7;
    assert_eq!(change(&mut station, &mut seat, &[]), Err(Refusal::UnderElevenBytes));
    assert!(seat.iter().all(|&byte| byte == 3), "nothing was attached");
    assert_eq!(change(&mut station, &mut seat, &good), Ok(()));
    assert_eq!(station, Station { attached: true, length: good.len(), number: 8 });
    assert_eq!(change(&mut station, &mut seat, &[]), Err(Refusal::UnderElevenBytes));
    assert_eq!(station, Station { attached: false, length: 0, number: 8 });
    assert!(seat.iter().all(|&byte| byte == 0), "what was attached has left");
    station = Station { attached: true, length: 586, number: u32::MAX };
    seat.fill(3);
    assert_eq!(change(&mut station, &mut seat, &[]), Err(Refusal::NumbersUsedUp));
    assert_eq!(station, Station { attached: false, length: 0, number: u32::MAX });
    assert!(seat.iter().all(|&byte| byte == 0), "what was attached has left");
}

/// "It equals detach, its answer ignored, then attach."
#[test]
fn a_change_is_a_detach_and_an_attach() {
    let mut random = Random::new(26);
    let descriptions = [
        description("void: int, ..., long"),
        description("int: struct{long, double}"),
        vec![],
        vec![1; 586],
    ];
    for _ in 0..2000 {
        let attached = random.one_in(2);
        let length = random.choose(&[0, 11, 586, 587]);
        let number = random.choose(&[0, 1, u32::MAX - 1, u32::MAX]);
        let mut station = Station { attached, length, number };
        let lent = random.choose(&[0, SEAT - 1, SEAT, SEAT, SEAT, SEAT + 1]);
        let mut seat = random.bytes(lent);
        let new = &descriptions[random.below(descriptions.len())];
        let (mut other, mut other_seat) = (station, seat.clone());
        let answer = change(&mut station, &mut seat, new);
        let _ = detach(&mut other, &mut other_seat);
        assert_eq!(answer, attach(&mut other, &mut other_seat, new));
        assert_eq!((station, seat), (other, other_seat));
    }
}

/// A step on the lister's case, attached as number 1.
fn stepped(walk: Walk, asked: u8, stack: usize, out: usize) -> Result<(), Refusal> {
    let bytes = bytes_of_hex(LISTER);
    let mut station = Station::default();
    let mut seat = vec![0; SEAT];
    attach(&mut station, &mut seat, &bytes).expect("accepted");
    let (registers, full) = random_images(&mut Random::new(1), &bytes);
    let mut walk = walk;
    let before = walk;
    let mut buffer = vec![0; out];
    let stack = &full[..stack];
    let answer = step(&station, &seat, &mut walk, asked, &registers, stack, &mut buffer);
    assert!(answer.is_ok() || walk == before, "a refusal moves no walk");
    answer
}

#[test]
fn a_step_keeps_its_order() {
    let right = Walk { number: 1, position: 3, gp_offset: 16, fp_offset: 64, overflow: 16 };
    let end = Walk { position: 5, gp_offset: 32, fp_offset: 80, ..right };
    assert_eq!(stepped(right, 1, 16, 8), Ok(()));
    assert_eq!(
        stepped(Walk { number: 0, position: 9, ..right }, 9, 0, 0),
        Err(Refusal::OtherAttachment)
    );
    assert_eq!(stepped(Walk { gp_offset: 24, ..end }, 9, 0, 0), Err(Refusal::WrongRecord));
    assert_eq!(
        stepped(Walk { position: 2, overflow: 0, ..right }, 4, 16, 16),
        Err(Refusal::WrongRecord)
    );
    assert_eq!(stepped(end, 9, 0, 0), Err(Refusal::AtEnd));
    assert_eq!(stepped(right, 255, 0, 0), Err(Refusal::OtherType));
    assert_eq!(stepped(right, 1, 15, 8), Err(Refusal::WrongLength));
    assert_eq!(stepped(right, 1, 16, 7), Err(Refusal::WrongLength));
}

#[test]
fn a_plain_function_is_never_16_in_a_step() {
    let bytes = description("void: int");
    let mut station = Station::default();
    let mut seat = vec![0; SEAT];
    attach(&mut station, &mut seat, &bytes).expect("accepted");
    assert_eq!(open(&station, &seat), Err(Refusal::NotVariadic));
    let registers = vec![0; REGISTER_IMAGE];
    let number = |walk: &Walk| show_number(&station, &seat, walk, 0, &registers, &[]).number;
    let end = Walk { number: 1, position: 1, gp_offset: 8, fp_offset: 48, overflow: 0 };
    assert_eq!(number(&end), 19);
    assert_eq!(number(&Walk { overflow: 8, ..end }), 18);
    assert_eq!(number(&Walk::default()), 17);
}

#[test]
fn a_walk_of_an_earlier_attachment_is_refused() {
    let bytes = description("void: int, ..., long, double");
    let mut random = Random::new(5);
    let (registers, stack) = random_images(&mut random, &bytes);
    let mut station = Station::default();
    let mut seat = random.bytes(SEAT);
    attach(&mut station, &mut seat, &bytes).expect("accepted");
    let walk = open(&station, &seat).expect("variadic");
    let number = |station: &Station, seat: &[u8]| {
        show_number(station, seat, &walk, 1, &registers, &stack).number
    };
    assert_eq!(number(&station, &seat), 0);
    assert_eq!(attach(&mut station, &mut seat, &bytes), Err(Refusal::AlreadyAttached));
    assert_eq!(number(&station, &seat), 0);
    detach(&mut station, &mut seat).expect("attached");
    assert_eq!(number(&station, &seat), 13);
    attach(&mut station, &mut seat, &bytes).expect("accepted");
    assert_eq!(number(&station, &seat), 17);
    assert_eq!(random_values(&mut random, &bytes).len(), 20);
}
