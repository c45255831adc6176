//! The example of the README, examples/mixed.kcb, through every call.

use callbridge::{Basic, Builder, Class, Images, Place, Register, ReturnImages, Returned, StackNeed, Station};

const MIXED: &[u8] = include_bytes!("../../../examples/mixed.kcb");

fn number(refusal: callbridge::Refusal) -> u8 {
    refusal.number()
}

/// int 7, struct {1.5, 9}, a long double, 2.5, an __int128.
fn values() -> Vec<u8> {
    let mut values = 7i32.to_le_bytes().to_vec();
    values.extend(1.5f64.to_le_bytes());
    values.extend(9i64.to_le_bytes());
    values.extend(0x3fff_8000_0000_0000_0000u128.to_le_bytes());
    values.extend(2.5f64.to_le_bytes());
    values.extend((1u128 << 100).to_le_bytes());
    values
}

/// The header has the same texts, in the same order.
#[test]
fn texts_are_those_of_the_header() {
    let header = include_str!("../../../include/callbridge.h");
    let table = header.split("texts[30] = {").nth(1).expect("the table of texts");
    let texts: Vec<&str> = table.split('"').skip(1).step_by(2).take(30).collect();
    assert_eq!(texts[0], "accepted");
    assert_eq!(texts[1..], callbridge::Refusal::TEXTS);
}

#[test]
fn questions_about_types() {
    assert_eq!(callbridge::check(MIXED), Ok(()));
    let extent = callbridge::extent(MIXED, 3).unwrap();
    assert_eq!((extent.size, extent.align), (16, 8));
    let [first, second, third, fourth] = callbridge::classes(MIXED, 3).unwrap();
    assert_eq!((first, second), (Class::Sse, Class::Integer));
    assert_eq!((third, fourth), (Class::NoClass, Class::NoClass));
    assert_eq!(callbridge::members(MIXED, 3), Ok(&[1u8, 2][..]));
    assert_eq!(callbridge::members(MIXED, 0), Ok(&[][..]));
    assert_eq!(callbridge::offsets(MIXED, 3), Ok(vec![0, 8]));
    assert_eq!(callbridge::offsets(MIXED, 0), Ok(vec![]));
    assert_eq!(callbridge::offsets(MIXED, 6).map_err(number), Err(8));
    assert_eq!(callbridge::extent(MIXED, 6).map_err(number), Err(8));
}

/// The example with other records for some of its types.
fn with_records(records: &[(usize, [u8; 4])]) -> Vec<u8> {
    let mut description = MIXED.to_vec();
    for (number, record) in records {
        description[11 + 4 * number..][..4].copy_from_slice(record);
    }
    description
}

#[test]
fn a_refusal_says_which_type_is_wrong() {
    let (no_kind, large) = ([4, 0, 0, 0], [1, 0, 0, 16]);
    let cases = [
        (with_records(&[(5, no_kind), (0, no_kind)]), 6, 0),
        (with_records(&[(5, no_kind), (3, no_kind)]), 6, 3),
        (with_records(&[(5, no_kind), (2, large)]), 6, 5),
        (with_records(&[(5, large), (2, large)]), 7, 2),
    ];
    for (bytes, number, type_number) in cases {
        let refusal = callbridge::check(&bytes).unwrap_err();
        assert_eq!((refusal.number(), refusal.type_number()), (number, Some(type_number)));
        let line = format!("refused {number}: {}, type {type_number}", refusal.text());
        assert_eq!(refusal.to_string(), line);
        assert_eq!(callbridge::listing(&bytes), format!("refused {number} type {type_number}\n"));
        assert_eq!(callbridge::extent(&bytes, 1), Err(refusal));
        assert_eq!(callbridge::classes(&bytes, 1), Err(refusal));
        assert_eq!(callbridge::members(&bytes, 1), Err(refusal));
        assert_eq!(callbridge::offsets(&bytes, 1), Err(refusal));
        assert_eq!(callbridge::lay_out(&bytes), Err(refusal));
        assert_eq!(Station::new().attach(&bytes), Err(refusal));
    }
    let refusal = callbridge::extent(MIXED, 6).unwrap_err();
    assert_eq!((refusal.number(), refusal.type_number()), (8, None));
    assert_eq!(refusal.to_string(), format!("refused 8: {}", refusal.text()));
}

#[test]
fn places() {
    let (layout, placements) = callbridge::lay_out(MIXED).unwrap();
    assert_eq!(callbridge::layout(MIXED), Ok(layout));
    assert_eq!((layout.area, layout.values, layout.arguments), (16, 60, 5));
    assert_eq!(layout.returned, Returned::One(Register::Vector(0)));
    assert_eq!(layout.return_size, 8);
    let texts: Vec<String> = placements.iter().map(|one| one.place.to_string()).collect();
    assert_eq!(texts, ["rdi", "xmm0 rsi", "stack 0", "xmm1", "rdx rcx"]);
    assert_eq!(placements[2].place, Place::Stack(0));
    let values: Vec<usize> = placements.iter().map(|one| one.value).collect();
    assert_eq!(values, [0, 4, 20, 36, 44]);
    let named: Vec<bool> = placements.iter().map(|one| one.named).collect();
    assert_eq!(named, [true, true, true, false, false]);
    assert!(callbridge::listing(MIXED).contains("3 type 1 size 8 align 8 xmm1 at 36 unnamed\n"));
    assert!(callbridge::listing(MIXED).ends_with("walk gp 16 fp 64 over 16\n"));
}

#[test]
fn values_come_back() {
    let layout = callbridge::layout(MIXED).unwrap();
    let mut images = Images::new(&layout);
    assert_eq!(callbridge::place(MIXED, 0, &values(), &mut images), Ok(2));
    let mut back = vec![0; layout.values];
    assert_eq!(callbridge::gather(MIXED, &images, &mut back), Ok(0));
    assert_eq!(back, values());
    let refused = callbridge::place(MIXED, 0, &values()[1..], &mut images);
    assert_eq!(refused.map_err(number), Err(11));
}

#[test]
fn a_returned_value_comes_back() {
    let mut images = ReturnImages { image: [1; callbridge::RETURN_IMAGE], ..ReturnImages::new() };
    let level = 0.25f64.to_le_bytes();
    callbridge::put_returned(MIXED, 0, &level, &mut images).unwrap();
    assert_eq!(&images.image[16..24], level);
    let mut value = vec![0; callbridge::layout(MIXED).unwrap().return_size];
    assert_eq!(callbridge::take_returned(MIXED, &images, &mut value), Ok(0));
    assert_eq!(value, level);
    assert_eq!(callbridge::put_returned(MIXED, 0, &[], &mut images).map_err(number), Err(11));
}

/// A vector of 32 bytes: one register, two images; unnamed it is on the stack, which is aligned to 32.
#[test]
fn vectors_of_32_bytes_come_back() {
    let mut builder = Builder::new();
    let vector = builder.basic(Basic::M256);
    let double = builder.basic(Basic::Double);
    builder.returns(vector).argument(double).argument(vector).ellipsis().argument(vector);
    let description = builder.finish().unwrap();
    let four = [Class::Sse, Class::SseUp, Class::SseUp, Class::SseUp];
    assert_eq!(callbridge::classes(&description, vector), Ok(four));
    let (layout, placements) = callbridge::lay_out(&description).unwrap();
    assert_eq!((layout.vector_registers, layout.area, layout.area_alignment), (2, 32, 32));
    assert_eq!(layout.returned, Returned::One(Register::Wide(0)));
    let wide = Register::Wide(1);
    assert_eq!(placements[1].place, Place::One(wide));
    assert_eq!(placements[1].place.to_string(), "xmm1y");
    assert_eq!((wide.offset(), wide.upper_offset()), (Some(64), Some(16)));
    assert_eq!(placements[2].place, Place::Stack(0));

    let values: Vec<u8> = (1..=72).collect();
    let mut images = Images::new(&layout);
    assert_eq!(callbridge::place(&description, 0, &values, &mut images), Ok(2));
    assert_eq!(images.registers[64..80], values[8..24]);
    assert_eq!(images.upper[16..32], values[24..40]);
    assert_eq!(images.stack, values[40..]);
    let mut back = vec![0; layout.values];
    assert_eq!(callbridge::gather(&description, &images, &mut back), Ok(0));
    assert_eq!(back, values);

    let mut returned = ReturnImages::default();
    callbridge::put_returned(&description, 0, &values[..32], &mut returned).unwrap();
    assert_eq!(returned.image[16..32], values[..16]);
    assert_eq!(returned.upper[..], values[16..32]);
    let mut value = [0; 32];
    assert_eq!(callbridge::take_returned(&description, &returned, &mut value), Ok(0));
    assert_eq!(value[..], values[..32]);
}

/// A struct of three doubles comes back in memory, which the caller gives; void has no byte.
#[test]
fn the_returned_size_is_known_in_memory_too() {
    let mut builder = Builder::new();
    let double = builder.basic(Basic::Double);
    let three = builder.structure(&[double; 3]);
    let layout = callbridge::layout(&builder.returns(three).finish().unwrap()).unwrap();
    assert_eq!((layout.returned, layout.return_size), (Returned::Memory, 24));
    let layout = callbridge::layout(&Builder::new().finish().unwrap()).unwrap();
    assert_eq!((layout.returned, layout.return_size), (Returned::Void, 0));
}

#[test]
fn a_walk_ends_when_its_module_leaves() {
    let layout = callbridge::layout(MIXED).unwrap();
    let mut images = Images::new(&layout);
    callbridge::place(MIXED, 0, &values(), &mut images).unwrap();
    let mut station = Station::new();
    assert_eq!(station.open().map_err(number), Err(13));
    station.attach(MIXED).unwrap();
    assert_eq!(station.attach(MIXED).map_err(number), Err(14));
    let mut walk = station.open().unwrap();
    assert_eq!(station.show(&walk, &images, 1), Ok(Some(&2.5f64.to_le_bytes()[..])));
    let mut out = [0; 8];
    station.step(&mut walk, &images, 1, &mut out).unwrap();
    assert_eq!((f64::from_le_bytes(out), walk.position()), (2.5, 4));
    assert_eq!(station.step(&mut walk, &images, 1, &mut out).map_err(number), Err(20));

    station.detach().unwrap();
    let mut out = [0; 16];
    assert_eq!(station.step(&mut walk, &images, 5, &mut out).map_err(number), Err(13));
    station.attach(MIXED).unwrap();
    assert_eq!(station.step(&mut walk, &images, 5, &mut out).map_err(number), Err(17));
}

#[test]
fn all_the_rest_is_read_at_once() {
    let layout = callbridge::layout(MIXED).unwrap();
    let mut images = Images::new(&layout);
    callbridge::place(MIXED, 0, &values(), &mut images).unwrap();
    let mut station = Station::new();
    station.attach(MIXED).unwrap();
    let mut walk = station.open().unwrap();
    let opened = walk;
    let mut out = [0xEE; 24];
    for (refusal, types) in
        [(24, &[][..]), (24, &[1]), (24, &[1, 5, 0]), (20, &[1, 1]), (20, &[0, 5])]
    {
        let answer = station.finish(&mut walk, &images, types, &mut out);
        assert_eq!(answer.map_err(number), Err(refusal));
    }
    let answer = station.finish(&mut walk, &images, &[1, 5], &mut out[1..]);
    assert_eq!(answer.map_err(number), Err(11));
    assert_eq!((walk, out), (opened, [0xEE; 24]));

    station.finish(&mut walk, &images, &[1, 5], &mut out).unwrap();
    let (mut stepped, mut first, mut second) = (opened, [0; 8], [0; 16]);
    station.step(&mut stepped, &images, 1, &mut first).unwrap();
    station.step(&mut stepped, &images, 5, &mut second).unwrap();
    assert_eq!((walk, &out[..8], &out[8..]), (stepped, &first[..], &second[..]));
    assert_eq!(out[..], values()[values().len() - 24..]);

    station.finish(&mut walk, &images, &[], &mut []).unwrap();
    assert_eq!(walk, stepped);
    assert_eq!(station.finish(&mut walk, &images, &[], &mut [0]).map_err(number), Err(11));
    station.change(MIXED).unwrap();
    assert_eq!(station.finish(&mut walk, &images, &[], &mut []).map_err(number), Err(17));
    station.detach().unwrap();
    assert_eq!(station.finish(&mut walk, &images, &[], &mut []).map_err(number), Err(13));
}

#[test]
fn modules_change_in_one_call() {
    let layout = callbridge::layout(MIXED).unwrap();
    let mut images = Images::new(&layout);
    callbridge::place(MIXED, 0, &values(), &mut images).unwrap();
    let mut station = Station::new();
    assert_eq!(station.change(&[]).map_err(number), Err(1));
    assert!(!station.is_attached());
    station.change(MIXED).unwrap();
    assert_eq!(station.description(), MIXED);
    let mut walk = station.open().unwrap();
    let mut out = [0; 8];
    station.change(MIXED).unwrap();
    assert_eq!(station.step(&mut walk, &images, 1, &mut out).map_err(number), Err(17));
    let mut walk = station.open().unwrap();
    station.step(&mut walk, &images, 1, &mut out).unwrap();
    assert_eq!((f64::from_le_bytes(out), walk.position()), (2.5, 4));

    assert_eq!(station.change(&[]).map_err(number), Err(1));
    assert!(!station.is_attached() && station.description().is_empty());
    assert_eq!(station.step(&mut walk, &images, 5, &mut [0; 16]).map_err(number), Err(13));
    assert_eq!(station.detach().map_err(number), Err(13));
}

/// The third argument of the lister's example goes to the stack, and the seventh of seven longs. Five
/// structs of 4,096 bytes have too large an area, which needs the stack all the same.
#[test]
fn the_stack_is_needed_from_the_first_argument_there() {
    let need = |needed, looked| Ok(StackNeed { needed, looked });
    assert_eq!(callbridge::needs_stack(MIXED), need(true, 3));
    let mut builder = Builder::new();
    let long = builder.basic(Basic::Long);
    for _ in 0..6 {
        builder.argument(long);
    }
    assert_eq!(callbridge::needs_stack(&builder.finish().unwrap()), need(false, 6));
    builder.argument(long).argument(long);
    assert_eq!(callbridge::needs_stack(&builder.finish().unwrap()), need(true, 7));
    let wide = [
        &b"KCB\x01\x00\x03\x00\x05\x05\xff\x01"[..],
        &[0, 4, 0, 0, 1, 0, 0, 2, 2, 0, 1, 0],
        &[1, 2, 2, 2, 2, 2],
    ]
    .concat();
    assert_eq!(callbridge::layout(&wide).map_err(number).err(), Some(10));
    assert_eq!(callbridge::needs_stack(&wide), need(true, 1));
    assert_eq!(callbridge::needs_stack(&wide[1..]).map_err(number), Err(2));
}

/// A dead type and a struct that is described twice are left out; a struct of 255 chars and one of a
/// single char over the same run have 256 members apart.
#[test]
fn a_description_is_tidied() {
    let untidy = [
        &b"KCB\x01\x00\x05\x00\x02\x02\xff\x02"[..],
        &[0, 8, 0, 0, 0, 1, 0, 0, 0, 3, 0, 0, 2, 0, 2, 0, 2, 0, 2, 0],
        &[2, 1, 4, 3],
    ]
    .concat();
    let tidied = callbridge::tidy(&untidy).unwrap();
    let expected = [
        &b"KCB\x01\x00\x03\x00\x02\x02\xff\x02"[..],
        &[0, 3, 0, 0, 0, 1, 0, 0, 2, 0, 2, 0, 0, 1, 2, 2],
    ]
    .concat();
    assert_eq!(tidied, expected);
    assert_eq!(callbridge::tidy(&tidied), Ok(tidied.clone()));
    let wide = [
        &b"KCB\x01\x00\x03\x00\x02\x02\xff\xff"[..],
        &[0, 1, 0, 0, 2, 0, 255, 0, 2, 0, 1, 0],
        &[0; 255],
        &[1, 2],
    ]
    .concat();
    assert_eq!(callbridge::check(&wide), Ok(()));
    let refusal = callbridge::tidy(&wide).unwrap_err();
    assert_eq!(refusal.number(), 29);
    assert!(refusal.text().contains("over 255 members"));
}
