//! Document 02, request 2026-11, "The ILP32 model".

use independent::classes::{classes, Class};
use independent::description::{form, Model, BASIC, HEAD, ILP32};
use independent::draft::{in_ilp32, Draft};
use independent::generator::{random_description, LARGE, MIDDLE, NARROW, SMALL};
use independent::history::{random_address, random_values, ADDRESSES, FILLING};
use independent::listing::{listing, place_text};
use independent::moving::{
    gathering, placing, register_start, NARROW_ADDRESSES, REGISTER_IMAGE, UPPER_IMAGE,
};
use independent::notation::description;
use independent::places::{accepted, check, Place};
use independent::random::Random;
use independent::refusal::Refusal;
use independent::returning::{putting, taking, RETURN_IMAGE, RETURN_UPPER};
use independent::station::{attach, Station, SEAT};
use independent::types::{alignment, code, size};
use independent::units::Bytes;
use independent::walk::open;

/// Size, alignment and classes of the last argument's type, and its place.
fn last(text: &str) -> (usize, usize, [Class; 2], String) {
    let bytes = description(text);
    let number = *bytes.last().expect("an argument");
    let accepted = accepted(&bytes).expect(text);
    let place = &accepted.layout.placements.last().expect("an argument").place;
    let measure = [size(&bytes, number), alignment(&bytes, number)];
    let [Bytes(size), Bytes(alignment)] = measure.map(|bytes| bytes.expect("accepted"));
    let [first, second, ..] = classes(&bytes, number).expect("accepted");
    (size, alignment, [first, second], place_text(place))
}

#[test]
fn bits_0_and_1_of_byte_6_are_independent() {
    for (flags, variadic, model) in
        [(0, false, Model::Lp64), (1, true, Model::Lp64), (2, false, Model::Ilp32)]
            .into_iter()
            .chain([(3, true, Model::Ilp32)])
    {
        let mut bytes = description("void: int, pointer");
        bytes[6] = flags;
        let form = form(&bytes).expect("two flags");
        assert_eq!((form.is_variadic(), form.model()), (variadic, model));
        let ends_with_walk = !listing(&bytes).ends_with("walk none\n");
        assert_eq!(ends_with_walk, variadic);
        let (mut station, mut seat) = (Station::default(), vec![0; SEAT]);
        attach(&mut station, &mut seat, &bytes).expect("accepted");
        assert_eq!(open(&station, &seat).is_ok(), variadic);
        // "N equals A where bit 0 is 0"
        bytes[7] = 1;
        assert_eq!(check(&bytes).number, if variadic { 0 } else { 4 }, "{flags}");
    }
}

#[test]
fn byte_6_over_3_is_refused() {
    for flags in 4..=255 {
        let mut bytes = description("void: int");
        bytes[6] = flags;
        assert_eq!(check(&bytes).number, 4, "{flags}");
    }
}

#[test]
fn a_pointer_has_four_bytes_and_nothing_else_changes() {
    for basic in 0..17 {
        let mut draft = Draft::new();
        draft.basic(basic);
        let measure = |bytes: &[u8]| (size(bytes, 0), alignment(bytes, 0), classes(bytes, 0));
        let (wide, narrow) = (measure(&draft.bytes()), measure(&in_ilp32(&draft.bytes())));
        if basic == code::POINTER {
            assert_eq!((narrow.0, narrow.1), (Ok(Bytes(4)), Ok(Bytes(4))));
            assert_eq!((wide.0, wide.1), (Ok(Bytes(8)), Ok(Bytes(8))));
            assert_eq!(narrow.2, wide.2);
        } else {
            assert_eq!(narrow, wide, "code {basic}");
        }
    }
}

#[test]
fn pointers_share_eightbytes() {
    use Class::{Integer, Memory, NoClass, Sse};
    let is = |text: &str, expected: (usize, usize, [Class; 2], &str)| {
        let (size, alignment, classes, place) = expected;
        assert_eq!(last(text), (size, alignment, classes, place.to_string()), "{text}");
    };
    is("ilp32 void: struct{pointer, pointer}", (8, 4, [Integer, NoClass], "rdi"));
    is("void: struct{pointer, pointer}", (16, 8, [Integer, Integer], "rdi rsi"));
    is("ilp32 void: struct{float, pointer, double}", (16, 8, [Integer, Sse], "rdi xmm0"));
    is("void: struct{float, pointer, double}", (24, 8, [Memory, NoClass], "stack 0"));
    is("ilp32 void: struct{char, pointer}", (8, 4, [Integer, NoClass], "rdi"));
    is("ilp32 void: struct{char, pointer, char}", (12, 4, [Integer, Integer], "rdi rsi"));
    is("ilp32 void: struct{pointer, complex_float}", (12, 4, [Integer, Sse], "rdi xmm0"));
    is("ilp32 void: struct{pointer[5]}", (20, 4, [Memory, NoClass], "stack 0"));
    is("ilp32 struct{pointer[4]}: pointer", (4, 4, [Integer, NoClass], "rdi"));
    is("ilp32 struct{pointer[5]}: pointer", (4, 4, [Integer, NoClass], "rsi"));
    let six = "pointer, pointer, pointer, pointer, pointer, pointer";
    let text = format!("ilp32 void: {six}, pointer, pointer");
    is(&text, (4, 4, [Integer, NoClass], "stack 8"));
}

/// The records in which one code stands for another.
fn replaced(bytes: &[u8], from: u8, to: u8) -> Vec<u8> {
    let mut bytes = bytes.to_vec();
    for number in 0..bytes[5] as usize {
        let record = &mut bytes[HEAD + 4 * number..][..4];
        if record[0] == BASIC && record[1] == from {
            record[1] = to;
        }
    }
    bytes
}

/// A pointer is laid out as an int under ILP32, and as a long under LP64; without
/// pointers the models are the same.
#[test]
fn a_pointer_is_an_int_or_a_long() {
    let mut random = Random::new(31);
    let mut seen = [0, 0];
    for index in 0..4000 {
        let shape = [SMALL, MIDDLE, SMALL, LARGE][if index % 40 == 0 { 3 } else { index % 3 }];
        let bytes = random_description(&mut random, shape);
        let narrow = bytes[6] & ILP32 != 0;
        seen[usize::from(narrow)] += 1;
        let like = replaced(&bytes, code::POINTER, if narrow { code::INT } else { code::LONG });
        assert_eq!(listing(&bytes), listing(&like), "{bytes:?}");
        let mut other = like.clone();
        other[6] ^= ILP32;
        assert_eq!(listing(&other), listing(&like), "{bytes:?}");
    }
    assert!(seen[0] > 1500 && seen[1] > 1500, "{seen:?}");
}

/// "A pointer in a register or a stack slot has its upper half zero, and so has the
/// hidden address."
#[test]
fn upper_halves_are_zero() {
    let mut random = Random::new(32);
    let mut all: Vec<Vec<u8>> = NARROW.iter().map(|text| description(text)).collect();
    all.extend((0..2000).map(|_| in_ilp32(&random_description(&mut random, SMALL))));
    let mut pointers = 0;
    for bytes in all {
        let Ok(accepted) = accepted(&bytes) else {
            continue;
        };
        let layout = &accepted.layout;
        let values = random_values(&mut random, &bytes);
        let (mut registers, mut stack) =
            (vec![FILLING; REGISTER_IMAGE], random.bytes(layout.area.0));
        let address = random_address(&mut random, &bytes);
        let mut upper = [FILLING; UPPER_IMAGE];
        placing(&bytes, address, &values, &mut registers, &mut upper, &mut stack).expect("right");
        if layout.hidden_address {
            assert_eq!(registers[..8], address.to_le_bytes());
            assert_eq!(registers[4..8], [0; 4]);
        }
        for placement in &layout.placements {
            if accepted.types.is_basic(placement.type_number, code::POINTER) {
                let slot = match &placement.place {
                    Place::Stack(offset) => &stack[offset.0..],
                    Place::Registers(taken) => &registers[register_start(taken[0]).offset.0..],
                };
                assert_eq!(slot[4..8], [0; 4]);
                pointers += 1;
            }
        }
    }
    assert!(pointers > 500, "{pointers}");
}

/// What placing and putting answer to each of the addresses.
fn answers(text: &str) -> [[u8; 4]; 2] {
    let bytes = description(text);
    let values = vec![1; accepted(&bytes).expect(text).layout.values_length()];
    let number = |answer: Result<(), Refusal>| answer.err().map_or(0, Refusal::number);
    [
        ADDRESSES.map(|address| {
            let mut registers = vec![FILLING; REGISTER_IMAGE];
            let mut upper = [FILLING; UPPER_IMAGE];
            let placed = placing(&bytes, address, &values, &mut registers, &mut upper, &mut []);
            number(placed.map(|_| ()))
        }),
        ADDRESSES.map(|address| {
            let (mut image, mut upper) = ([0; RETURN_IMAGE], [0; RETURN_UPPER]);
            number(putting(&bytes, address, &[], &mut image, &mut upper))
        }),
    ]
}

#[test]
fn an_address_in_use_is_below_2_to_the_32() {
    assert_eq!(ADDRESSES, [0, 0xFFFF_FFFF, 0x1_0000_0000, u64::MAX]);
    assert_eq!(answers("ilp32 struct{char[17]}: int"), [[0, 0, 27, 27]; 2]);
    assert_eq!(answers("struct{char[17]}: int"), [[0; 4]; 2]);
    assert_eq!(answers("ilp32 void: int"), [[0; 4]; 2]);
}

#[test]
fn eleven_then_twenty_seven_then_twelve() {
    let bytes = description("ilp32 struct{char[17]}: bool");
    let mut registers = vec![9; REGISTER_IMAGE];
    let mut place = |address: u64, values: &[u8]| {
        placing(&bytes, address, values, &mut registers, &mut [9; UPPER_IMAGE], &mut []).map(|_| ())
    };
    assert_eq!(place(NARROW_ADDRESSES, &[2, 0]), Err(Refusal::WrongLength));
    assert_eq!(place(NARROW_ADDRESSES, &[2]), Err(Refusal::AddressTooWide));
    assert_eq!(place(NARROW_ADDRESSES - 1, &[2]), Err(Refusal::WrongBool));
    assert!(registers.iter().all(|&byte| byte == 9), "a refusal writes nothing");
    let mut image = [9; RETURN_IMAGE];
    let mut put = |address: u64, value: &[u8]| {
        putting(&bytes, address, value, &mut image, &mut [9; RETURN_UPPER])
    };
    assert_eq!(put(NARROW_ADDRESSES, &[1]), Err(Refusal::WrongLength));
    assert_eq!(put(NARROW_ADDRESSES, &[]), Err(Refusal::AddressTooWide));
    assert_eq!(image, [9; RETURN_IMAGE]);
}

#[test]
fn gathering_and_taking_answer_all_of_rdi_and_rax() {
    let bytes = description("ilp32 struct{char[17]}: pointer");
    let mut values = [0; 4];
    let registers = [FILLING; REGISTER_IMAGE];
    let all = u64::from_le_bytes([FILLING; 8]);
    let upper = [FILLING; UPPER_IMAGE];
    assert_eq!(gathering(&bytes, &registers, &upper, &[], &mut values), Ok(all));
    assert_eq!(values, [FILLING; 4]);
    let image = [FILLING; RETURN_IMAGE];
    assert_eq!(taking(&bytes, &image, &[FILLING; RETURN_UPPER], &mut []), Ok(all));
    let mut again = registers;
    let placed = placing(&bytes, all, &values, &mut again, &mut [0; UPPER_IMAGE], &mut []);
    assert_eq!(placed, Err(Refusal::AddressTooWide));
}
