//! Document 02, request 2026-06, "Vectors of 32 bytes".

use independent::cases::{case_holds, WIDE_CASES};
use independent::classes::{classes, cleaned_up, Class, Frame, NOTHING};
use independent::description::{ARRAY, BASIC};
use independent::draft::{in_both_models, in_ilp32, Draft};
use independent::generator::{random_description, Shape, WIDE};
use independent::history::FILLING;
use independent::listing::{listing, place_text};
use independent::moving::{gathering, placing, Image, REGISTER_IMAGE, UPPER_IMAGE};
use independent::notation::description;
use independent::places::{accepted, check, is_wide, Place};
use independent::random::Random;
use independent::refusal::Refusal;
use independent::station::{attach, Station, SEAT};
use independent::types::{alignment, code, size, types};
use independent::units::Bytes;
use independent::walk::{open, shown_piece, step};

use Class::{Integer, NoClass, Sse, SseUp};

const VECTOR: [Class; 4] = [Sse, SseUp, SseUp, SseUp];
const MEMORY: [Class; 4] = [Class::Memory, NoClass, NoClass, NoClass];

/// The classes of a type, which is written as in a function's text.
fn classes_of(text: &str) -> [Class; 4] {
    let bytes = description(&format!("void: {text}"));
    classes(&bytes, *bytes.last().expect("an argument")).expect(text)
}

/// The places of all arguments, vector count, area and the area's alignment.
fn laid_out(text: &str) -> (Vec<String>, usize, usize, usize) {
    let bytes = description(text);
    let layout = accepted(&bytes).expect(text).layout;
    let places = layout.placements.iter().map(|placement| place_text(&placement.place)).collect();
    (places, layout.vector_count().0, layout.area.0, layout.area_alignment.0)
}

fn is_laid_out(text: &str, places: &[&str], vectors: usize, area: usize, alignment: usize) {
    let places = places.iter().map(|place| place.to_string()).collect();
    assert_eq!(laid_out(text), (places, vectors, area, alignment), "{text}");
}

#[test]
fn code_16_is_a_vector_of_32() {
    let bytes = description("m256: m256");
    assert_eq!(bytes[11..15], [BASIC, 16, 0, 0]);
    for bytes in in_both_models(vec![bytes]) {
        assert_eq!((size(&bytes, 0), alignment(&bytes, 0)), (Ok(Bytes(32)), Ok(Bytes(32))));
        assert_eq!(classes(&bytes, 0), Ok(VECTOR));
    }
    let mut above = description("void: m256");
    above[12] = 17;
    assert_eq!(check(&above).number, 6);
}

#[test]
fn the_cases_are_as_printed() {
    for case in &WIDE_CASES {
        assert!(case_holds(case), "{}", case.name);
    }
    is_laid_out("void: struct{m256}", &["xmm0y"], 1, 0, 16);
    is_laid_out("void: union{m256, double[4]}", &["stack 0"], 0, 32, 32);
}

/// 000, figures 3.5 and 3.6, without what is of 64 bytes.
#[test]
fn the_earlier_figure_of_000() {
    is_laid_out(
        "void: int, int, struct{int, int, double}, int, int, long_double, double, m256, double, \
         int, int, int",
        &[
            "rdi", "rsi", "rdx xmm0", "rcx", "r8", "stack 0", "xmm1", "xmm2y", "xmm3", "r9",
            "stack 16", "stack 24",
        ],
        4,
        32,
        16,
    );
}

#[test]
fn what_merges_into_a_vector() {
    for other in ["double", "float", "m64", "m128", "float128", "complex_float", "float[2]"] {
        for text in [format!("union{{m256, {other}}}"), format!("union{{{other}, m256}}")] {
            assert_eq!(classes_of(&text), VECTOR, "{text}");
        }
    }
    for other in ["struct{m128}", "struct{float, float}", "union{m128, double}", "struct{m64}"] {
        assert_eq!(classes_of(&format!("union{{m256, {other}}}")), VECTOR, "{other}");
    }
    for text in ["struct{m256[1]}", "struct{struct{m256}}", "struct{union{m256, m128}}"] {
        assert_eq!(classes_of(text), VECTOR, "{text}");
    }
}

#[test]
fn what_does_not() {
    for other in [
        "double[4]",
        "double[2]",
        "float[3]",
        "long",
        "char",
        "bool",
        "pointer",
        "int128",
        "long_double",
        "complex_double",
        "complex_long_double",
        "m128[2]",
        "struct{m128, float}",
        "struct{float, complex_float}",
        "union{m128, double[2]}",
        "union{long_double, int128}",
        "m256[2]",
    ] {
        for text in [format!("union{{m256, {other}}}"), format!("union{{{other}, m256}}")] {
            assert_eq!(classes_of(&text), MEMORY, "{text}");
        }
    }
    for text in
        ["struct{m256, m256}", "struct{m256, char}", "struct{char, m256}", "struct{m256[2]}"]
    {
        assert_eq!(classes_of(text), MEMORY, "{text}");
    }
}

/// The first clause of 5(c) is of aggregates: a complex long double is none.
#[test]
fn complex_long_double_stays() {
    assert_eq!(classes_of("complex_long_double"), [Class::ComplexX87, NoClass, NoClass, NoClass]);
    assert_eq!(classes_of("struct{complex_long_double}"), MEMORY);
}

#[test]
fn over_two_eightbytes_there_is_a_vector_or_memory() {
    for text in ["struct{double[3]}", "struct{char[17]}", "struct{m128, m128}", "struct{long[8]}"] {
        assert_eq!(classes_of(text), MEMORY, "{text}");
    }
    let mut random = Random::new(61);
    let shape = Shape { most_types: 9, most_arguments: 3, most_members: 4, largest: 72 };
    let mut seen = [0, 0];
    for _ in 0..12_000 {
        let bytes = random_description(&mut random, shape);
        let types = types(&bytes).expect("accepted");
        for number in 0..bytes[5] {
            let is_aggregate = types.record(number).kind != BASIC;
            if is_aggregate && types.size(number) > Bytes(16) {
                let found = classes(&bytes, number).expect("accepted");
                assert!(found == VECTOR || found == MEMORY, "{bytes:?}");
                assert!(found == MEMORY || types.size(number) == Bytes(32));
                assert!(found == MEMORY || types.measure(number).alignment == Bytes(32));
                seen[usize::from(found == VECTOR)] += 1;
            }
        }
    }
    assert!(seen[0] > 5000 && seen[1] > 1000, "{seen:?}");
}

/// 5(a) to (d) over every number of eightbytes.
#[test]
fn the_clean_up_over_eight() {
    let of = |classes: &[Class]| {
        let mut frame = NOTHING;
        frame[..classes.len()].copy_from_slice(classes);
        frame
    };
    for count in 1..=8 {
        let whole = Bytes(8 * count);
        let mut led: Vec<Class> = vec![SseUp; count];
        led[0] = Sse;
        assert_eq!(cleaned_up(of(&led), Bytes(0), whole), of(&led), "{count}");
        for spoilt in 0..count {
            for class in [NoClass, Integer, Sse, SseUp, Class::Memory, Class::X87Up] {
                let mut other = led.clone();
                other[spoilt] = class;
                let cleaned = cleaned_up(of(&other), Bytes(0), whole);
                let memory = of(&vec![Class::Memory; count]);
                if [Class::Memory, Class::X87Up].contains(&class) || (count > 2 && other != led) {
                    assert_eq!(cleaned, memory, "{other:?}");
                } else {
                    assert_eq!(cleaned, converted(of(&other)), "{other:?}");
                }
            }
        }
    }
}

/// 5(d) alone.
fn converted(mut frame: Frame) -> Frame {
    for index in 0..frame.len() {
        let follows = index > 0 && [Sse, SseUp].contains(&frame[index - 1]);
        if frame[index] == SseUp && !follows {
            frame[index] = Sse;
        }
    }
    frame
}

#[test]
fn a_named_one_takes_one_register() {
    let nine = ["m256"; 9].join(", ");
    is_laid_out(
        &format!("void: {nine}, double"),
        &[
            "xmm0y", "xmm1y", "xmm2y", "xmm3y", "xmm4y", "xmm5y", "xmm6y", "xmm7y", "stack 0",
            "stack 32",
        ],
        8,
        64,
        32,
    );
    is_laid_out("void: double, m256, m128", &["xmm0", "xmm1y", "xmm2 xmm2h"], 3, 0, 16);
}

#[test]
fn an_unnamed_one_is_on_the_stack() {
    is_laid_out(
        "void: m256, ..., m256, struct{m256}, double, union{m256, double}",
        &["xmm0y", "stack 0", "stack 32", "xmm1", "stack 64"],
        2,
        96,
        32,
    );
    assert!(listing(&description("void: m256, ..., m256")).ends_with("walk gp 0 fp 64 over 0\n"));
}

#[test]
fn stack_places_and_the_area() {
    let seven = ["long"; 7].join(", ");
    let registers = ["rdi", "rsi", "rdx", "rcx", "r8", "r9"];
    let with = |rest: &[&str]| -> Vec<String> {
        registers.iter().chain(rest).map(|place| place.to_string()).collect()
    };
    let wide = format!("void: {seven}, union{{m256, long}}, char");
    assert_eq!(laid_out(&wide), (with(&["stack 0", "stack 32", "stack 64"]), 0, 96, 32));
    // The only one that is aligned to 32 is in a register.
    assert_eq!(laid_out(&format!("void: {seven}, m256")), (with(&["stack 0", "xmm0y"]), 1, 16, 16));
    let unnamed = format!("void: {seven}, ..., m256");
    assert_eq!(laid_out(&unnamed), (with(&["stack 0", "stack 32"]), 0, 64, 32));
}

#[test]
fn returned_ones() {
    let line = |text: &str| {
        let text = listing(&description(text));
        text.lines().find(|line| line.starts_with("return")).expect("a line").to_string()
    };
    assert_eq!(line("m256:"), "return type 0 xmm0y");
    assert_eq!(line("struct{m256}: int"), "return type 1 xmm0y");
    assert_eq!(line("union{m256, double[4]}: int"), "return type 3 memory");
    assert_eq!(line("struct{m256, m256}: m256"), "return type 1 memory");
}

/// "Bytes 16 to 31 stand in a second lent image of 128 bytes, xmm0 first."
#[test]
fn the_second_image() {
    let bytes = description("void: double, m256, int, struct{m256}");
    let values: Vec<u8> = (1..=76).collect();
    let (mut registers, mut upper) = ([FILLING; REGISTER_IMAGE], [FILLING; UPPER_IMAGE]);
    assert!(placing(&bytes, 0, &values, &mut registers, &mut upper, &mut []).is_ok());
    assert_eq!(registers[48..56], values[..8]);
    assert_eq!(registers[56..64], [0; 8]);
    assert_eq!(registers[64..80], values[8..24]);
    assert_eq!(registers[80..96], values[44..60]);
    assert_eq!(upper[..16], [0; 16]);
    assert_eq!(upper[16..32], values[24..40]);
    assert_eq!(upper[32..48], values[60..76]);
    assert_eq!(upper[48..], [0; 80]);
    let mut back = [0; 76];
    assert_eq!(gathering(&bytes, &registers, &upper, &[], &mut back), Ok(0));
    assert_eq!(back[..], values[..]);
}

/// "11 covers the new image", where nothing uses it too.
#[test]
fn eleven_for_the_second_image() {
    for text in ["void: int", "void: m256", "void: ..., int"] {
        let bytes = description(text);
        let length = accepted(&bytes).expect(text).layout.values_length();
        for upper in [0, 16, 64, 112, 127, 128, 129, 176] {
            let mut registers = [9; REGISTER_IMAGE];
            let mut second = vec![9; upper];
            let values = vec![1; length];
            let placed = placing(&bytes, 0, &values, &mut registers, &mut second, &mut []);
            assert_eq!(placed.err(), (upper != 128).then_some(Refusal::WrongLength), "{upper}");
            assert_eq!(second.contains(&9), upper != 128 && upper > 0, "{upper}");
            let mut back = vec![0; length];
            let gathered = gathering(&bytes, &registers, &second, &[], &mut back);
            assert_eq!(gathered.err(), (upper != 128).then_some(Refusal::WrongLength), "{upper}");
        }
    }
}

/// "the walk raises to the type's alignment where that exceeds 8"
#[test]
fn a_walk_over_vectors() {
    let seven = ["long"; 7].join(", ");
    let bytes = description(&format!("void: {seven}, ..., m256, long, struct{{m256}}, m128"));
    let accepted = accepted(&bytes).expect("accepted");
    let mut station = Station::default();
    let mut seat = vec![0; SEAT];
    attach(&mut station, &mut seat, &bytes).expect("accepted");
    let mut walk = open(&station, &seat).expect("variadic");
    let registers = [7; REGISTER_IMAGE];
    let stack: Vec<u8> = (0..accepted.layout.area.0).map(|byte| byte as u8).collect();
    let mut starts = Vec::new();
    for placement in &accepted.layout.placements[7..] {
        let asked = placement.type_number;
        let piece = shown_piece(&station, &seat, &walk, asked, &registers, &stack);
        let piece = piece.expect("right").expect("one run");
        starts.push((piece.image, piece.start.0, piece.length.0));
        let mut out = vec![0; placement.size.0];
        step(&station, &seat, &mut walk, asked, &registers, &stack, &mut out).expect("right");
        let start = piece.start.0 as u8;
        assert!(piece.image == Image::Registers || out[0] == start);
    }
    let expected = [
        (Image::Stack, 32, 32),
        (Image::Stack, 64, 8),
        (Image::Stack, 96, 32),
        (Image::Registers, 48, 16),
    ];
    assert_eq!(starts, expected);
    assert_eq!((walk.overflow, walk.fp_offset), (128, 64));
}

/// Whatever is wide and in a register is named, and whatever is unnamed and wide is not.
#[test]
fn only_named_ones_are_in_registers() {
    let mut random = Random::new(62);
    let shape = Shape { most_types: 9, most_arguments: 12, most_members: 3, largest: 64 };
    let mut all: Vec<Vec<u8>> = WIDE.iter().map(|text| description(text)).collect();
    all.extend((0..4000).map(|_| random_description(&mut random, shape)));
    let mut seen = [0, 0];
    for bytes in all {
        let accepted = accepted(&bytes).expect("accepted");
        let named = accepted.types.description().named();
        for (position, placement) in accepted.layout.placements.iter().enumerate() {
            if is_wide(classes(&bytes, placement.type_number).expect("accepted")) {
                let on_stack = matches!(placement.place, Place::Stack(_));
                assert!(position < named || on_stack);
                seen[usize::from(on_stack)] += 1;
            }
        }
    }
    assert!(seen[0] > 500 && seen[1] > 500, "{seen:?}");
}

/// Nothing of it depends on the model.
#[test]
fn both_models_agree_on_vectors() {
    for text in WIDE.iter().filter(|text| !text.contains("pointer")) {
        let bytes = description(text);
        assert_eq!(listing(&bytes), listing(&in_ilp32(&bytes)), "{text}");
    }
}

/// The array of one is an aggregate too, though no argument can be one.
#[test]
fn an_array_of_one_is_asked() {
    let mut draft = Draft::new();
    let vector = draft.basic(code::M256);
    let one = draft.array(vector, 1);
    let two = draft.array(vector, 2);
    assert_eq!(draft.records[1][0], ARRAY);
    assert_eq!(classes(&draft.bytes(), one), Ok(VECTOR));
    assert_eq!(classes(&draft.bytes(), two), Ok(MEMORY));
}
