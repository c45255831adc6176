//! What documents 01 and 000 say, case by case.

use independent::cases::{bytes_of_hex, case_holds, CASES, LISTER, LISTER_TEXT};
use independent::classes::{classes, cleaned_up, merged, Class, NOTHING};
use independent::draft::Draft;
use independent::generator::{limits, towers};
use independent::listing::listing;
use independent::moving::{Image, REGISTER_IMAGE};
use independent::notation::{description, draft};
use independent::places::{accepted, check, layout, Place, Placement};
use independent::refusal::Refusal;
use independent::station::{attach, Station, SEAT};
use independent::types::{alignment, offsets, run, run_range, size};
use independent::units::Bytes;
use independent::walk::{open, shown_piece};

const EVERY_CLASS: [Class; 8] = [
    Class::NoClass,
    Class::Integer,
    Class::Sse,
    Class::SseUp,
    Class::X87,
    Class::X87Up,
    Class::ComplexX87,
    Class::Memory,
];

#[test]
fn the_listers_case_and_p1_to_p11_are_as_printed() {
    assert_eq!(listing(&bytes_of_hex(LISTER)), LISTER_TEXT);
    for case in &CASES {
        assert!(case_holds(case), "{}", case.name);
    }
}

/// The answer for the first argument of a function written as text.
fn place_of(text: &str) -> String {
    let bytes = description(text);
    let accepted = accepted(&bytes).expect(text);
    independent::listing::place_text(&accepted.layout.placements[0].place)
}

#[test]
fn members_merge_in_their_order_and_inner_ones_are_finished_first() {
    assert_eq!(place_of("void: union{float, long_double, int128}"), "stack 0");
    assert_eq!(place_of("void: union{float, int128, long_double}"), "rdi rsi");
    assert_eq!(place_of("void: union{float, union{long_double, int128}}"), "rdi rsi");
    assert_eq!(place_of("void: union{int128, union{long_double, int}}"), "stack 0");
}

#[test]
fn an_inner_type_is_classified_at_its_offset_in_the_whole() {
    assert_eq!(place_of("void: struct{float, complex_float}"), "xmm0 xmm1");
    assert_eq!(place_of("void: struct{int, complex_float}"), "rdi xmm0");
    assert_eq!(place_of("void: struct{float, struct{float, int}}"), "xmm0 rdi");
    assert_eq!(place_of("void: struct{float, float[3]}"), "xmm0 xmm1");
}

/// Of the first argument's type, in a list of so many entries that hold 99.
fn offsets_of(text: &str, room: usize) -> Result<Vec<u64>, Refusal> {
    let bytes = description(text);
    let argument = *bytes.last().expect("a description");
    let mut list = vec![99; room];
    offsets(&bytes, argument, &mut list).map(|()| list)
}

#[test]
fn members_lie_at_the_lowest_aligned_offset_and_those_of_a_union_at_0() {
    let text = "void: struct{char, double, short, int128, char[3], int}";
    assert_eq!(offsets_of(text, 6), Ok(vec![0, 8, 16, 32, 48, 52]));
    assert_eq!(offsets_of(text, 8), Ok(vec![0, 8, 16, 32, 48, 52, 99, 99]));
    assert_eq!(offsets_of(text, 5), Err(Refusal::WrongLength));
    assert_eq!(offsets_of("void: union{char, double, struct{int, char}}", 3), Ok(vec![0; 3]));
    assert_eq!(offsets_of("void: struct{char, struct{char, long}}", 2), Ok(vec![0, 8]));
    assert_eq!(offsets_of("void: int", 0), Ok(vec![]));
    assert_eq!(offsets_of("void: int", 2), Ok(vec![99; 2]));
    let bytes = description(text);
    assert_eq!(offsets(&bytes, bytes[5], &mut []), Err(Refusal::WrongTypeNumber));
    assert_eq!(offsets(&bytes[..9], 0, &mut []), Err(Refusal::UnderElevenBytes));
}

#[test]
fn sizes_are_rounded_up_and_unions_too() {
    let bytes = description("void: union{char[5], int}, struct{char, long, char}");
    let number = |position: usize| bytes[bytes.len() - 2 + position];
    assert_eq!(size(&bytes, number(0)), Ok(Bytes(8)));
    assert_eq!(alignment(&bytes, number(0)), Ok(Bytes(4)));
    assert_eq!(size(&bytes, number(1)), Ok(Bytes(24)));
    assert_eq!(alignment(&bytes, number(1)), Ok(Bytes(8)));
}

#[test]
fn merging_is_the_first_rule_that_fits() {
    for one in EVERY_CLASS {
        assert_eq!(merged(one, one), one);
        assert_eq!(merged(one, Class::NoClass), one);
        for other in EVERY_CLASS {
            assert_eq!(merged(one, other), merged(other, one));
        }
    }
    assert_eq!(merged(Class::X87, Class::Integer), Class::Integer);
    assert_eq!(merged(Class::X87, Class::Sse), Class::Memory);
    assert_eq!(merged(Class::ComplexX87, Class::SseUp), Class::Memory);
    assert_eq!(merged(Class::Memory, Class::Integer), Class::Memory);
    assert_eq!(merged(Class::Sse, Class::SseUp), Class::Sse);
}

#[test]
fn cleaning_up_follows_its_order() {
    // Of an aggregate of 16 bytes.
    let cleaned = |first: Class, second: Class| {
        let mut frame = NOTHING;
        (frame[0], frame[1]) = (first, second);
        let cleaned = cleaned_up(frame, Bytes(0), Bytes(16));
        assert_eq!(cleaned[2..], NOTHING[2..]);
        [cleaned[0], cleaned[1]]
    };
    let memory = [Class::Memory, Class::Memory];
    assert_eq!(cleaned(Class::Integer, Class::Memory), memory);
    assert_eq!(cleaned(Class::Integer, Class::X87Up), memory);
    assert_eq!(cleaned(Class::X87, Class::X87Up), [Class::X87, Class::X87Up]);
    assert_eq!(cleaned(Class::Sse, Class::SseUp), [Class::Sse, Class::SseUp]);
    assert_eq!(cleaned(Class::Integer, Class::SseUp), [Class::Integer, Class::Sse]);
    assert_eq!(cleaned(Class::SseUp, Class::SseUp), [Class::Sse, Class::SseUp]);
}

#[test]
fn lone_classes_and_memory_stand_first() {
    let answer = |text: &str| {
        let bytes = description(text);
        classes(&bytes, *bytes.last().expect("an argument"))
    };
    let pair = |first, second| Ok([first, second, Class::NoClass, Class::NoClass]);
    let alone = |class| pair(class, Class::NoClass);
    assert_eq!(answer("void: int"), alone(Class::Integer));
    assert_eq!(answer("void: complex_float"), alone(Class::Sse));
    assert_eq!(answer("void: complex_long_double"), alone(Class::ComplexX87));
    assert_eq!(answer("void: struct{complex_long_double}"), alone(Class::Memory));
    assert_eq!(answer("void: struct{long, long, char}"), alone(Class::Memory));
    assert_eq!(answer("void: struct{long_double}"), pair(Class::X87, Class::X87Up));
    assert_eq!(answer("void: float128"), pair(Class::Sse, Class::SseUp));
}

#[test]
fn a_run_is_a_part_of_the_description() {
    let bytes = description("void: struct{int, float, int}");
    assert_eq!(run_range(&bytes, 2), 23..26);
    assert_eq!(run(&bytes, 2), &[0, 1, 0]);
    assert!(run(&bytes, 0).is_empty());
    assert!(run(&bytes, 3).is_empty());
    assert_eq!(size(&bytes, 3), Err(Refusal::WrongTypeNumber));
    assert_eq!(size(&bytes, 255), Err(Refusal::WrongTypeNumber));
}

#[test]
fn questions_answer_arrays_and_descriptions_refused_later() {
    let mut array = draft("void:");
    let character = array.basic(1);
    let number = array.array(character, 7);
    array.argument(number);
    assert_eq!(check(&array.bytes()).number, 8);
    assert_eq!(size(&array.bytes(), number), Ok(Bytes(7)));
}

#[test]
fn limits_are_answered_as_the_paper_says() {
    let expected = |name: &str| match name {
        "struct of 4,097" | "rounded up to 4,104" | "rounded down is not" | "union of 4,097" => 7,
        "array of 4,100" | "array of 4096 shorts" | "array of arrays of 4,160" => 7,
        "int128 of 4,112" | "nested arrays, 63 deep" => 7,
        "m256 of 4,128" | "rounded up to 4,128" => 7,
        "pointers of 4,104" | "pointers of ILP32, 4,100" => 7,
        "array count 0" | "array count 4,097" => 6,
        "run of 256 in 255" | "run of 65,535" | "run of none" => 6,
        "65 types" | "65 arguments" => 4,
        "587 bytes" | "585 bytes" => 5,
        "area 16,400" | "five of 4,096" | "area 16,640" => 10,
        "area 16,416" | "area 16,416 of vectors" => 10,
        "blocks of 4,094 take 4,096" | "area over by the hidden address" => 10,
        _ => 0,
    };
    for (name, bytes) in limits() {
        assert_eq!(check(&bytes).number, expected(name), "{name}");
    }
}

#[test]
fn towers_of_unions_do_not_stall_it() {
    for (name, bytes) in towers() {
        let refusal = if name.starts_with("struct of the one below") { 7 } else { 0 };
        assert_eq!(check(&bytes).number, refusal, "{name}");
    }
}

#[test]
fn hidden_address_is_for_memory_only() {
    let hidden = |text: &str| accepted(&description(text)).expect(text).layout.hidden_address;
    assert!(hidden("struct{char[17]}: int"));
    assert!(hidden("union{long_double, long}: int"));
    assert!(hidden("struct{complex_long_double}: int"));
    assert!(!hidden("complex_long_double: int"));
    assert!(!hidden("struct{long_double}: int"));
    assert!(!hidden("void: int"));
}

#[test]
fn return_places_are_in_eightbyte_order() {
    let line = |text: &str| {
        let text = listing(&description(text));
        let line = text.lines().find(|line| line.starts_with("return")).expect("a line");
        line.split_whitespace().skip(3).collect::<Vec<_>>().join(" ")
    };
    assert_eq!(line("struct{double, long}:"), "xmm0 rax");
    assert_eq!(line("struct{long, double}:"), "rax xmm0");
    assert_eq!(line("int128:"), "rax rdx");
    assert_eq!(line("complex_double:"), "xmm0 xmm1");
    assert_eq!(line("m128:"), "xmm0 xmm0h");
    assert_eq!(line("long_double:"), "st0");
    assert_eq!(line("complex_long_double:"), "st0 st1");
    assert_eq!(line("struct{char[17]}:"), "memory");
}

#[test]
fn a_list_under_a_is_refused_and_entries_past_a_stay() {
    let bytes = bytes_of_hex(LISTER);
    let place = Place::Stack(Bytes(77));
    let nine = Bytes(9);
    let stale =
        Placement { type_number: 9, size: nine, alignment: nine, place, value: nine, named: false };
    let mut short = vec![stale.clone(); 4];
    assert_eq!(layout(&bytes, &mut short), Err(Refusal::WrongLength));
    assert!(short.iter().all(|entry| *entry == stale));
    let mut long = vec![stale.clone(); 7];
    assert!(layout(&bytes, &mut long).is_ok());
    assert!(long[5..].iter().all(|entry| *entry == stale));
    assert!(long[..5].iter().all(|entry| *entry != stale));
}

#[test]
fn only_a_single_run_is_shown() {
    let shown = |text: &str| {
        let bytes = description(text);
        let mut station = Station::default();
        let mut seat = vec![0; SEAT];
        attach(&mut station, &mut seat, &bytes).expect("accepted");
        let walk = open(&station, &seat).expect("variadic");
        let area = accepted(&bytes).expect("accepted").layout.area.0;
        let (registers, stack) = (vec![0; REGISTER_IMAGE], vec![0; area]);
        let asked = *bytes.last().expect("an argument");
        let piece = shown_piece(&station, &seat, &walk, asked, &registers, &stack);
        piece.expect("right").map(|piece| (piece.image, piece.start.0, piece.length.0))
    };
    let five = "void: long, long, long, long, long";
    assert_eq!(shown(&format!("{five}, ..., struct{{long, double}}")), None);
    assert_eq!(shown("void: ..., struct{double, long}"), None);
    assert_eq!(shown("void: ..., complex_double"), None);
    assert_eq!(shown("void: ..., m128"), Some((Image::Registers, 48, 16)));
    assert_eq!(shown("void: ..., int128"), Some((Image::Registers, 0, 16)));
    assert_eq!(shown("void: int, ..., struct{char[11]}"), Some((Image::Registers, 8, 11)));
    assert_eq!(shown(&format!("{five}, ..., int128")), Some((Image::Stack, 0, 16)));
}

#[test]
fn listings_of_refusals_and_of_nothing() {
    assert_eq!(listing(&[]), "refused 1\n");
    let nothing = "KCB 1 args 0 named 0 gp 0 vec 0 stack 0\nreturn void\nwalk none\n";
    assert_eq!(listing(&Draft::new().bytes()), nothing);
    let mut with_newline = bytes_of_hex(LISTER);
    with_newline.push(b'\n');
    assert_eq!(listing(&with_newline), "refused 5\n");
}

#[test]
fn the_overflow_offset_at_open_is_a_multiple_of_8_only() {
    let text = listing(&description("void: long, long, long, long, long, long, long, ..., int128"));
    assert!(text.ends_with("walk gp 48 fp 48 over 8\n"), "{text}");
    assert!(text.contains("7 type 1 size 16 align 16 stack 16 at 56 unnamed\n"), "{text}");
}
