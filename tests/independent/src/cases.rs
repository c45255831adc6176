//! "Cases to prove": the lister's case and P1 to P11, with the answers that
//! document 01 prints, and those of vectors of 32 bytes: 000's figure, and what
//! document 02 says of two aggregates.

use crate::listing::{listing, place_text};
use crate::notation::description;
use crate::places::accepted;

/// "For these bytes, written here in hex".
pub const LISTER: &str = "4B 43 42 01 00 06 01 03 05 01 02 | 00 03 00 00 | 00 07 00 00 \
     | 00 04 00 00 | 02 00 02 00 | 00 08 00 00 | 00 05 00 00 | 01 02 | 00 03 04 01 05";

/// "it prints"
pub const LISTER_TEXT: &str = "\
KCB 1 args 5 named 3 gp 4 vec 2 stack 16
0 type 0 size 4 align 4 rdi at 0 named
1 type 3 size 16 align 8 xmm0 rsi at 4 named
2 type 4 size 16 align 16 stack 0 at 20 named
3 type 1 size 8 align 8 xmm1 at 36 unnamed
4 type 5 size 16 align 16 rdx rcx at 44 unnamed
return type 1 xmm0
walk gp 16 fp 64 over 16
";

/// One of P1 to P11 or of V1 to V3: the function, the places of its arguments, and
/// the numbers that the paper gives besides.
pub struct Case {
    pub name: &'static str,
    pub function: &'static str,
    pub places: &'static [&'static str],
    pub vector_count: Option<usize>,
    pub area: Option<usize>,
}

const fn case(name: &'static str, function: &'static str, places: &'static [&'static str]) -> Case {
    Case { name, function, places, vector_count: None, area: None }
}

pub const CASES: [Case; 11] = [
    Case {
        vector_count: Some(2),
        ..case(
            "P1",
            "void: int, double, ..., int, long_double, double",
            &["rdi", "xmm0", "rsi", "stack 0", "xmm1"],
        )
    },
    case("P2", "void: union{int128, long_double}", &["rdi rsi"]),
    case("P3", "void: union{int, long_double}", &["stack 0"]),
    case("P4", "void: union{float, long_double}", &["stack 0"]),
    case("P5", "void: union{m128, long}", &["rdi xmm0"]),
    case("P6", "void: union{m128, struct{double, double}}", &["xmm0 xmm1"]),
    case(
        "P7",
        "void: long, long, long, long, long, int128, long",
        &["rdi", "rsi", "rdx", "rcx", "r8", "stack 0", "r9"],
    ),
    Case {
        area: Some(32),
        ..case(
            "P8",
            "void: long, long, long, long, long, long, long, int128",
            &["rdi", "rsi", "rdx", "rcx", "r8", "r9", "stack 0", "stack 16"],
        )
    },
    case("P9", "void: struct{float, struct{float, int}}", &["xmm0 rdi"]),
    case(
        "P10",
        "void: double, double, double, double, double, double, double, complex_double, double",
        &["xmm0", "xmm1", "xmm2", "xmm3", "xmm4", "xmm5", "xmm6", "stack 0", "xmm7"],
    ),
    case("P11", "struct{char[17]}: int", &["rsi"]),
];

/// V1 is 000, figure 3.32, without __m512; V2 and V3 are 02's "A struct of one __m256
/// goes in a register; a union of it and four doubles doesn't."
pub const WIDE_CASES: [Case; 3] = [
    Case {
        vector_count: Some(3),
        area: Some(64),
        ..case(
            "V1",
            "void: int, double, m256, ..., int, long_double, m256, double",
            &["rdi", "xmm0", "xmm1y", "rsi", "stack 0", "stack 32", "xmm2"],
        )
    },
    case("V2", "void: struct{m256}", &["xmm0y"]),
    Case { area: Some(32), ..case("V3", "void: union{m256, double[4]}", &["stack 0"]) },
];

/// Bytes written in hex, with blanks and bars between them.
pub fn bytes_of_hex(text: &str) -> Vec<u8> {
    let digits: Vec<u32> = text.chars().filter_map(|letter| letter.to_digit(16)).collect();
    digits.chunks(2).map(|pair| (16 * pair[0] + pair[1]) as u8).collect()
}

pub fn hex_of_bytes(bytes: &[u8]) -> String {
    bytes.iter().map(|byte| format!("{byte:02x}")).collect()
}

/// The places that the layout gives a case, or its refusal.
pub fn places_found(case: &Case) -> Vec<String> {
    match accepted(&description(case.function)) {
        Ok(accepted) => {
            let placements = &accepted.layout.placements;
            placements.iter().map(|placement| place_text(&placement.place)).collect()
        }
        Err(refusal) => vec![format!("refused {}", refusal.number())],
    }
}

fn numbers_hold(case: &Case) -> bool {
    let bytes = description(case.function);
    let Ok(accepted) = accepted(&bytes) else {
        return false;
    };
    let layout = accepted.layout;
    case.vector_count.is_none_or(|count| layout.vector_count().0 == count)
        && case.area.is_none_or(|area| layout.area.0 == area)
}

pub fn case_holds(case: &Case) -> bool {
    places_found(case) == case.places && numbers_hold(case)
}

/// All fifteen cases, a line each (the lister's with its text), and whether all
/// hold.
pub fn report() -> (String, bool) {
    let found = listing(&bytes_of_hex(LISTER));
    let mut all_hold = found == LISTER_TEXT;
    let mut text = format!("lister's case: {}\n{found}", verdict(all_hold));
    for case in CASES.iter().chain(&WIDE_CASES) {
        let holds = case_holds(case);
        all_hold = all_hold && holds;
        let places = places_found(case).join(", ");
        text.push_str(&format!(
            "{} {}: {} | {}\n",
            case.name,
            verdict(holds),
            case.function,
            places
        ));
    }
    (text, all_hold)
}

fn verdict(holds: bool) -> &'static str {
    if holds {
        "as printed"
    } else {
        "NOT AS PRINTED"
    }
}
