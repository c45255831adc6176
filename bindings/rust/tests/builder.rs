//! The builder, against what tests/library/builds.txt says; the header's builder is held against the
//! same lines, so that both make the same of the same calls.

use callbridge::{raw, Basic, Builder};

const BUILDS: &str = include_str!("../../../tests/library/builds.txt");
const HEADER: &str = include_str!("../../../include/callbridge.h");

const BASICS: [(Basic, &str); 16] = [
    (Basic::Bool, "CB_BOOL"),
    (Basic::Char, "CB_CHAR"),
    (Basic::Short, "CB_SHORT"),
    (Basic::Int, "CB_INT"),
    (Basic::Long, "CB_LONG"),
    (Basic::Int128, "CB_INT128"),
    (Basic::Float, "CB_FLOAT"),
    (Basic::Double, "CB_DOUBLE"),
    (Basic::LongDouble, "CB_LONG_DOUBLE"),
    (Basic::Float128, "CB_FLOAT128"),
    (Basic::M64, "CB_M64"),
    (Basic::M128, "CB_M128"),
    (Basic::ComplexFloat, "CB_COMPLEX_FLOAT"),
    (Basic::ComplexDouble, "CB_COMPLEX_DOUBLE"),
    (Basic::ComplexLongDouble, "CB_COMPLEX_LONG_DOUBLE"),
    (Basic::Pointer, "CB_POINTER"),
];

/// What the header says behind a name, in an enum or by #define.
fn in_header(name: &str) -> usize {
    let words: Vec<&str> = HEADER.split_whitespace().collect();
    let value = words.windows(3).find_map(|three| match three {
        ["#define", found, value] if *found == name => Some(*value),
        [found, "=", value] if *found == name => Some(value.trim_end_matches(',')),
        _ => None,
    });
    value.and_then(|value| value.parse().ok()).unwrap_or_else(|| panic!("{name} of the header"))
}

#[test]
fn names_are_those_of_the_header() {
    for (basic, name) in BASICS {
        assert_eq!(basic as usize, in_header(name), "{name}");
    }
    for (value, name) in [
        (usize::from(raw::VARIADIC), "CB_VARIADIC"),
        (usize::from(raw::ILP32), "CB_ILP32"),
        (usize::from(raw::BASIC), "CB_BASIC"),
        (usize::from(raw::ARRAY), "CB_ARRAY"),
        (usize::from(raw::STRUCT), "CB_STRUCT"),
        (usize::from(raw::UNION), "CB_UNION"),
        (usize::from(raw::VOID), "CB_VOID"),
        (usize::from(raw::FORMAT_VERSION), "CB_FORMAT_VERSION"),
        (raw::MAX_TYPES, "CB_MAX_TYPES"),
        (raw::MAX_MEMBERS, "CB_MAX_MEMBERS"),
        (raw::MAX_ARGUMENTS, "CB_MAX_ARGUMENTS"),
        (raw::MAX_ELEMENTS, "CB_MAX_ELEMENTS"),
    ] {
        assert_eq!(value, in_header(name), "{name}");
    }
}

/// `7` once, `7^5` five times.
fn repeated(text: &str) -> (&str, usize) {
    match text.split_once('^') {
        Some((what, times)) => (what, number(times)),
        None => (text, 1),
    }
}

fn members(text: &str) -> Vec<u8> {
    let parts = text.split(',').filter(|part| !part.is_empty()).map(repeated);
    parts.flat_map(|(what, times)| vec![number(what) as u8; times]).collect()
}

fn number(text: &str) -> usize {
    text.parse().expect("a number")
}

/// One call, or one that is made several times; the number that it answers where it makes a type.
fn make(builder: &mut Builder, word: &str) -> Option<u8> {
    let (call, rest) = word.split_at(1);
    let (what, times) = repeated(rest);
    match call {
        "m" => {
            *builder = Builder::ilp32();
            return None;
        }
        "b" => return Some(builder.basic(BASICS[number(what)].0)),
        "a" => {
            let (element, count) = what.split_once('*').expect("a count");
            return Some(builder.array(number(element) as u8, number(count)));
        }
        "c" => return Some((0..number(what)).fold(0, |last, _| builder.array(last, 1))),
        "s" => return Some(builder.structure(&members(rest))),
        "u" => return Some(builder.union(&members(rest))),
        _ => {}
    }
    for _ in 0..times {
        match call {
            "r" => builder.returns(number(what) as u8),
            "p" => builder.argument(number(what) as u8),
            "e" => builder.ellipsis(),
            _ => panic!("no call: {word}"),
        };
    }
    None
}

fn said(builder: &Builder, as_length: bool) -> String {
    match builder.finish() {
        Ok(bytes) if as_length => format!("{} bytes", bytes.len()),
        Ok(bytes) => bytes.iter().map(|byte| format!("{byte:02x}")).collect(),
        Err(refusal) => match refusal.type_number() {
            Some(number) => format!("refused {} type {number}", refusal.number()),
            None => format!("refused {}", refusal.number()),
        },
    }
}

/// Basic is an enum, so that a code which is none cannot be written.
fn has_no_name(word: &str) -> bool {
    word.starts_with('b') && number(&word[1..]) >= BASICS.len()
}

#[test]
fn builds() {
    let mut made = 0;
    for line in BUILDS.lines().filter(|line| !line.starts_with('#') && !line.is_empty()) {
        let parts: Vec<&str> = line.split('=').map(str::trim).collect();
        let (calls, numbers, result) = (parts[0], parts[1], parts[2]);
        if calls.split_whitespace().any(has_no_name) {
            continue;
        }
        let mut builder = Builder::new();
        let answers = calls.split_whitespace().filter_map(|word| make(&mut builder, word));
        let answers: Vec<String> = answers.map(|answer| answer.to_string()).collect();
        assert_eq!(answers.join(" "), numbers, "{line}");
        assert_eq!(said(&builder, result.ends_with("bytes")), result, "{line}");
        assert!(builder.refusal().is_none() || result.starts_with("refused"), "{line}");
        made += 1;
    }
    assert!(made > 40, "{made} builds");
}
