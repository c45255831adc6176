//! Random descriptions that are accepted, and drafts near every limit.

use crate::description::{ARRAY, BASIC, ILP32, MOST_TYPES, STRUCT, UNION, VOID};
use crate::draft::Draft;
use crate::notation;
use crate::places::check;
use crate::random::Random;
use crate::types::{code, types};

/// How large the random descriptions may get.
#[derive(Clone, Copy, Debug)]
pub struct Shape {
    pub most_types: usize,
    pub most_arguments: usize,
    pub most_members: usize,
    /// Types over this size are thrown away.
    pub largest: usize,
}

pub const SMALL: Shape = Shape { most_types: 8, most_arguments: 8, most_members: 4, largest: 64 };
pub const MIDDLE: Shape =
    Shape { most_types: 16, most_arguments: 20, most_members: 6, largest: 200 };
pub const LARGE: Shape =
    Shape { most_types: 64, most_arguments: 64, most_members: 20, largest: 4096 };

/// Codes that go in registers are drawn oftener, so that registers run out, and
/// pointers, whose size the model changes, and __m256, over which aggregates are of
/// any size.
const CODES: [u8; 39] = [
    0, 1, 2, 3, 4, 5, 6, 7, 8, 9, 10, 11, 12, 13, 14, 15, 16, 1, 2, 3, 4, 4, 5, 6, 6, 7, 7, 8, 9,
    11, 12, 13, 15, 15, 15, 15, 16, 16, 16,
];

/// A description of this shape that passes 1 to 10.
pub fn random_description(random: &mut Random, shape: Shape) -> Vec<u8> {
    loop {
        let mut draft = random_types(random, shape);
        add_arguments(random, shape, &mut draft);
        let bytes = draft.bytes();
        if check(&bytes).number == 0 {
            return bytes;
        }
    }
}

/// Of either model. Basic types first, then aggregates over them.
pub fn random_types(random: &mut Random, shape: Shape) -> Draft {
    let mut draft = Draft::new();
    draft.flags = random.choose(&[0, ILP32]);
    let wanted = random.between(1, shape.most_types);
    let basics = random.between(1, wanted);
    for _ in 0..basics {
        let code = random.choose(&CODES);
        draft.record(BASIC, code, 0);
    }
    while draft.records.len() < wanted {
        add_aggregate(random, shape, &mut draft);
    }
    draft
}

/// One more aggregate of a size that the shape admits, else a basic type.
fn add_aggregate(random: &mut Random, shape: Shape, draft: &mut Draft) {
    for _ in 0..6 {
        let mut longer = draft.clone();
        match random.below(5) {
            0 => add_array(random, &mut longer),
            1 | 2 => add_members(random, shape, &mut longer, STRUCT),
            3 => add_members(random, shape, &mut longer, UNION),
            _ => add_overlapping(random, &mut longer),
        }
        if is_admitted(&longer, shape) {
            *draft = longer;
            return;
        }
    }
    let code = random.choose(&CODES);
    draft.record(BASIC, code, 0);
}

/// Whether the last type is there, measured, and no larger than admitted. Small
/// ones are wanted most: those over 64 bytes all go the same way.
fn is_admitted(draft: &Draft, shape: Shape) -> bool {
    if draft.members.len() > 255 || draft.records.is_empty() {
        return false;
    }
    let bytes = draft.bytes();
    let last = (draft.records.len() - 1) as u8;
    types(&bytes).is_ok_and(|types| types.size(last).0 <= shape.largest)
}

fn lower_type(random: &mut Random, draft: &Draft) -> u8 {
    let count = draft.records.len();
    // The newest ones oftener, so that types nest deeply.
    if random.one_in(3) {
        (count - 1 - random.below(count.min(3))) as u8
    } else {
        random.below(count) as u8
    }
}

fn add_array(random: &mut Random, draft: &mut Draft) {
    let element = lower_type(random, draft);
    let count = if random.one_in(8) { random.between(1, 64) } else { random.between(1, 5) };
    draft.array(element, count);
}

fn add_members(random: &mut Random, shape: Shape, draft: &mut Draft, kind: u8) {
    let count =
        if random.one_in(6) { random.between(1, shape.most_members) } else { random.between(1, 3) };
    let run: Vec<u8> = (0..count).map(|_| lower_type(random, draft)).collect();
    // Now and then a member byte that is in no run.
    if random.one_in(12) {
        draft.members.push(random.byte());
    }
    if kind == STRUCT {
        draft.structure(&run);
    } else {
        draft.union(&run);
    }
}

/// A struct or union over a run that is there already: "Runs may overlap".
fn add_overlapping(random: &mut Random, draft: &mut Draft) {
    if draft.members.is_empty() {
        return add_array(random, draft);
    }
    let start = random.below(draft.members.len());
    let count = random.between(1, (draft.members.len() - start).min(4));
    let kind = if random.one_in(2) { STRUCT } else { UNION };
    draft.record(kind, start as u8, count);
}

/// Return type, named and unnamed arguments; arrays are never taken.
fn add_arguments(random: &mut Random, shape: Shape, draft: &mut Draft) {
    let all: Vec<u8> = (0..draft.records.len() as u8).collect();
    let kind = |number: u8| draft.records[number as usize];
    let whole: Vec<u8> = all.into_iter().filter(|&number| kind(number)[0] != ARRAY).collect();
    let small = [code::BOOL, code::CHAR, code::SHORT, code::FLOAT];
    let is_small = |number: u8| kind(number)[0] == BASIC && small.contains(&kind(number)[1]);
    let unnamed: Vec<u8> = whole.iter().copied().filter(|&number| !is_small(number)).collect();
    let count = random.between(0, shape.most_arguments);
    let named = if random.one_in(2) { count } else { random.between(0, count) };
    let variadic = named < count || random.one_in(8);
    draft.returned = if random.one_in(4) { VOID } else { random.choose(&whole) };
    for position in 0..count {
        if position == named && variadic {
            draft.ellipsis();
        }
        let from = if position < named { &whole } else { &unnamed };
        if from.is_empty() {
            break;
        }
        draft.argument(random.choose(from));
    }
    if variadic && !draft.is_variadic() {
        draft.ellipsis();
    }
}

/// A name and the bytes of a draft near some limit, accepted or just not.
pub type Named = (&'static str, Vec<u8>);

/// Drafts near every limit of the paper.
pub fn limits() -> Vec<Named> {
    let mut all = type_limits();
    all.extend(count_limits());
    all.extend(area_limits());
    all.extend(member_limits());
    all.extend(length_limits());
    all
}

fn one_argument(mut draft: Draft, type_number: u8) -> Vec<u8> {
    draft.argument(type_number);
    draft.bytes()
}

/// "one struct of 4,096 bytes passes, 4,097 is 7"
fn type_limits() -> Vec<Named> {
    let texts = [
        ("struct of 4,096", "void: struct{char[4096]}"),
        ("struct of 4,097", "void: struct{char[4096], char}"),
        ("struct of 4,095", "void: struct{char[4095]}"),
        ("rounded up to 4,104", "void: struct{char[4089], long}"),
        ("rounded up to 4,096", "void: struct{char[4087], long}"),
        ("rounded down is not", "void: struct{long, char[4089]}"),
        ("union of 4,096", "void: union{char[4096], int128}"),
        ("union of 4,097", "void: union{struct{char[4096], char}, int128}"),
        ("array of 4,096", "void: struct{int[1024]}"),
        ("array of 4,100", "void: struct{int[1025]}"),
        ("array of 4096 shorts", "void: struct{short[4096]}"),
        ("array of arrays of 4,096", "void: struct{char[64][64]}"),
        ("array of arrays of 4,160", "void: struct{char[64][65]}"),
        ("int128 of 4,096", "struct{int128[256]}: struct{int128[256]}"),
        ("int128 of 4,112", "void: struct{int128[257]}"),
        ("pointers of 4,096", "void: struct{pointer[512]}"),
        ("pointers of 4,104", "void: struct{pointer[513]}"),
        ("pointers of ILP32, 4,096", "ilp32 void: struct{pointer[1024]}"),
        ("pointers of ILP32, 4,100", "ilp32 void: struct{pointer[1025]}"),
        ("m256 of 4,096", "struct{m256[128]}: struct{m256[128]}"),
        ("m256 of 4,128", "void: struct{m256[129]}"),
        ("rounded up to 4,096 by 32", "void: struct{m256, char[4033]}"),
        ("rounded up to 4,128", "void: struct{m256, char[4065]}"),
    ];
    texts.iter().map(|(name, text)| (*name, notation::description(text))).collect()
}

fn count_limits() -> Vec<Named> {
    let mut all = Vec::new();
    for (name, count) in [("array count 0", 0), ("array count 4,097", 4097)] {
        let mut draft = Draft::new();
        let character = draft.basic(1);
        draft.array(character, count);
        all.push((name, one_argument(draft, character)));
    }
    for (name, count) in [("63 types", 63), ("64 types", 64), ("65 types", 65)] {
        let mut draft = Draft::new();
        for number in 0..count {
            draft.record(BASIC, (number % 17) as u8, 0);
        }
        all.push((name, one_argument(draft, (count - 1) as u8)));
    }
    for (name, count) in [("64 arguments", 64), ("65 arguments", 65), ("63 arguments", 63)] {
        let mut draft = Draft::new();
        let long = draft.basic(4);
        draft.arguments(long, count);
        all.push((name, draft.bytes()));
    }
    all.push(("nothing at all", Draft::new().bytes()));
    all.push(("nested arrays, 63 deep", nested_arrays(63, 4096)));
    all.push(("nested arrays of one, 63 deep", nested_arrays(63, 1)));
    all
}

fn nested_arrays(depth: usize, count: usize) -> Vec<u8> {
    let mut draft = Draft::new();
    let mut inner = draft.basic(1);
    for _ in 0..depth {
        inner = draft.array(inner, count);
    }
    let first = 0;
    one_argument(draft, first)
}

/// "Four such arguments pass with area 16,384; with seven longs besides it is
/// 16,400, refusal 10."
fn area_limits() -> Vec<Named> {
    let with = |size: usize, blocks: usize, longs: usize| {
        let mut draft = Draft::new();
        let block = draft.block(size);
        let long = draft.basic(4);
        draft.arguments(block, blocks);
        draft.arguments(long, longs);
        draft.bytes()
    };
    vec![
        ("area 16,384", with(4096, 4, 0)),
        ("area 16,384 and six longs", with(4096, 4, 6)),
        ("area 16,400", with(4096, 4, 7)),
        ("area 16,368 with one long on the stack", with(4088, 4, 7)),
        ("blocks of 4,094 take 4,096", with(4094, 4, 7)),
        ("five of 4,096", with(4096, 5, 0)),
        ("area 16,384 by smaller ones", with(256, 64, 0)),
        ("area 16,640", with(260, 63, 0)),
        ("area over by the hidden address", over_by_hidden_address()),
        ("area 16,384 with a vector on it", area_with_vectors(4032, 1)),
        ("area 16,384 raised by 32", area_with_vectors(4001, 1)),
        ("area 16,416", area_with_vectors(4040, 1)),
        ("area 16,416 of vectors", area_with_vectors(4032, 2)),
    ]
}

/// Eight vectors in registers, the next ones behind three blocks of 4,096 and a
/// smaller one, and a long behind them.
fn area_with_vectors(size: usize, vectors: usize) -> Vec<u8> {
    let mut draft = Draft::new();
    let large = draft.block(4096);
    let small = draft.block(size);
    let vector = draft.basic(code::M256);
    let long = draft.basic(code::LONG);
    draft.arguments(vector, 8);
    draft.arguments(large, 3);
    draft.argument(small);
    draft.arguments(vector, vectors);
    draft.arguments(long, 7);
    draft.bytes()
}

/// Six longs, of which the hidden address drives one to the stack.
fn over_by_hidden_address() -> Vec<u8> {
    let mut draft = Draft::new();
    let block = draft.block(4096);
    let long = draft.basic(4);
    draft.returned = block;
    draft.arguments(long, 6);
    draft.arguments(block, 4);
    draft.bytes()
}

fn member_limits() -> Vec<Named> {
    let run_of = |count: usize, kind: u8| {
        let mut draft = Draft::new();
        let character = draft.basic(1);
        draft.members = vec![character; 255];
        let number = draft.record(kind, 0, count);
        one_argument(draft, number)
    };
    let mut unused = notation::draft("void: struct{int, float}");
    unused.members.extend([255, 200, 3]);
    let mut overlapping = notation::draft("void: struct{int, float, double, char}");
    for (start, count) in [(1, 3), (0, 2), (2, 1), (3, 1)] {
        let number = overlapping.record(STRUCT, start, count);
        overlapping.argument(number);
    }
    vec![
        ("struct of 255 members", run_of(255, STRUCT)),
        ("union of 255 members", run_of(255, UNION)),
        ("run of 256 in 255", run_of(256, STRUCT)),
        ("run of 65,535", run_of(65535, STRUCT)),
        ("run of none", run_of(0, STRUCT)),
        ("member bytes in no run", unused.bytes()),
        ("overlapping runs", overlapping.bytes()),
    ]
}

/// "11 + 4T + M + A bytes, at most 586"
fn length_limits() -> Vec<Named> {
    let mut draft = Draft::new();
    for number in 0..MOST_TYPES {
        draft.record(BASIC, (number % 17) as u8, 0);
    }
    draft.members = vec![7; 255];
    draft.arguments(4, 64);
    let longest = draft.bytes();
    let mut behind = longest.clone();
    behind.push(4);
    let short = longest[..585].to_vec();
    vec![("586 bytes", longest), ("587 bytes", behind), ("585 bytes", short)]
}

/// Towers over which plain recursion takes very long.
pub fn towers() -> Vec<Named> {
    vec![
        ("union of the one below twice", tower_of_two(UNION)),
        ("struct of the one below twice", tower_of_two(STRUCT)),
        ("union of all below", tower_of_all()),
        ("chain of structs", chain()),
        ("wide and deep", wide_and_deep(1)),
        ("wide and deep, of vectors", wide_and_deep(code::M256)),
        ("vectors below and behind", vectors_below()),
    ]
}

fn tower_of_two(kind: u8) -> Vec<u8> {
    let mut draft = Draft::new();
    let mut below = draft.basic(1);
    for _ in 1..MOST_TYPES {
        let run = [below, below];
        below = if kind == UNION { draft.union(&run) } else { draft.structure(&run) };
    }
    one_argument(draft, below)
}

fn tower_of_all() -> Vec<u8> {
    let mut draft = Draft::new();
    draft.basic(3);
    draft.members = (0..63).collect();
    for number in 1..MOST_TYPES {
        draft.record(UNION, 0, number);
    }
    draft.arguments(63, 64);
    draft.bytes()
}

fn chain() -> Vec<u8> {
    let mut draft = Draft::new();
    let mut below = draft.basic(7);
    for _ in 1..MOST_TYPES {
        below = draft.structure(&[below]);
    }
    one_argument(draft, below)
}

/// Unions of 192 + k members with the deep one last.
fn wide_and_deep(basic: u8) -> Vec<u8> {
    let mut draft = Draft::new();
    draft.basic(basic);
    draft.members = vec![0; 192];
    draft.members.extend(0..63);
    for number in 1..MOST_TYPES {
        draft.record(UNION, 0, 192 + number);
    }
    one_argument(draft, 63)
}

/// Structs and unions over all below them, in turns: of 64 bytes they go no further.
fn vectors_below() -> Vec<u8> {
    let mut draft = Draft::new();
    draft.basic(code::M256);
    draft.basic(code::DOUBLE);
    draft.members = [0, 1].repeat(60);
    draft.members.extend(2..64);
    for number in 2..MOST_TYPES {
        let kind = if number % 2 == 0 { UNION } else { STRUCT };
        // The first is a union of the two, each other holds the one before it.
        let start = if number == 2 { 0 } else { 120 + number - 3 };
        draft.record(kind, start as u8, if number == 2 { 120 } else { 1 });
    }
    one_argument(draft, 63)
}

/// Aggregates whose classes need thought, as text.
pub const THOUGHT: [&str; 44] = [
    "void: union{float, long_double, int128}",
    "void: union{float, int128, long_double}",
    "void: union{float, union{long_double, int128}}",
    "void: union{int128, union{long_double, int}}",
    "void: union{union{long_double, int}, int128}",
    "void: struct{union{int128, union{long_double, int}}}",
    "union{int128, union{long_double, int}}: int",
    "void: struct{float, complex_float}",
    "void: struct{int, complex_float}",
    "void: struct{complex_float, int}",
    "void: struct{float, struct{float, int}}",
    "void: struct{int, struct{int, float}}",
    "void: struct{char, struct{char[7]}, char}",
    "void: struct{char[3], struct{char[6], char[6]}}",
    "void: struct{float, float[3]}",
    "void: struct{float[2], int[2]}",
    "void: struct{int, float[3]}",
    "void: union{char[5], int}",
    "void: union{char[9]}",
    "void: struct{long_double}",
    "struct{long_double}: struct{long_double}, long",
    "union{long_double, long}: long",
    "complex_long_double: complex_long_double, long",
    "struct{complex_long_double}: long",
    "struct{complex_long_double[1]}: long",
    "union{long_double, char}: union{char, long_double}",
    "union{m128, float128}: union{m128, double}",
    "union{m128, struct{double, double}}: double",
    "union{float128, double}: union{float128, long}",
    "struct{m64}: m64, struct{m64, float}",
    "struct{double, long}: struct{long, double}",
    "struct{double, double}: struct{long, long}",
    "int128: struct{int128}, struct{long, int128}",
    "complex_float: complex_float, complex_double",
    "complex_double: struct{complex_double}",
    "void: long, long, long, long, long, long, struct{long, double}, double",
    "void: long, long, long, long, long, struct{double, long}, long",
    "void: long, long, long, long, long, long, long, char, int128, char",
    "void: m128, float128, struct{m128}, union{m128, m128}",
    "void: double, double, double, double, double, double, double, double, m128, double, float",
    "void: struct{bool[2]}, union{bool, char}, bool",
    "void: pointer, m64, short, struct{pointer}",
    "struct{char[16]}: struct{char[17]}, struct{char[16]}, struct{char[8]}",
    "struct{struct{struct{char}}}: ..., struct{char}, complex_float, m64, struct{float}",
];

/// The same for vectors of 32 bytes (02, 2026-06): alone, in aggregates of every
/// kind, named and unnamed, in registers, on the stack and returned.
pub const WIDE: [&str; 44] = [
    "void: int, double, m256, ..., int, long_double, m256, double",
    "m256: m256, double, m256",
    "struct{m256}: struct{m256}, struct{m256[1]}, struct{struct{m256}}",
    "void: struct{struct{m256[1]}[1]}, union{m256}, union{m256, m256}, union{struct{m256}}",
    "union{m256, double[4]}: union{m256, double[4]}",
    "union{m256, double}: union{m256, double}, union{m256, m128}, union{m256, complex_float}",
    "union{double, m256}: union{m128, m256}, union{complex_float, m256}, union{float128, m256}",
    "union{m256, m128}: union{m256, float128}, union{m256, m64}, union{m256, float, double}",
    "void: union{m256, double[2]}, union{m256, float[3]}, union{m256, complex_double}",
    "void: union{m256, float[2]}, union{m256, float[2], double}, union{m256, struct{float}}",
    "union{m256, long}: union{m256, long}, union{m256, char}, union{m256, long_double}",
    "union{m256, pointer}: union{m256, pointer}, union{m256, int128}, union{m256, bool}",
    "union{m256, complex_long_double}: union{complex_long_double, m256}, complex_long_double",
    "void: union{m256, struct{m128}}, union{m256, struct{m128, m128}}, union{m256, m128[2]}",
    "void: union{m256, struct{float, float}}, union{m256, struct{double}, struct{m64}}",
    "void: union{m256, struct{float, complex_float}}, union{m256, struct{int, float}}",
    "void: union{m256, union{m256, double}}, struct{union{m256, m128}}, struct{union{m256}}",
    "void: union{m256, union{m128, double[2]}}, union{m256, union{m128, long}}",
    "void: union{m256, struct{m128, float}}, union{m256, struct{char[24]}}",
    "void: struct{m256, m256}, struct{m256[2]}, struct{m256, char}, struct{m256, double}",
    "struct{m256, m256}: struct{double, m256}, struct{char[32]}, struct{double[4]}",
    "struct{m128, m128}: struct{m128[2]}, struct{float128, m128}, struct{m128, double}",
    "void: union{m256, char[33]}, union{m256, m256[2]}, struct{m256[3]}, struct{m256[3], char}",
    "struct{m256[3]}: struct{char[64]}, struct{char[65]}, struct{double[8]}, m256",
    "struct{complex_long_double}: complex_long_double, struct{m256, complex_long_double}",
    "void: m256, m256, m256, m256, m256, m256, m256, m256, m256, m256, double, int",
    "void: double, double, double, double, double, double, double, m256, m256, double",
    "void: m256, double, m128, m256, float, struct{m256}, complex_double, m256, struct{m256}",
    "void: m256, m256, m256, m256, m256, m256, m256, complex_double, m256",
    "void: long, long, long, long, long, long, long, union{m256, long}, char",
    "void: struct{char[17]}, union{m256, char}, long_double, struct{char[3]}",
    "void: long, long, long, long, long, long, long, m256, int128",
    "union{m256, long}: long, long, long, long, long, long, m256, struct{m256, m256}, char",
    "m256: bool, struct{m256}, bool, union{m256, float}",
    "void: int, ..., m256, m256, double",
    "void: ..., m256, int, struct{m256}, double",
    "void: int, ..., struct{m256}, int, struct{m256[1]}, long_double, double, m128",
    "m256: m256, ..., m256, double, struct{struct{m256}}, m128, m256",
    "void: long, long, long, long, long, long, long, ..., m256, long, m256, long_double",
    "struct{m256[3]}: m256, ..., union{m256, long}, long_double, struct{m256, m256}, long",
    "void: m256, m256, m256, m256, m256, m256, m256, m256, ..., m256, double, m256, int",
    "struct{m256}: m256, m256, m256, m256, m256, m256, m256, m256, m256, char, ..., int128",
    "union{m256, double}: int, ..., union{m256, double}, union{m256, m128}, struct{union{m256}}",
    "void: struct{m256, m256}, ..., union{double, m256}, int, struct{union{m256, m64}}, double",
];

/// The same for ILP32: pointers of four bytes, alone, in pairs and beside others,
/// in registers and in stack slots, and hidden addresses.
pub const NARROW: [&str; 22] = [
    "ilp32 void: struct{pointer, pointer}",
    "ilp32 void: struct{float, pointer, double}",
    "ilp32 void: struct{float, float, pointer}",
    "ilp32 void: struct{double, pointer}",
    "ilp32 void: struct{pointer, complex_float}",
    "ilp32 void: struct{pointer, float, float, pointer}",
    "ilp32 void: struct{char, pointer}, struct{char, pointer, char}, struct{pointer, char}",
    "ilp32 void: struct{pointer, long}, struct{int, pointer}, struct{short, pointer[2]}",
    "ilp32 void: union{pointer, float}, union{float, pointer}, union{double, pointer}",
    "ilp32 void: union{pointer, long_double}",
    "ilp32 void: union{pointer, int128}, union{m128, pointer}, union{m128, pointer[4]}",
    "ilp32 struct{pointer[4]}: struct{pointer[4]}, struct{pointer[5]}, struct{pointer[3]}",
    "ilp32 struct{pointer[5]}: pointer, struct{pointer, double}",
    "ilp32 struct{char[17]}: pointer, bool, int",
    "ilp32 union{long_double, pointer}: pointer",
    "ilp32 pointer: pointer, pointer, pointer, pointer, pointer, pointer, pointer, pointer, int",
    "ilp32 struct{pointer}: long, long, long, long, long, struct{pointer, pointer, int}, pointer",
    "ilp32 struct{double, pointer}: char, pointer, short, pointer, m64, pointer",
    "ilp32 pointer: pointer, ..., pointer, double, struct{pointer, double}, long_double, pointer",
    "ilp32 struct{pointer[5]}: ..., pointer, int, pointer, long, pointer, pointer, int128, pointer",
    "ilp32 void: long, long, long, long, long, ..., struct{pointer, pointer}, pointer, long",
    "ilp32 struct{pointer, pointer}: int, ..., struct{pointer[3]}, struct{char, pointer}",
];
