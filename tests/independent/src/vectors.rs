//! The vectors: pairs of NAME.in and NAME.out that programs in another language
//! read and must answer. Formats: vectors/README.md.

use crate::broken::{broken, random_broken, wholly_mended};
use crate::cases::{bytes_of_hex, CASES, LISTER};
use crate::classes::classes_of;
use crate::damage::{damaged, refusals_and_pairs};
use crate::declaration::{in_grammar, Start, LONGEST_TEXT};
use crate::description::ILP32;
use crate::draft::{in_both_models, Draft};
use crate::generator::{
    self, random_description, Shape, LARGE, MIDDLE, NARROW, SMALL, THOUGHT, WIDE,
};
use crate::history::{
    any_address, random_address, random_history, random_images, random_values, word_and_hex,
    Command, Script, ADDRESSES, SLOTS,
};
use crate::listing::listing;
use crate::moving::{gathering, placing, REGISTER_IMAGE, UPPER_IMAGE};
use crate::needing::needs_stack;
use crate::notation::{self, description};
use crate::places::{accepted, layout, Place, Placement};
use crate::random::Random;
use crate::refusal::Told;
use crate::returning::{putting, taking, value_length, RETURN_IMAGE, RETURN_UPPER};
use crate::station::Station;
use crate::texts;
use crate::tidying::{tidy, tidying};
use crate::types::{asked, run_range};
use crate::units::Bytes;
use crate::untidy::{differing, scrambled};
use crate::walk::Walk;
use std::fmt::Display;

/// One file pair.
pub struct Pair {
    pub name: &'static str,
    pub input: Vec<u8>,
    pub output: String,
    pub records: usize,
}

/// Collects the records of one pair.
struct Writer {
    pair: Pair,
}

impl Writer {
    fn new(name: &'static str) -> Writer {
        let pair = Pair { name, input: Vec::new(), output: String::new(), records: 0 };
        Writer { pair }
    }

    fn part(&mut self, part: &[u8]) {
        self.pair.input.extend((part.len() as u16).to_le_bytes());
        self.pair.input.extend(part);
    }
}

/// All eight pairs.
pub fn all_pairs(seed: u64) -> Vec<Pair> {
    let makers = [questions, layouts, moves, histories, listings, returns, tidies, texts];
    let numbered = makers.iter().enumerate();
    let made = numbered.map(|(index, make)| {
        let mut random = Random::new(seed.wrapping_add(index as u64));
        make(&mut random).pair
    });
    made.collect()
}

/// The cases of document 01, the aggregates that need thought and the vectors of 32
/// bytes, in both models, and those that need thought under ILP32.
fn printed_functions() -> Vec<Vec<u8>> {
    let texts = CASES.iter().map(|case| case.function).chain(THOUGHT).chain(WIDE);
    let mut all = in_both_models(texts.map(description).collect());
    all.extend(NARROW.iter().map(|text| description(text)));
    all
}

fn limits() -> Vec<Vec<u8>> {
    in_both_models(generator::limits().into_iter().map(|(_, bytes)| bytes).collect())
}

fn towers() -> Vec<Vec<u8>> {
    generator::towers().into_iter().map(|(_, bytes)| bytes).collect()
}

// ---- questions

fn questions(random: &mut Random) -> Writer {
    let mut writer = Writer::new("questions");
    for bytes in in_both_models((0..=16).map(returned_basic).collect()) {
        ask(&mut writer, &bytes, 0);
    }
    for bytes in printed_functions() {
        ask_most(random, &mut writer, &bytes, 3);
    }
    for bytes in limits().iter().chain(&towers()) {
        ask_most(random, &mut writer, bytes, 1);
    }
    for refusals in refusals_and_pairs() {
        let bytes = damaged(random, &refusals);
        ask_most(random, &mut writer, &bytes, 1);
    }
    for _ in 0..88 {
        let bytes = random_description(random, SMALL);
        ask_most(random, &mut writer, &bytes, 2);
    }
    for _ in 0..8 {
        let bytes = random_description(random, MIDDLE);
        ask_most(random, &mut writer, &bytes, 4);
    }
    for one in broken() {
        ask(&mut writer, &one.bytes, 0);
        ask(&mut writer, &one.bytes, 255);
    }
    for _ in 0..20 {
        let bytes = random_broken(random);
        ask_most(random, &mut writer, &bytes, 1);
    }
    writer
}

/// A function that returns a basic type.
fn returned_basic(code: u8) -> Vec<u8> {
    let mut draft = Draft::new();
    draft.returned = draft.basic(code);
    draft.bytes()
}

/// The newest types and one at random; now and then T and 255.
fn ask_most(random: &mut Random, writer: &mut Writer, bytes: &[u8], count: usize) {
    let types = bytes.get(5).copied().unwrap_or(0);
    for back in 1..=count {
        ask(writer, bytes, types.wrapping_sub(back as u8));
    }
    if random.one_in(3) {
        ask(writer, bytes, random.below(types.max(1) as usize) as u8);
    }
    if random.one_in(8) {
        ask(writer, bytes, random.choose(&[types, 255, 64, 254]));
    }
}

fn ask(writer: &mut Writer, bytes: &[u8], type_number: u8) {
    writer.part(bytes);
    writer.pair.input.push(type_number);
    writer.pair.output.push_str(&question_line(bytes, type_number));
    writer.pair.records += 1;
}

pub fn question_line(bytes: &[u8], type_number: u8) -> String {
    let types = match asked(bytes, type_number) {
        Ok(types) => types,
        Err(refusal) => return format!("refused {}\n", Told::from(refusal)),
    };
    let measure = types.measure(type_number);
    let classes = classes_of(&types, type_number).map(|class| class.name());
    let run = run_range(bytes, type_number);
    let run_text = match run.is_empty() {
        true => "none".to_string(),
        false => {
            let members = words(bytes[run.clone()].iter());
            let offsets = words(types.member_offsets(type_number).iter().map(|offset| offset.0));
            format!("{} part{members} offsets{offsets}", run.start)
        }
    };
    format!(
        "size {} align {} classes {} run {run_text}\n",
        measure.size.0,
        measure.alignment.0,
        classes.join(" ")
    )
}

/// Each number with a blank before it.
fn words<T: Display>(numbers: impl Iterator<Item = T>) -> String {
    numbers.map(|number| format!(" {number}")).collect()
}

// ---- layouts

/// Where the first argument on the stack is the first, the last or none; with a hidden
/// address; and with an area that is too large.
const NEEDS: [&str; 8] = [
    "void: long_double, int, double",
    "void: long, long, long, long, long, long, double",
    "void: long, long, long, long, long, long, long",
    "void: double, double, double, double, double, double, double, double, ..., double, long",
    "struct{char[17]}: int128, int128, long",
    "struct{char[17]}: int128, int128, int128, long",
    "void: int, struct{char[4096]}, struct{char[4096]}, struct{char[4096]}, struct{char[4096]}, int128, long_double",
    "void: struct{long[2]}, struct{long[2]}, long, struct{long[2]}, long",
];

fn layouts(random: &mut Random) -> Writer {
    let mut writer = Writer::new("layouts");
    for bytes in in_both_models(vec![bytes_of_hex(LISTER)]) {
        lay_out(&mut writer, &bytes, 64);
    }
    for bytes in printed_functions() {
        lay_out(&mut writer, &bytes, 64);
    }
    for bytes in limits().iter().chain(&towers()) {
        lay_out(&mut writer, bytes, 255);
    }
    for bytes in in_both_models(NEEDS.iter().map(|text| description(text)).collect()) {
        lay_out(&mut writer, &bytes, 64);
    }
    for lent in [0, 1, 4, 5, 6, 255] {
        lay_out(&mut writer, &bytes_of_hex(LISTER), lent);
        lay_out(&mut writer, &Draft::new().bytes(), lent);
    }
    for refusals in refusals_and_pairs() {
        for _ in 0..2 {
            let bytes = damaged(random, &refusals);
            let lent = random.choose(&[0, 64, 255]);
            lay_out(&mut writer, &bytes, lent);
        }
    }
    for index in 0..270 {
        let shape = if index % 23 == 0 { MIDDLE } else { SMALL };
        let bytes = random_description(random, shape);
        let lent = if random.one_in(10) { random.below(bytes[8] as usize + 1) } else { 64 };
        lay_out(&mut writer, &bytes, lent as u8);
    }
    for _ in 0..4 {
        let bytes = random_description(random, LARGE);
        lay_out(&mut writer, &bytes, 64);
    }
    for one in broken() {
        lay_out(&mut writer, &one.bytes, 64);
        lay_out(&mut writer, &one.bytes, 0);
    }
    for _ in 0..20 {
        let bytes = random_broken(random);
        lay_out(&mut writer, &bytes, 64);
    }
    writer
}

fn empty_placement() -> Placement {
    let place = Place::Stack(Bytes(0));
    let value = Bytes(0);
    Placement { type_number: 0, size: Bytes(0), alignment: Bytes(0), place, value, named: false }
}

fn lay_out(writer: &mut Writer, bytes: &[u8], lent: u8) {
    writer.part(bytes);
    writer.pair.input.push(lent);
    writer.pair.output.push_str(&layout_text(bytes, lent));
    writer.pair.records += 1;
}

pub fn layout_text(bytes: &[u8], lent: u8) -> String {
    let mut list = vec![empty_placement(); lent as usize];
    let laid = match layout(bytes, &mut list) {
        Ok(layout) => format!(
            "{}values {} align {}\n",
            listing(bytes),
            layout.values_length(),
            layout.area_alignment.0
        ),
        Err(refusal) => format!("refused {}\n", Told::from(refusal)),
    };
    laid + &need_text(bytes)
}

/// Whether the stack is needed, and the arguments looked at.
fn need_text(bytes: &[u8]) -> String {
    match needs_stack(bytes) {
        Ok(need) => format!("needs {} {}\n", if need.needed { "yes" } else { "no" }, need.looked),
        Err(refusal) => format!("refused {}\n", Told::from(refusal)),
    }
}

// ---- moves

/// One record of the moves.
#[derive(Clone)]
struct Move {
    description: Vec<u8>,
    hidden_address: u64,
    values: Vec<u8>,
    registers: Vec<u8>,
    upper: Vec<u8>,
    stack: Vec<u8>,
    out: u16,
}

fn moves(random: &mut Random) -> Writer {
    let mut writer = Writer::new("moves");
    for one in printed_moves() {
        add_move(&mut writer, &one);
    }
    let lister = right_move(random, &bytes_of_hex(LISTER));
    for one in wrong_lengths(&lister) {
        add_move(&mut writer, &one);
    }
    for one in address_moves() {
        add_move(&mut writer, &one);
    }
    for bytes in printed_functions() {
        let one = right_move(random, &bytes);
        add_move(&mut writer, &one);
    }
    for refusals in refusals_and_pairs().iter().take(10) {
        let bytes = damaged(random, refusals);
        add_move(&mut writer, &move_for(&bytes, vec![1; 4], 0xFF, 0, 4));
    }
    add_move(&mut writer, &right_move(random, &description("void: int, struct{char[4096]}")));
    for _ in 0..55 {
        let bytes = move_description(random);
        let one = right_move(random, &bytes);
        add_move(&mut writer, &one);
    }
    for _ in 0..25 {
        let one = spoilt_move(random);
        add_move(&mut writer, &one);
    }
    for one in broken() {
        add_move(&mut writer, &move_for(&one.bytes, vec![1; 8], 0xFF, 0, 8));
    }
    writer
}

/// Small ones only, so that the file stays small.
fn move_description(random: &mut Random) -> Vec<u8> {
    let shape = Shape { most_types: 8, most_arguments: 9, most_members: 4, largest: 40 };
    loop {
        let bytes = random_description(random, shape);
        if accepted(&bytes).is_ok_and(|accepted| accepted.layout.area.0 <= 128) {
            return bytes;
        }
    }
}

fn move_for(bytes: &[u8], values: Vec<u8>, filling: u8, area: usize, out: u16) -> Move {
    Move {
        description: bytes.to_vec(),
        hidden_address: 0x1122_3344_5566_7788,
        values,
        registers: vec![filling; REGISTER_IMAGE],
        upper: vec![filling; UPPER_IMAGE],
        stack: vec![filling; area],
        out,
    }
}

/// Right lengths, random values, images full of rubbish.
fn right_move(random: &mut Random, bytes: &[u8]) -> Move {
    let accepted = accepted(bytes).expect("a move for an accepted description");
    let values = random_values(random, bytes);
    Move {
        description: bytes.to_vec(),
        hidden_address: random_address(random, bytes),
        out: values.len() as u16,
        values,
        registers: random.bytes(REGISTER_IMAGE),
        upper: random.bytes(UPPER_IMAGE),
        stack: random.bytes(accepted.layout.area.0),
    }
}

/// A move for the text of a function, with these values and images of FF.
fn printed_move(text: &str, values: &[u8]) -> Move {
    let bytes = description(text);
    let accepted = accepted(&bytes).expect("printed moves are accepted");
    let out = accepted.layout.values_length() as u16;
    move_for(&bytes, values.to_vec(), 0xFF, accepted.layout.area.0, out)
}

/// Moves whose answers a reader can check.
fn printed_moves() -> Vec<Move> {
    let counted: Vec<u8> = (1..=48).collect();
    let mut tail = counted[..10].to_vec();
    tail.extend([0xAA; 6]);
    let mut wrong_bool = printed_move("void: bool, int", &[2, 1, 2, 3, 4]);
    wrong_bool.values.push(9);
    let mut gathered_bool = printed_move("void: bool, char", &[2, 1]);
    gathered_bool.registers.fill(7);
    vec![
        printed_move("void: struct{float, struct{float, int}}", &counted[..12]),
        printed_move("void: struct{double, int}", &counted[..16]),
        printed_move("void: struct{float, float, int}", &counted[..12]),
        printed_move("void: struct{char[3]}", &counted[..3]),
        printed_move("void: struct{char[11]}", &counted[..11]),
        printed_move("void: m128", &counted[..16]),
        printed_move("void: float128, m128", &counted[..32]),
        printed_move("void: long_double", &tail),
        printed_move("void: complex_long_double", &counted[..32]),
        printed_move("void:", &[]),
        printed_move("void: int", &counted[..4]),
        printed_move("void: bool", &[2]),
        printed_move("void: bool", &[1]),
        printed_move("void: bool", &[0]),
        printed_move("void: char, bool, bool", &[200, 1, 255]),
        printed_move("void: struct{bool}, union{bool, char}", &[2, 255]),
        printed_move("void: struct{bool[3]}", &[2, 3, 255]),
        wrong_bool,
        gathered_bool,
        printed_move("struct{char[17]}: int", &counted[..4]),
        printed_move("struct{char[16]}: int", &counted[..4]),
        printed_move("complex_long_double: int", &counted[..4]),
        printed_move("struct{complex_long_double}: bool", &[3]),
        printed_move(
            "void: long, long, long, long, long, struct{double, long}",
            &counted[..48].repeat(2)[..56],
        ),
        printed_move("void: m256", &counted[..32]),
        printed_move("void: double, struct{m256}, float", &counted[..44]),
        printed_move("void: union{m256, long}, char", &counted[..33]),
        printed_move("void: int, ..., m256", &counted[..36]),
        printed_move("union{m256, long}: m256, long_double", &counted[..48]),
    ]
}

/// Addresses on both sides of 2^32, with right values, with a wrong _Bool and with
/// a wrong length: 11, 27, 12 in this order, and 27 only under ILP32 and only where
/// the address is in use. What is gathered is all of rdi, also from images that
/// nothing was placed in.
fn address_moves() -> Vec<Move> {
    let mut all = Vec::new();
    for text in ["struct{char[17]}: bool, pointer", "int: bool, pointer"] {
        for bytes in in_both_models(vec![description(text)]) {
            let length = accepted(&bytes).expect("printed").layout.values_length();
            for (first, length) in [(1, length), (2, length), (2, length + 1)] {
                for hidden_address in ADDRESSES {
                    let values = [&[first][..], &vec![0xFF; length - 1]].concat();
                    let one = move_for(&bytes, values, 0xFF, 0, length as u16);
                    all.push(Move { hidden_address, ..one });
                }
            }
        }
    }
    all
}

/// Every wrong length of a right move, one at a time and all together.
fn wrong_lengths(right: &Move) -> Vec<Move> {
    let mut all = vec![right.clone()];
    for longer in [false, true] {
        for which in 0..5 {
            let mut one = right.clone();
            match which {
                0 => resize(&mut one.values, longer),
                1 => resize(&mut one.registers, longer),
                2 => resize(&mut one.upper, longer),
                3 => resize(&mut one.stack, longer),
                _ => one.out = if longer { one.out + 1 } else { one.out - 1 },
            }
            all.push(one);
        }
    }
    let mut empty = right.clone();
    empty.values.clear();
    empty.registers.clear();
    empty.upper.clear();
    empty.stack.clear();
    empty.out = 0;
    all.push(empty);
    // An upper image that nothing uses is lent all the same.
    for length in [0, 64, 112, 176] {
        let mut one = right.clone();
        one.upper.resize(length, 0xFF);
        all.push(one);
    }
    let mut nothing = printed_move("void:", &[]);
    nothing.stack = vec![0xFF];
    all.push(nothing.clone());
    nothing.stack.clear();
    nothing.out = 1;
    all.push(nothing);
    all
}

fn resize(bytes: &mut Vec<u8>, longer: bool) {
    if longer {
        bytes.push(0x5A);
    } else {
        bytes.pop();
    }
}

/// A random move with one length, one _Bool or the address wrong.
fn spoilt_move(random: &mut Random) -> Move {
    let text = "int: bool, struct{bool, float}, long, bool, m128, int";
    let bytes = if random.one_in(2) { description(text) } else { move_description(random) };
    let mut one = right_move(random, &bytes);
    match random.below(9) {
        0 => one.out += 1,
        7 => one.hidden_address = any_address(random),
        1 => one.stack.push(1),
        2 => one.registers.truncate(random.below(176)),
        3 => one.values.push(random.byte()),
        4 => one.out = 0,
        5 => one.upper.truncate(random.below(UPPER_IMAGE)),
        _ => {
            for value in one.values.iter_mut() {
                *value |= 2;
            }
        }
    }
    one
}

fn add_move(writer: &mut Writer, one: &Move) {
    writer.part(&one.description);
    writer.pair.input.extend(one.hidden_address.to_le_bytes());
    writer.part(&one.values);
    writer.part(&one.registers);
    writer.part(&one.upper);
    writer.part(&one.stack);
    writer.pair.input.extend(one.out.to_le_bytes());
    writer.pair.output.push_str(&move_text(one));
    writer.pair.records += 1;
}

fn move_text(one: &Move) -> String {
    let mut registers = one.registers.clone();
    let mut upper = one.upper.clone();
    let mut stack = one.stack.clone();
    let placed = placing(
        &one.description,
        one.hidden_address,
        &one.values,
        &mut registers,
        &mut upper,
        &mut stack,
    );
    let mut values = vec![0xEE; one.out as usize];
    let gathered = gathering(&one.description, &registers, &upper, &stack, &mut values);
    let first = match placed {
        Ok(count) => format!("placed {}", count.0),
        Err(refusal) => format!("refused {}", Told::from(refusal)),
    };
    let second = match gathered {
        Ok(hidden_address) => format!("gathered {hidden_address}"),
        Err(refusal) => format!("refused {}", Told::from(refusal)),
    };
    format!(
        "{first}\n{}\n{}\n{}\n{second}\n{}\n",
        word_and_hex("registers", &registers),
        word_and_hex("upper", &upper),
        word_and_hex("stack", &stack),
        word_and_hex("values", &values)
    )
}

// ---- histories

fn histories(random: &mut Random) -> Writer {
    let mut writer = Writer::new("histories");
    let mut script = Script::new();
    printed_histories(random, &mut script);
    for _ in 0..30 {
        random_history(random, &mut script, 26);
    }
    for (command, line) in script.commands.iter().zip(&script.lines) {
        command.encode(&mut writer.pair.input);
        writer.pair.output.push_str(line);
        writer.pair.output.push('\n');
        writer.pair.records += 1;
    }
    writer
}

/// Histories that the paper speaks of.
fn printed_histories(random: &mut Random, script: &mut Script) {
    for function in walked_functions() {
        script.add(Command::Reset);
        script.add(Command::FillSeat(0x5A));
        script.attach(random, &function);
        script.walk_whole(0);
        script.add(Command::Detach);
    }
    long_then_short(random, script);
    earlier_attachment(random, script);
    records_by_hand(random, script);
    plain_function(random, script);
    last_numbers(random, script);
    changed_modules(random, script);
    last_numbers_changed(random, script);
    finished_walks(random, script);
    wrong_rests(random, script);
    rests_by_hand(random, script);
    rests_of_a_plain_function(random, script);
    rests_and_other_modules(random, script);
    spoilt_seats(random, script);
    wrong_lengths_in_order(random, script);
    models_in_the_seat(random, script);
    for one in broken() {
        types_broken_in_the_seat(script, &one.bytes);
    }
}

fn walked_functions() -> Vec<Vec<u8>> {
    let texts = [
        "void: int, double, ..., int, long_double, double",
        "struct{char[17]}: ..., int, struct{double, double}, struct{long, float}, int128",
        "void: long, long, long, long, long, long, long, ..., int128, long, m128, long",
        "void: long, long, long, long, long, ..., struct{double, long}, struct{long, double}",
        "void: long, long, long, long, long, ..., struct{long, double}, double",
        "void: long, long, long, long, long, ..., int128, int, double, struct{long, long}, long",
        "void: double, double, double, double, double, double, double, ..., complex_double, \
         double, double, int, float128, struct{char[3]}",
        "void: ..., m128, float128, complex_float, m64, struct{float, float, float}, pointer",
        "void: int, ..., complex_long_double, struct{char[20]}, struct{char[5]}, long_double, int",
        "void: ..., struct{float, struct{float, int}}, union{m128, long}, struct{int[3]}",
        "void: int, ...",
    ];
    let texts = texts.into_iter().chain(WIDE.into_iter().filter(|text| text.contains("...")));
    let mut all = vec![bytes_of_hex(LISTER)];
    all.extend(texts.map(description));
    let mut all = in_both_models(all);
    let narrow = NARROW.iter().filter(|text| text.contains("..."));
    all.extend(narrow.map(|text| description(text)));
    all
}

/// A long description, then a short one, in the same seat.
fn long_then_short(random: &mut Random, script: &mut Script) {
    let mut long = notation::draft("void: int, ..., double, long");
    long.members = vec![1; 255];
    while long.bytes().len() < 400 {
        long.record(0, 4, 0);
    }
    long.members.truncate(255 - (long.bytes().len() - 400));
    let short = description("void: int, ..., long, double");
    assert!(long.bytes().len() == 400 && short.len() <= 30);
    script.add(Command::Reset);
    script.add(Command::FillSeat(0xC3));
    for bytes in [long.bytes(), short, long.bytes()] {
        script.attach(random, &bytes);
        script.walk_whole(1);
        script.add(Command::Detach);
    }
}

/// "A walk opened under an earlier attachment is refused": 13 after a detach,
/// 17 after the same bytes are attached again; a refused attach changes nothing.
fn earlier_attachment(random: &mut Random, script: &mut Script) {
    let first = description("void: int, ..., long, double, long");
    let second = description("void: double, ..., double, long");
    script.add(Command::Reset);
    script.attach(random, &first);
    script.add(Command::Open { slot: 0 });
    script.step_right(0);
    script.add(Command::Attach(second.clone()));
    script.add(Command::Attach(vec![1, 2, 3]));
    script.step_right(0);
    script.add(Command::Detach);
    script.add(Command::Detach);
    script.step_right(0);
    script.add(Command::Attach(vec![1, 2, 3]));
    script.step_right(0);
    script.attach(random, &first);
    script.step_right(0);
    script.add(Command::Open { slot: 1 });
    script.step_right(1);
    script.add(Command::Detach);
    script.attach(random, &second);
    script.step_right(1);
    script.step_right(0);
    script.walk_whole(1);
}

/// Records made by hand for the lister's case: the walk there is opened as `right`.
fn lister_records(right: Walk) -> [Walk; 15] {
    let end = Walk { position: 5, gp_offset: 32, fp_offset: 80, ..right };
    [
        right,
        end,
        Walk { gp_offset: 16, ..end },
        Walk { number: 2, ..end },
        Walk { number: 2, position: 99, ..right },
        Walk { position: 2, overflow: 0, ..right },
        Walk { position: 6, ..end },
        Walk { position: u64::MAX, ..right },
        Walk { position: 1 << 32 | 3, ..right },
        Walk { gp_offset: 1 << 32 | 16, ..right },
        Walk { fp_offset: 48, ..right },
        Walk { overflow: 8, ..right },
        Walk { position: 4, fp_offset: 80, ..right },
        Walk { position: 4, ..right },
        Walk { fp_offset: 304, ..right },
    ]
}

/// 17, 18, 19 and 20 in their order, on records made by hand.
fn records_by_hand(random: &mut Random, script: &mut Script) {
    script.add(Command::Reset);
    script.attach(random, &bytes_of_hex(LISTER));
    script.add(Command::Open { slot: 0 });
    for walk in lister_records(script.scene.walks[0]) {
        script.add(Command::WalkByHand { slot: 2, walk });
        for (asked, out) in [(2, 8), (1, 7), (5, 16), (255, 8), (1, 8)] {
            script.add(Command::Show { slot: 2, asked });
            script.add(Command::Number { slot: 2, asked });
            script.add(Command::Step { slot: 2, asked, out });
        }
    }
}

/// Open is 16 on a plain function; a step there is 17, 18 or 19, never 16.
fn plain_function(random: &mut Random, script: &mut Script) {
    script.add(Command::Reset);
    script.attach(random, &description("void: int, double"));
    script.add(Command::Open { slot: 0 });
    let end = Walk { number: 1, position: 2, gp_offset: 8, fp_offset: 64, overflow: 0 };
    let records = [
        Walk::default(),
        end,
        Walk { overflow: 8, ..end },
        Walk { position: 1, fp_offset: 48, ..end },
        Walk { number: 0, ..end },
    ];
    for walk in records {
        script.add(Command::WalkByHand { slot: 0, walk });
        script.step_right(0);
        script.add(Command::Step { slot: 0, asked: 0, out: 4 });
    }
}

/// "Attach at number 4,294,967,294 passes once."
fn last_numbers(random: &mut Random, script: &mut Script) {
    let good = description("void: int, ..., long, double");
    for number in [u32::MAX - 2, u32::MAX - 1, u32::MAX] {
        for attached in [false, true] {
            script.add(Command::Reset);
            script.add(Command::StationByHand(Station { attached, length: 0, number }));
            script.attach(random, &good);
            script.add(Command::Attach(vec![]));
            script.walk_whole(0);
            script.add(Command::Detach);
            script.add(Command::Attach(vec![]));
            script.attach(random, &good);
            script.walk_whole(0);
        }
    }
}

/// Request 2026-09: a refused change where nothing is attached, one where
/// something is, one under 11, and what becomes of the walks.
fn changed_modules(random: &mut Random, script: &mut Script) {
    let first = description("void: int, ..., long, double, long");
    let second = description("void: double, ..., double, long");
    script.add(Command::Reset);
    script.add(Command::FillSeat(0x5A));
    script.add(Command::Change(vec![1, 2, 3]));
    script.add(Command::Change(vec![]));
    script.change(random, &first);
    script.add(Command::Open { slot: 0 });
    script.step_right(0);
    for seat in [0, 585, 587] {
        script.add(Command::SeatLength(seat));
        script.add(Command::Change(second.clone()));
        script.add(Command::Change(vec![1, 2, 3]));
    }
    script.add(Command::SeatLength(586));
    script.step_right(0);
    script.change(random, &second);
    script.step_right(0);
    script.walk_whole(1);
    script.add(Command::Change(vec![1, 2, 3]));
    script.step_right(1);
    script.add(Command::Detach);
    script.add(Command::FillSeat(0xC3));
    script.add(Command::Change(vec![1, 2, 3]));
    script.step_right(1);
    script.change(random, &second);
    script.step_right(1);
    script.walk_whole(2);
    script.change(random, &second);
    script.step_right(2);
    script.add(Command::Open { slot: 3 });
    for one in broken() {
        script.add(Command::Change(one.bytes));
        script.step_right(3);
        script.change(random, &first);
        script.add(Command::Open { slot: 3 });
    }
}

/// The last numbers by changes: 15 comes before 1 to 10, and what was attached
/// has left.
fn last_numbers_changed(random: &mut Random, script: &mut Script) {
    let good = description("void: int, ..., long, double");
    for number in [u32::MAX - 2, u32::MAX - 1, u32::MAX] {
        for attached in [false, true] {
            for length in [0, 586, 587] {
                script.add(Command::Reset);
                script.add(Command::FillSeat(0x5A));
                script.add(Command::StationByHand(Station { attached, length, number }));
                script.add(Command::Change(vec![]));
                script.add(Command::StationByHand(Station { attached, length, number }));
                script.change(random, &good);
                script.walk_whole(0);
                script.add(Command::Change(vec![]));
                script.change(random, &good);
                script.walk_whole(0);
            }
        }
    }
}

/// Request 2026-05, from each position of a walk: some steps, then all the rest; at
/// the end there is none, and no types are asked.
fn finished_walks(random: &mut Random, script: &mut Script) {
    for function in walked_functions() {
        script.add(Command::Reset);
        script.attach(random, &function);
        for steps in 0..=function[8] - function[7] {
            let slot = steps % SLOTS as u8;
            script.add(Command::Open { slot });
            for _ in 0..steps {
                let (asked, out) = script.next_type(slot).expect("before the end");
                script.add(Command::Step { slot, asked, out });
            }
            script.finish_right(slot);
        }
        script.step_right(0);
        script.finish_right(0);
        script.add(Command::Finish { slot: 0, asked: vec![0], out: 0 });
    }
}

/// One type too few, one too many, each type wrong, wrong lengths of stack image and
/// out buffer, and two of these at once: 24 before 20, and 20, of whichever type,
/// before the late 11.
fn wrong_rests(random: &mut Random, script: &mut Script) {
    let function = description("void: int, ..., long, long_double, double");
    let (registers, stack) = random_images(random, &function);
    script.add(Command::Reset);
    script.add(Command::Attach(function));
    script.add(Command::Registers(registers));
    script.add(Command::Open { slot: 0 });
    for _ in 0..4 {
        let (asked, out) = script.rest(0);
        for area in [stack.len(), stack.len() - 1, stack.len() + 1, 0] {
            let mut image = stack.clone();
            image.resize(area, 0xA5);
            script.add(Command::Stack(image));
            for out in [out + 1, out.saturating_sub(1), 0] {
                for asked in wrong_lists(&asked) {
                    script.add(Command::Finish { slot: 0, asked, out });
                }
                script.add(Command::Finish { slot: 0, asked: asked.clone(), out });
            }
            script.add(Command::WalkByHand { slot: 1, walk: script.scene.walks[0] });
            script.finish_right(1);
        }
        script.add(Command::Stack(stack.clone()));
        for asked in wrong_lists(&asked) {
            script.add(Command::Finish { slot: 0, asked, out });
        }
        if let Some((asked, out)) = script.next_type(0) {
            script.add(Command::Step { slot: 0, asked, out });
        }
    }
    script.finish_right(0);
}

/// Lists that are not those of the types that remain.
fn wrong_lists(right: &[u8]) -> Vec<Vec<u8>> {
    let mut lists = vec![[right, &[0]].concat(), [&[0], right].concat(), vec![255; 65]];
    for (at, &one) in right.iter().enumerate() {
        let mut wrong = right.to_vec();
        wrong[at] = one ^ 1;
        lists.push(wrong);
    }
    if let [_, rest @ ..] = right {
        lists.extend([rest.to_vec(), right[..rest.len()].to_vec(), vec![255; right.len()]]);
    }
    lists
}

/// 17, 18, 24 and 20 in their order, on records made by hand; 19 never.
fn rests_by_hand(random: &mut Random, script: &mut Script) {
    script.add(Command::Reset);
    script.attach(random, &bytes_of_hex(LISTER));
    script.add(Command::Open { slot: 0 });
    let questions: [(&[u8], u16); 8] = [
        (&[], 0),
        (&[1], 8),
        (&[5], 16),
        (&[5, 1], 24),
        (&[1, 5, 0], 24),
        (&[], 1),
        (&[1, 5], 23),
        (&[1, 5], 24),
    ];
    for walk in lister_records(script.scene.walks[0]) {
        for (asked, out) in questions {
            script.add(Command::WalkByHand { slot: 2, walk });
            script.add(Command::Finish { slot: 2, asked: asked.to_vec(), out });
        }
    }
}

/// A plain function's one record is at A: no types are accepted there, which moves
/// nothing, where the stack image is right and the out buffer empty.
fn rests_of_a_plain_function(random: &mut Random, script: &mut Script) {
    for (text, end) in [
        (
            "void: int, double",
            Walk { number: 1, position: 2, gp_offset: 8, fp_offset: 64, overflow: 0 },
        ),
        (
            "void: long_double",
            Walk { number: 1, position: 1, gp_offset: 0, fp_offset: 48, overflow: 16 },
        ),
        ("void:", Walk { number: 1, position: 0, gp_offset: 0, fp_offset: 48, overflow: 0 }),
    ] {
        script.add(Command::Reset);
        script.attach(random, &description(text));
        script.add(Command::Open { slot: 0 });
        let area = script.scene.stack.len();
        let records = [
            Walk::default(),
            end,
            Walk { overflow: end.overflow + 8, ..end },
            Walk { gp_offset: end.gp_offset + 8, ..end },
            Walk { position: end.position + 1, ..end },
            Walk { position: end.position.wrapping_sub(1), ..end },
            Walk { number: 0, ..end },
        ];
        for stack in [area, area + 1, area + 16, 0] {
            script.add(Command::Stack(vec![0x5A; stack]));
            for walk in records {
                script.add(Command::WalkByHand { slot: 0, walk });
                for (asked, out) in [(vec![], 0), (vec![], 1), (vec![0], 4)] {
                    script.add(Command::Finish { slot: 0, asked, out });
                }
            }
        }
    }
}

/// All the rest of a walk whose module has left: 13, then 17; and steps and rests of
/// several walks in turn, of which none knows of the others.
fn rests_and_other_modules(random: &mut Random, script: &mut Script) {
    let first = description("void: int, ..., long, double, long");
    let second = description("void: double, ..., double, long");
    script.add(Command::Reset);
    script.finish_right(0);
    script.attach(random, &first);
    for slot in 0..3 {
        script.add(Command::Open { slot });
    }
    script.step_right(1);
    script.finish_right(0);
    script.step_right(1);
    script.add(Command::Attach(second.clone()));
    script.finish_right(1);
    script.finish_right(0);
    script.step_right(1);
    script.add(Command::Detach);
    script.finish_right(2);
    script.finish_right(0);
    script.add(Command::Attach(vec![1, 2, 3]));
    script.finish_right(2);
    script.attach(random, &first);
    script.finish_right(2);
    script.finish_right(0);
    script.add(Command::Open { slot: 3 });
    script.finish_right(3);
    script.change(random, &second);
    script.finish_right(3);
    script.finish_right(2);
    script.walk_whole(3);
    script.finish_right(3);
}

/// Places in the lister's case, 42 bytes long, and what to spoil them with: mark,
/// version, T, byte 6, A, records, a member, arguments, return, a byte behind.
const SPOILS: [(u16, u8); 20] = [
    (0, 0),
    (3, 2),
    (5, 65),
    (6, 0),
    (6, 2),
    (6, 3),
    (6, 4),
    (6, 5),
    (6, 129),
    (7, 2),
    (8, 6),
    (11, 9),
    (16, 6),
    (23, 1),
    (23, 3),
    (35, 16),
    (37, 6),
    (40, 2),
    (9, 6),
    (42, 1),
];

/// Seats that no call would leave so: open and step read what is there.
fn spoilt_seats(random: &mut Random, script: &mut Script) {
    let good = bytes_of_hex(LISTER);
    for (index, value) in SPOILS {
        script.add(Command::Reset);
        script.attach(random, &good);
        script.add(Command::Open { slot: 0 });
        script.add(Command::Open { slot: 2 });
        script.add(Command::Spoil { index, value });
        script.add(Command::Open { slot: 1 });
        script.step_right(0);
        script.add(Command::Step { slot: 0, asked: 1, out: 8 });
        script.add(Command::Finish { slot: 2, asked: vec![], out: 0 });
        script.finish_right(2);
        script.add(Command::Detach);
    }
    for length in [0, 10, 11, 41, 42, 43, 586] {
        script.add(Command::Reset);
        script.attach(random, &good);
        script.add(Command::Open { slot: 0 });
        script.add(Command::StationByHand(Station { attached: true, length, number: 1 }));
        script.add(Command::Open { slot: 1 });
        script.add(Command::Finish { slot: 0, asked: vec![], out: 0 });
        script.add(Command::Step { slot: 0, asked: 1, out: 8 });
        script.add(Command::Detach);
    }
    area_grown_in_the_seat(script);
    type_grown_in_the_seat(script);
}

/// One long more in an array of 512, put into the seat by hand: 7 at open.
fn type_grown_in_the_seat(script: &mut Script) {
    let bytes = description("void: struct{long[512]}, ..., long");
    script.add(Command::Reset);
    script.add(Command::Attach(bytes));
    script.add(Command::Open { slot: 0 });
    // The array is type 1: its count stands at 2 and 3 of its record.
    script.add(Command::Spoil { index: 11 + 4 + 2, value: 1 });
    script.add(Command::Open { slot: 1 });
    script.add(Command::Registers(vec![0; REGISTER_IMAGE]));
    script.add(Command::Step { slot: 0, asked: 0, out: 8 });
    script.add(Command::Finish { slot: 0, asked: vec![0], out: 8 });
    script.add(Command::Show { slot: 0, asked: 0 });
    script.add(Command::Number { slot: 0, asked: 0 });
}

/// A description with broken types, which attach refuses; then the same with
/// these types mended, and broken by hand in the seat.
fn types_broken_in_the_seat(script: &mut Script, bytes: &[u8]) {
    script.add(Command::Reset);
    script.add(Command::Attach(bytes.to_vec()));
    let Some(whole) = wholly_mended(bytes) else {
        return;
    };
    script.add(Command::Attach(whole.clone()));
    script.add(Command::Registers(vec![0; REGISTER_IMAGE]));
    script.add(Command::Open { slot: 0 });
    for (index, (&value, &right)) in bytes.iter().zip(&whole).enumerate() {
        if value != right {
            script.add(Command::Spoil { index: index as u16, value });
        }
    }
    script.add(Command::Open { slot: 1 });
    script.add(Command::Show { slot: 0, asked: 0 });
    script.add(Command::Number { slot: 0, asked: 0 });
    script.add(Command::Step { slot: 0, asked: 0, out: 4 });
    script.add(Command::Finish { slot: 0, asked: vec![], out: 0 });
    script.add(Command::Attach(bytes.to_vec()));
    script.add(Command::Detach);
}

/// The other model, put into the seat by hand: the walk that was opened before has
/// offsets of the first model, and fits where no pointer was passed over.
fn models_in_the_seat(random: &mut Random, script: &mut Script) {
    for text in [
        "void: struct{pointer, pointer}, ..., pointer, int, struct{pointer, pointer}",
        "void: pointer, ..., pointer, struct{pointer, int}, pointer",
        "struct{pointer[3]}: int, ..., pointer, long",
    ] {
        for bytes in in_both_models(vec![description(text)]) {
            script.add(Command::Reset);
            script.attach(random, &bytes);
            script.add(Command::Open { slot: 0 });
            script.add(Command::Open { slot: 1 });
            script.step_right(1);
            script.add(Command::Spoil { index: 6, value: bytes[6] ^ ILP32 });
            script.walk_whole(2);
            script.add(Command::WalkByHand { slot: 3, walk: script.scene.walks[1] });
            script.finish_right(3);
            script.step_right(0);
            script.step_right(1);
            script.add(Command::Spoil { index: 6, value: bytes[6] });
            script.step_right(0);
            script.step_right(1);
            script.finish_right(0);
            script.finish_right(1);
        }
    }
}

/// A fifth block of 4,096 bytes, put into the seat by hand: 10 at open.
fn area_grown_in_the_seat(script: &mut Script) {
    let mut draft = Draft::new();
    let block = draft.block(4096);
    let long = draft.basic(4);
    draft.arguments(block, 4);
    draft.ellipsis();
    draft.argument(long);
    let bytes = draft.bytes();
    script.add(Command::Reset);
    script.add(Command::Attach(bytes.clone()));
    script.add(Command::Open { slot: 0 });
    script.add(Command::Spoil { index: (bytes.len() - 1) as u16, value: block });
    script.add(Command::Open { slot: 1 });
    script.add(Command::Registers(vec![0; REGISTER_IMAGE]));
    script.add(Command::Step { slot: 0, asked: block, out: 8 });
    script.add(Command::Finish { slot: 0, asked: vec![], out: 0 });
    script.add(Command::Number { slot: 0, asked: block });
}

/// Lengths of seat, station's description, register image and stack image: the
/// first are right for the lister's case.
const LENGTHS: [(u16, usize, usize, usize); 8] = [
    (586, 42, 176, 16),
    (585, 42, 176, 16),
    (587, 42, 176, 16),
    (586, 587, 176, 16),
    (586, 42, 175, 16),
    (586, 42, 176, 15),
    (586, 42, 176, 0),
    (586, 65535, 0, 0),
];

/// The early and the late 11, against everything between them.
fn wrong_lengths_in_order(random: &mut Random, script: &mut Script) {
    let good = bytes_of_hex(LISTER);
    let (registers, stack) = random_images(random, &good);
    for (seat, length, image, area) in LENGTHS {
        for attached in [true, false] {
            script.add(Command::Reset);
            script.add(Command::Attach(good.clone()));
            script.add(Command::Open { slot: 0 });
            script.add(Command::Registers(registers[..image].to_vec()));
            script.add(Command::Stack(stack[..area].to_vec()));
            script.add(Command::StationByHand(Station { attached, length, number: 1 }));
            script.add(Command::SeatLength(seat));
            every_call(script, &good);
        }
    }
}

fn every_call(script: &mut Script, description: &[u8]) {
    for (slot, asked, out) in [(0, 1, 8), (0, 1, 9), (0, 2, 9), (1, 1, 8)] {
        script.add(Command::Show { slot, asked });
        script.add(Command::Number { slot, asked });
        script.add(Command::Step { slot, asked, out });
    }
    let (types, bytes) = script.rest(0);
    for (slot, asked, out) in [
        (0, vec![1, 1], 24),
        (0, vec![1], 24),
        (1, vec![], 0),
        (0, types.clone(), 25),
        (0, types, bytes),
    ] {
        script.add(Command::Finish { slot, asked, out });
    }
    script.add(Command::Open { slot: 2 });
    script.add(Command::Attach(description.to_vec()));
    script.add(Command::Detach);
    script.add(Command::Attach(Vec::new()));
    script.add(Command::Change(description.to_vec()));
    script.add(Command::Change(Vec::new()));
}

// ---- listings

fn listings(random: &mut Random) -> Writer {
    let mut writer = Writer::new("listings");
    list(&mut writer, &[]);
    for bytes in in_both_models(vec![bytes_of_hex(LISTER)]) {
        list(&mut writer, &bytes);
    }
    let mut with_newline = bytes_of_hex(LISTER);
    with_newline.push(b'\n');
    list(&mut writer, &with_newline);
    for bytes in printed_functions() {
        list(&mut writer, &bytes);
    }
    for bytes in limits().iter().chain(&towers()) {
        list(&mut writer, bytes);
    }
    for refusals in refusals_and_pairs() {
        let bytes = damaged(random, &refusals);
        list(&mut writer, &bytes);
    }
    for _ in 0..60 {
        let bytes = random_description(random, SMALL);
        list(&mut writer, &bytes);
    }
    for bytes in in_both_models(broken().into_iter().map(|one| one.bytes).collect()) {
        list(&mut writer, &bytes);
    }
    for _ in 0..20 {
        let bytes = random_broken(random);
        list(&mut writer, &bytes);
    }
    writer
}

fn list(writer: &mut Writer, bytes: &[u8]) {
    writer.part(bytes);
    writer.pair.output.push_str(&listing(bytes));
    writer.pair.records += 1;
}

// ---- returns

/// One record of the returns.
#[derive(Clone)]
struct Return {
    description: Vec<u8>,
    hidden_address: u64,
    value: Vec<u8>,
    image: Vec<u8>,
    upper: Vec<u8>,
    out: u16,
}

fn returns(random: &mut Random) -> Writer {
    let mut writer = Writer::new("returns");
    for one in printed_returns() {
        add_return(&mut writer, &one);
    }
    for one in wrong_return_lengths() {
        add_return(&mut writer, &one);
    }
    for one in address_returns() {
        add_return(&mut writer, &one);
    }
    for bytes in printed_functions() {
        let one = right_return(random, &bytes);
        add_return(&mut writer, &one);
    }
    for refusals in refusals_and_pairs().iter().take(10) {
        let bytes = damaged(random, refusals);
        add_return(&mut writer, &return_for(&bytes, vec![1; 4]));
    }
    for index in 0..90 {
        let bytes = random_description(random, RETURNS);
        let mut one = right_return(random, &bytes);
        if index % 3 == 0 {
            spoil_return(random, &mut one);
        }
        add_return(&mut writer, &one);
    }
    for one in broken() {
        add_return(&mut writer, &return_for(&one.bytes, Vec::new()));
    }
    writer
}

/// Few arguments: it is the returned type that matters here.
const RETURNS: Shape = Shape { most_types: 9, most_arguments: 2, most_members: 4, largest: 40 };

/// With images of FF, and room for the same length.
fn return_for(bytes: &[u8], value: Vec<u8>) -> Return {
    Return {
        description: bytes.to_vec(),
        hidden_address: 0x1122_3344_5566_7788,
        out: value.len() as u16,
        value,
        image: vec![0xFF; RETURN_IMAGE],
        upper: vec![0xFF; RETURN_UPPER],
    }
}

/// Right lengths, a random value, images full of rubbish.
fn right_return(random: &mut Random, bytes: &[u8]) -> Return {
    let accepted = accepted(bytes).expect("a return for an accepted description");
    let value = random.bytes(value_length(&accepted));
    Return {
        hidden_address: random_address(random, bytes),
        image: random.bytes(RETURN_IMAGE),
        upper: random.bytes(RETURN_UPPER),
        ..return_for(bytes, value)
    }
}

/// Returns whose answers a reader can check: 1, 2, 3 .. as the value.
fn printed_returns() -> Vec<Return> {
    let counted: Vec<u8> = (1..=32).collect();
    let of = |function: &str, value: &[u8]| return_for(&description(function), value.to_vec());
    let mut all = vec![
        of("void:", &[]),
        of("bool:", &[0]),
        of("bool:", &[1]),
        of("bool:", &[2]),
        of("bool:", &[255]),
        of("struct{bool}:", &[2]),
        of("union{bool, char}:", &[255]),
        of("struct{char[17]}:", &[]),
        of("struct{bool[17]}: int", &[]),
        of("struct{complex_long_double}:", &[]),
        of("union{long_double, char}:", &[]),
    ];
    for bytes in in_both_models((1..=16).map(returned_basic).collect()) {
        let length = value_length(&accepted(&bytes).expect("a basic type"));
        all.push(return_for(&bytes, counted[..length].to_vec()));
    }
    for (function, length) in [
        ("struct{long_double}: struct{long_double}", 16),
        ("union{long_double, int128}:", 16),
        ("struct{double, long}:", 16),
        ("struct{long, double}:", 16),
        ("struct{float, float, int}:", 12),
        ("struct{int, float, float}:", 12),
        ("struct{char[3]}:", 3),
        ("struct{char[11]}:", 11),
        ("struct{float, float, float}:", 12),
        ("union{m128, struct{double, double}}:", 16),
        ("struct{m128}:", 16),
        ("struct{m256}:", 32),
        ("union{m256, double}:", 32),
        ("union{m256, double[4]}:", 0),
        ("struct{m256, m256}: m256", 0),
    ] {
        all.push(of(function, &counted[..length]));
    }
    all
}

/// Addresses on both sides of 2^32, with a right and with a wrong length: 11, then
/// 27 under ILP32 where the address is in use. What is taken is all of rax.
fn address_returns() -> Vec<Return> {
    let mut all = Vec::new();
    for text in ["struct{char[17]}: int", "union{long_double, pointer}:", "void: pointer"] {
        for bytes in in_both_models(vec![description(text)]) {
            for hidden_address in ADDRESSES {
                for value in [vec![], vec![1; 8]] {
                    all.push(Return { hidden_address, ..return_for(&bytes, value) });
                }
            }
        }
    }
    all
}

/// Every wrong length, one at a time, together with a _Bool that is wrong; and
/// values where there are none.
fn wrong_return_lengths() -> Vec<Return> {
    let mut all = Vec::new();
    for (function, value) in [
        ("bool:", vec![2]),
        ("long_double:", vec![7; 16]),
        ("void: int", vec![]),
        ("m256:", vec![7; 32]),
    ] {
        let right = return_for(&description(function), value);
        for longer in [false, true] {
            let mut one = right.clone();
            resize(&mut one.value, longer);
            all.push(one);
            let mut one = right.clone();
            resize(&mut one.image, longer);
            all.push(one);
            let mut one = right.clone();
            resize(&mut one.upper, longer);
            all.push(one);
            let mut one = right.clone();
            one.out = if longer { one.out + 1 } else { one.out.saturating_sub(1) };
            all.push(one);
        }
    }
    for function in ["void:", "struct{char[17]}:", "complex_long_double:"] {
        all.push(return_for(&description(function), vec![1; 17]));
        let mut empty = return_for(&description(function), Vec::new());
        empty.image.clear();
        all.push(empty);
        let mut empty = return_for(&description(function), Vec::new());
        empty.upper.clear();
        all.push(empty);
    }
    all
}

/// One length or the address wrong. Where it is the value's, nothing is put, and the value is
/// taken from rubbish.
fn spoil_return(random: &mut Random, one: &mut Return) {
    match random.below(8) {
        0 => one.out += 1,
        3 => one.upper.truncate(random.below(RETURN_UPPER)),
        2 => one.hidden_address = any_address(random),
        1 => one.image.truncate(random.below(RETURN_IMAGE)),
        _ => one.value.push(random.byte()),
    }
}

fn add_return(writer: &mut Writer, one: &Return) {
    writer.part(&one.description);
    writer.pair.input.extend(one.hidden_address.to_le_bytes());
    writer.part(&one.value);
    writer.part(&one.image);
    writer.part(&one.upper);
    writer.pair.input.extend(one.out.to_le_bytes());
    writer.pair.output.push_str(&return_text(one));
    writer.pair.records += 1;
}

fn return_text(one: &Return) -> String {
    let mut image = one.image.clone();
    let mut upper = one.upper.clone();
    let put = putting(&one.description, one.hidden_address, &one.value, &mut image, &mut upper);
    let mut value = vec![0xEE; one.out as usize];
    let taken = taking(&one.description, &image, &upper, &mut value);
    let first = match put {
        Ok(()) => "put".to_string(),
        Err(refusal) => format!("refused {}", Told::from(refusal)),
    };
    let second = match taken {
        Ok(hidden_address) => format!("taken {hidden_address}"),
        Err(refusal) => format!("refused {}", Told::from(refusal)),
    };
    let images = [word_and_hex("image", &image), word_and_hex("upper", &upper)].join("\n");
    format!("{first}\n{images}\n{second}\n{}\n", word_and_hex("value", &value))
}

// ---- tidies

fn tidies(random: &mut Random) -> Writer {
    let mut writer = Writer::new("tidies");
    let texts = THOUGHT.iter().chain(&WIDE);
    for bytes in in_both_models(texts.map(|text| description(text)).collect()) {
        add_tidy(&mut writer, &bytes);
    }
    for (_, bytes) in generator::limits().iter().chain(&generator::towers()) {
        add_tidy(&mut writer, bytes);
    }
    for bytes in in_both_models(one_run()) {
        add_tidy(&mut writer, &bytes);
        add_tidy_room(&mut writer, &bytes, 0);
    }
    for room in [0, 1, 10, 11, 12, 41, 42, 43, 600] {
        add_tidy_room(&mut writer, &bytes_of_hex(LISTER), room);
        add_tidy_room(&mut writer, &Draft::new().bytes(), room);
    }
    for refusals in refusals_and_pairs() {
        let bytes = damaged(random, &refusals);
        let room = random.choose(&[0, 11, 42, 586]);
        add_tidy_room(&mut writer, &bytes, room);
    }
    for one in broken() {
        add_tidy_room(&mut writer, &one.bytes, 40);
    }
    for index in 0..120 {
        let shape = if index % 20 == 0 { LARGE } else { MIDDLE };
        let bytes = random_description(random, shape);
        let other = scrambled(random, &bytes);
        add_tidy(&mut writer, &bytes);
        add_tidy(&mut writer, &other);
        if let Some(different) = differing(random, &bytes) {
            add_tidy(&mut writer, &different);
        }
        if random.one_in(6) {
            let room = tidy(&bytes).map_or(0, |tidied| tidied.len());
            add_tidy_room(&mut writer, &bytes, if random.one_in(2) { room + 1 } else { room - 1 });
        }
    }
    writer
}

/// 63 structs over one run of 255 members: all equal, each shorter by one, and as few as make
/// 255 and 256 separate members.
fn one_run() -> Vec<Vec<u8>> {
    let over = |counts: &[usize]| {
        let mut draft = Draft::new();
        let character = draft.basic(1);
        draft.members = vec![character; 255];
        for &count in counts {
            let type_number = draft.record(2, 0, count);
            draft.argument(type_number);
        }
        draft.bytes()
    };
    let shorter: Vec<usize> = (0..63).map(|index| 255 - index).collect();
    vec![
        over(&[255; 63]),
        over(&shorter),
        over(&[200, 55]),
        over(&[200, 56]),
        over(&[127, 128, 127]),
    ]
}

/// With a buffer of the right length; of 20 bytes where there is none.
fn add_tidy(writer: &mut Writer, bytes: &[u8]) {
    let room = tidy(bytes).map_or(20, |tidied| tidied.len());
    add_tidy_room(writer, bytes, room);
}

fn add_tidy_room(writer: &mut Writer, bytes: &[u8], room: usize) {
    writer.part(bytes);
    writer.pair.input.extend((room as u16).to_le_bytes());
    writer.pair.output.push_str(&tidy_text(bytes, room));
    writer.pair.records += 1;
}

pub fn tidy_text(bytes: &[u8], room: usize) -> String {
    let first = match tidy(bytes) {
        Ok(tidied) => format!("length {}", tidied.len()),
        Err(refusal) => format!("refused {}", Told::from(refusal)),
    };
    let mut out = vec![0xEE; room];
    let second = match tidying(bytes, &mut out) {
        Ok(()) => "tidy".to_string(),
        Err(refusal) => format!("refused {}", Told::from(refusal)),
    };
    format!("{first}\n{second}\n{}\n", word_and_hex("out", &out))
}

// ---- texts

/// Prototypes that need thought.
const PROTOTYPES: [&str; 44] = [
    "",
    " ",
    "double level(int key, struct { float a; int b; } p, ...);",
    "extern const char * const name(void)",
    "int()",
    "int (...)",
    "int f(int, ...)",
    "int f(int ...)",
    "int f(int, . . .)",
    "int f(....)",
    "int f(void, int)",
    "int f(void *)",
    "int f(void a)",
    "void",
    "void f(void) ;",
    "void f(void) ; ;",
    "unsigned long long int f(signed char c, short unsigned s)",
    "int long long unsigned f(char unsigned)",
    "int f(long long long, int)",
    "int f(long long longer, int)",
    "int f(short short)",
    "int f(unsigned float)",
    "int f(_Complex)",
    "int f(_Complex long double)",
    "int f(foo)",
    "int f(foo *p, bar **const q)",
    "int f(foo p)",
    "foo *f(void)",
    "foo f(void)",
    "int f(size_t n, uint32_t m, bool b)",
    "int f(unsigned size_t)",
    "int f(struct { int a[010]; } s)",
    "int f(struct { int a[0], b[65536], c[3][4]; } s)",
    "int f(struct { } s)",
    "int f(struct t s)",
    "int f(struct t *s, union { int a; } *p)",
    "int f(struct t { struct { char c; } inner; void (*done)(int); } s)",
    "int f(struct { int; } s)",
    "int f(struct { int a, *b, (*c)(void); } s)",
    "int f(struct { struct t *a, *b; } s)",
    "int f(int a[], int b[4][5], int [][2], int (*)(const void *, ...))",
    "int f(int a[][])",
    "int f(int /* frames */ n)",
    "int f(int a) int",
];

fn texts(random: &mut Random) -> Writer {
    let mut writer = Writer::new("texts");
    for start in [Start::Prototype, Start::Types] {
        for text in PROTOTYPES {
            add_text(&mut writer, text.as_bytes(), start);
        }
        for _ in 0..150 {
            let text = texts::grown(start, random);
            add_text(&mut writer, &text, start);
            let worse = texts::damaged(&text, random);
            add_text(&mut writer, &worse, start);
            let worst = texts::damaged(&worse, random);
            add_text(&mut writer, &worst, start);
            add_text(&mut writer, &texts::jumbled(random), start);
        }
    }
    for text in texts::extreme() {
        add_text(&mut writer, &text, Start::Prototype);
    }
    writer
}

/// A text's record.
pub fn text_part(text: &[u8], start: Start) -> Vec<u8> {
    let read_as = match start {
        Start::Prototype => 0,
        Start::Types => 1,
    };
    [&(text.len() as u16 + 1).to_le_bytes()[..], &[read_as], text].concat()
}

/// A text's line.
pub fn text_answer(text: &[u8], start: Start) -> String {
    match in_grammar(text, start) {
        _ if text.len() > LONGEST_TEXT => "too long".to_string(),
        Ok(()) => "accepted".to_string(),
        Err(place) => format!("refused at {place}"),
    }
}

fn add_text(writer: &mut Writer, text: &[u8], start: Start) {
    writer.pair.input.extend(text_part(text, start));
    writer.pair.output += &(text_answer(text, start) + "\n");
    writer.pair.records += 1;
}
