//! Every call about one description: the library's answer, and each byte that was lent, against the independent layout.

use crate::batch::{About, Batch, Code, Thing};
use crate::records::*;
use independent::classes::{classes_of, Class};
use independent::history::{any_address, random_values};
use independent::listing::listing;
use independent::moving::{gathering, placing, REGISTER_IMAGE, UPPER_IMAGE};
use independent::needing::needs_stack;
use independent::places::{self, accepted, Accepted, Place, Register, ReturnPlace, ReturnRegister};
use independent::random::Random;
use independent::refusal::{told, Refusal};
use independent::returning::{putting, taking, value_length, RETURN_IMAGE, RETURN_UPPER};
use independent::tidying::{tidy, tidying};
use independent::types::{asked, offsets, run_range};
use independent::units::Eightbytes;

pub fn ask(random: &mut Random, bytes: &[u8], batch: &mut Batch) {
    batch.about = About::Description(bytes.to_vec());
    batch.command(Code::Describe).part(bytes).buffer(Thing::Description, bytes);
    batch.command(Code::Check).told(places::check(bytes));
    end("cb_check", bytes, batch);
    ask_questions(random, bytes, batch);
    ask_layouts(random, bytes, batch);
    ask_need(bytes, batch);
    ask_listing(bytes, batch);
    ask_moves(random, bytes, batch);
    ask_returned(random, bytes, batch);
    ask_tidy(random, bytes, batch);
}

/// The description is lent to each call, which leaves it.
fn end(name: &'static str, bytes: &[u8], batch: &mut Batch) {
    batch.buffer(Thing::Description, bytes).end(name);
}

// ---- questions about one type

fn ask_questions(random: &mut Random, bytes: &[u8], batch: &mut Batch) {
    let count = bytes.get(5).copied().unwrap_or(0);
    for number in (0..count.min(64)).chain([count, 255, random.byte()]) {
        ask_question(bytes, number, batch);
        ask_offsets(random, bytes, number, batch);
    }
}

fn class_number(class: Class) -> u8 {
    match class {
        Class::NoClass => 0,
        Class::Integer => 1,
        Class::Sse => 2,
        Class::SseUp => 3,
        Class::X87 => 4,
        Class::X87Up => 5,
        Class::ComplexX87 => 6,
        Class::Memory => 7,
    }
}

fn ask_question(bytes: &[u8], number: u8, batch: &mut Batch) {
    let answer = asked(bytes, number);
    let refusal = told(&answer);

    let extent = answer.as_ref().map(|types| {
        let measure = types.measure(number);
        Extent { size: measure.size.0 as u64, align: measure.alignment.0 as u64 }
    });
    batch.command(Code::TypeExtent).byte(number).told(refusal);
    batch.record(Thing::Record, &left(Extent::FILLED, extent));
    end("cb_type_extent", bytes, batch);

    let classes = answer.as_ref().map(|types| {
        let [first, second, third, fourth] = classes_of(types, number).map(class_number);
        Classes { first, second, third, fourth }
    });
    batch.command(Code::TypeClasses).byte(number).told(refusal);
    batch.record(Thing::Record, &left(Classes::FILLED, classes));
    end("cb_type_classes", bytes, batch);

    let run = answer.as_ref().map(|_| {
        let range = run_range(bytes, number);
        match range.is_empty() {
            true => Part::EMPTY,
            false => Part::new(DESCRIPTION, range.start, range.len()),
        }
    });
    batch.command(Code::MemberRun).byte(number).told(refusal);
    batch.record(Thing::Record, &left(Part::FILLED, run));
    end("cb_member_run", bytes, batch);
}

/// A list of just so many entries, of one too few, and of any other length.
fn ask_offsets(random: &mut Random, bytes: &[u8], number: u8, batch: &mut Batch) {
    let members = run_range(bytes, number).len();
    let other = random.below(members + 4);
    for room in [members, members.saturating_sub(1), other] {
        let mut list = vec![Offset::FILLED.offset; room];
        let answer = offsets(bytes, number, &mut list);
        let list: Vec<Offset> = list.into_iter().map(|offset| Offset { offset }).collect();
        batch.command(Code::MemberOffsets).byte(number).short(room).told(told(&answer));
        batch.list(&list);
        end("cb_member_offsets", bytes, batch);
    }
}

// ---- layouts

fn register_number(register: Register) -> u8 {
    match register {
        Register::General(number) => number as u8,
        Register::Vector(number, chunk) => chunk_number(chunk) + number as u8,
    }
}

/// xmm0, or its upper half.
fn chunk_number(chunk: Eightbytes) -> u8 {
    match chunk {
        Eightbytes(0) => XMM0,
        _ => XMM0H,
    }
}

/// The two registers of a place: all four chunks of a vector register are one.
fn pair(numbers: &[u8]) -> (u8, u8) {
    match numbers {
        [first, second] => (*first, *second),
        [first, _, _, _] => (*first - XMM0 + XMM0Y, NONE),
        _ => (numbers.first().copied().unwrap_or(NONE), NONE),
    }
}

fn return_number(register: ReturnRegister) -> u8 {
    match register {
        ReturnRegister::Rax => RAX,
        ReturnRegister::Rdx => RDX,
        ReturnRegister::Xmm0(chunk) => chunk_number(chunk),
        ReturnRegister::Xmm1 => XMM0 + 1,
        ReturnRegister::St0 => ST0,
        ReturnRegister::St1 => ST1,
    }
}

fn flat(placement: &places::Placement) -> Placement {
    let (numbers, offset): (Vec<u8>, usize) = match &placement.place {
        Place::Stack(offset) => (Vec::new(), offset.0),
        Place::Registers(registers) => {
            (registers.iter().map(|&register| register_number(register)).collect(), 0)
        }
    };
    let (first, second) = pair(&numbers);
    Placement {
        size: placement.size.0 as u64,
        align: placement.alignment.0 as u64,
        offset: offset as u64,
        value: placement.value.0 as u64,
        type_number: placement.type_number,
        first,
        second,
        named: placement.named as u8,
        reserved: [0; 4],
    }
}

/// A value in memory has its type's size too: the caller gives it that room.
fn return_size(accepted: &Accepted) -> usize {
    match accepted.layout.return_place {
        ReturnPlace::Void => 0,
        ReturnPlace::Memory(number) | ReturnPlace::Registers(number, _) => {
            accepted.types.measure(number).size.0
        }
    }
}

fn flat_layout(bytes: &[u8], accepted: &Accepted) -> Layout {
    let layout = &accepted.layout;
    let (named, arguments) = (bytes[7] as usize, bytes[8] as usize);
    let (start, end) = (layout.taken[named], layout.taken[arguments]);
    let returned: Vec<u8> = match &layout.return_place {
        ReturnPlace::Registers(_, registers) => {
            registers.iter().map(|&register| return_number(register)).collect()
        }
        _ => Vec::new(),
    };
    let (return_first, return_second) = pair(&returned);
    Layout {
        general_registers: end.general.0 as u64,
        vector_registers: end.vector.0 as u64,
        stack_end: end.stack.0 as u64,
        area: layout.area.0 as u64,
        area_alignment: layout.area_alignment.0 as u64,
        values: layout.values_length() as u64,
        return_size: return_size(accepted) as u64,
        named_general_registers: start.general.0 as u64,
        named_vector_registers: start.vector.0 as u64,
        named_stack_end: start.stack.0 as u64,
        arguments: arguments as u64,
        return_first,
        return_second,
        hidden: u8::from(layout.hidden_address),
        reserved: [0; 5],
    }
}

fn ask_layouts(random: &mut Random, bytes: &[u8], batch: &mut Batch) {
    let answer = accepted(bytes);
    let layout = answer.as_ref().map(|accepted| flat_layout(bytes, accepted)).map_err(|&why| why);
    batch.command(Code::LayoutOf).told(told(&layout));
    batch.record(Thing::Record, &left(Layout::FILLED, layout));
    end("cb_layout_of", bytes, batch);

    let placements: Vec<Placement> =
        answer.map_or(Vec::new(), |accepted| accepted.layout.placements.iter().map(flat).collect());
    let count = layout.map_or(3, |_| placements.len());
    for room in [64, count, count.saturating_sub(1), random.below(70)] {
        let answer = layout.and_then(|layout| match room < count {
            true => Err(Refusal::WrongLength),
            false => Ok(layout),
        });
        let mut list = vec![Placement::FILLED; room];
        if answer.is_ok() {
            list[..count].copy_from_slice(&placements);
        }
        batch.command(Code::LayOut).short(room).told(told(&answer));
        batch.record(Thing::Record, &left(Layout::FILLED, answer)).list(&list);
        end("cb_lay_out", bytes, batch);
    }
}

fn ask_listing(bytes: &[u8], batch: &mut Batch) {
    let text = listing(bytes);
    let mut room = [FILLING; LISTING_ROOM];
    room[..text.len()].copy_from_slice(text.as_bytes());
    batch.command(Code::WriteListing);
    batch.number("length", text.len() as u64).buffer(Thing::Text, &room);
    end("cb_write_listing", bytes, batch);
}

// ---- moves

/// Lengths near the right ones; the right ones more than half of the time.
fn length_near(random: &mut Random, right: usize) -> usize {
    match random.below(12) {
        0 => right + 1,
        1 => right.saturating_sub(1),
        2 => random.below(200),
        _ => right,
    }
}

fn ask_moves(random: &mut Random, bytes: &[u8], batch: &mut Batch) {
    let (values, area) = match accepted(bytes) {
        Ok(accepted) => (random_values(random, bytes), accepted.layout.area.0),
        Err(_) => {
            let length = random.below(40);
            (random.bytes(length), random.below(3) * 16)
        }
    };
    ask_move(random, bytes, &values, [REGISTER_IMAGE, UPPER_IMAGE, area], batch);
    let [length, images @ ..] =
        [values.len(), REGISTER_IMAGE, UPPER_IMAGE, area].map(|right| length_near(random, right));
    let mut other = values;
    other.resize(length, 7);
    if random.one_in(2) {
        // Any bytes, so that a _Bool argument may be 2.
        other = random.bytes(length);
    }
    ask_move(random, bytes, &other, images, batch);
}

fn ask_move(
    random: &mut Random,
    bytes: &[u8],
    values: &[u8],
    lengths: [usize; 3],
    batch: &mut Batch,
) {
    let hidden = any_address(random);
    let [mut registers, mut upper, mut stack] = lengths.map(|length| random.bytes(length));
    batch.command(Code::PlaceValues).word(hidden).part(values);
    batch.part(&registers).part(&upper).part(&stack);
    let answer = placing(bytes, hidden, values, &mut registers, &mut upper, &mut stack);
    let placed = answer.map(|count| Placed { vector_registers: count.0 as u64 });
    batch.told(told(&answer)).buffer(Thing::Values, values).buffer(Thing::Registers, &registers);
    batch.buffer(Thing::Upper, &upper).buffer(Thing::Stack, &stack);
    batch.record(Thing::Record, &left(Placed::FILLED, placed));
    end("cb_place_values", bytes, batch);

    // From images in which the unused bytes are anything.
    let [registers, upper, stack] = lengths.map(|length| random.bytes(length));
    let mut out = random.bytes(values.len());
    batch.command(Code::GatherValues).part(&registers).part(&upper).part(&stack).part(&out);
    let answer = gathering(bytes, &registers, &upper, &stack, &mut out);
    let gathered = answer.map(|hidden| Gathered { hidden });
    batch.told(told(&answer)).buffer(Thing::Registers, &registers);
    batch.buffer(Thing::Upper, &upper).buffer(Thing::Stack, &stack);
    batch.buffer(Thing::Values, &out).record(Thing::Record, &left(Gathered::FILLED, gathered));
    end("cb_gather_values", bytes, batch);
}

// ---- returned values

fn ask_returned(random: &mut Random, bytes: &[u8], batch: &mut Batch) {
    let length = accepted(bytes).map_or(8, |accepted| value_length(&accepted));
    let right = [length, RETURN_IMAGE, RETURN_UPPER];
    for lengths in [right, right.map(|right| length_near(random, right))] {
        let mut value = random.bytes(lengths[0]);
        if lengths[0] == 1 && random.one_in(2) {
            value[0] &= 1; // a _Bool
        }
        ask_put(random, bytes, &value, [lengths[1], lengths[2]], batch);
        ask_take(random, bytes, lengths, batch);
    }
}

fn ask_put(
    random: &mut Random,
    bytes: &[u8],
    value: &[u8],
    lengths: [usize; 2],
    batch: &mut Batch,
) {
    let hidden = any_address(random);
    let [mut image, mut upper] = lengths.map(|length| random.bytes(length));
    batch.command(Code::PutReturned).word(hidden).part(value).part(&image).part(&upper);
    let answer = putting(bytes, hidden, value, &mut image, &mut upper);
    batch.told(told(&answer)).buffer(Thing::Values, value);
    batch.buffer(Thing::Image, &image).buffer(Thing::Upper, &upper);
    end("cb_put_returned", bytes, batch);
}

fn ask_take(random: &mut Random, bytes: &[u8], lengths: [usize; 3], batch: &mut Batch) {
    let [mut value, image, upper] = lengths.map(|length| random.bytes(length));
    batch.command(Code::TakeReturned).part(&image).part(&upper).part(&value);
    let answer = taking(bytes, &image, &upper, &mut value);
    let taken = answer.map(|hidden| Gathered { hidden });
    batch.told(told(&answer)).buffer(Thing::Image, &image).buffer(Thing::Upper, &upper);
    batch.buffer(Thing::Values, &value);
    batch.record(Thing::Record, &left(Gathered::FILLED, taken));
    end("cb_take_returned", bytes, batch);
}

// ---- the need of the stack

fn ask_need(bytes: &[u8], batch: &mut Batch) {
    let need = needs_stack(bytes).map(|need| StackNeed {
        looked: need.looked as u64,
        needed: u8::from(need.needed),
        reserved: [0; 7],
    });
    batch.command(Code::NeedsStack).told(told(&need));
    batch.record(Thing::Record, &left(StackNeed::FILLED, need));
    end("cb_needs_stack", bytes, batch);
}

// ---- the tidy form

fn ask_tidy(random: &mut Random, bytes: &[u8], batch: &mut Batch) {
    let tidied = tidy(bytes).map(|tidied| tidied.len());
    batch.command(Code::TidyLength).told(told(&tidied));
    let length = tidied.map(|length| Tidied { length: length as u64 });
    batch.record(Thing::Record, &left(Tidied::FILLED, length));
    end("cb_tidy_length", bytes, batch);

    let right = tidied.unwrap_or(bytes.len());
    for room in [right, length_near(random, right)] {
        let mut out = vec![FILLING; room];
        batch.command(Code::Tidy).short(room).told(told(&tidying(bytes, &mut out)));
        batch.buffer(Thing::Out, &out);
        end("cb_tidy", bytes, batch);
    }
}
