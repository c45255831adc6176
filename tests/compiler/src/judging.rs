//! Compares what gcc's functions did with what the independent layout says.

use crate::program::Answer;
use crate::source::declaration;
use crate::subject::Subject;
use independent::cases::hex_of_bytes;
use independent::listing::listing;
use independent::moving::gathering;
use independent::needing::{needs_stack, StackNeed};
use independent::places::ReturnPlace;
use independent::refusal::Refusal;
use independent::returning::{taking, RETURN_IMAGE};
use independent::station::{attach, Station, SEAT};
use independent::walk::{finish, open, step, Walk};

/// A difference: what was compared, gcc's answer, the layout's answer.
pub struct Difference {
    pub what: String,
    pub gcc: String,
    pub layout: String,
}

/// All differences of one subject, and how many comparisons were made.
#[derive(Default)]
pub struct Judgement {
    pub differences: Vec<Difference>,
    pub comparisons: usize,
}

impl Judgement {
    fn equal(&mut self, what: &str, gcc: String, layout: String) {
        self.comparisons += 1;
        if gcc != layout {
            self.differences.push(Difference { what: what.to_string(), gcc, layout });
        }
    }

    /// Bytes where the mask is 1; the others print as dots.
    fn equal_masked(&mut self, what: &str, gcc: &[u8], layout: &[u8], mask: &[u8]) {
        self.equal(what, masked(gcc, mask), masked(layout, mask));
    }
}

fn masked(bytes: &[u8], mask: &[u8]) -> String {
    let each = bytes.iter().zip(mask);
    each.map(|(byte, &kept)| if kept == 1 { format!("{byte:02x}") } else { "..".into() }).collect()
}

/// Sizes and alignments alone.
pub fn judge_sizes(subject: &Subject, answer: &Answer) -> Judgement {
    let mut judgement = Judgement::default();
    judge_measures(subject, answer, &mut judgement);
    judgement
}

pub fn judge(subject: &Subject, answer: &Answer) -> Judgement {
    let mut judgement = judge_sizes(subject, answer);
    if subject.caller_is_judged() {
        judge_caller(subject, answer, &mut judgement);
        judge_need(subject, answer, &mut judgement);
    }
    judge_taken(subject, answer, &mut judgement);
    judge_callee(subject, answer, &mut judgement);
    judge_return(subject, answer, &mut judgement);
    if subject.accepted.types.description().is_variadic() {
        judge_walk(subject, answer, &mut judgement);
    }
    judgement
}

/// sizeof and _Alignof of every type, and offsetof of its members.
fn judge_measures(subject: &Subject, answer: &Answer, judgement: &mut Judgement) {
    for (number, (found, layout)) in answer.measures.iter().zip(subject.measures()).enumerate() {
        let what = format!("size, alignment and members' offsets of type {number}");
        judgement.equal(&what, format!("{found:?}"), format!("{layout:?}"));
    }
}

/// What the probe found against placing, and gathered from what it found.
fn judge_caller(subject: &Subject, answer: &Answer, judgement: &mut Judgement) {
    judgement.equal_masked(
        "registers that a callee finds",
        &answer.registers,
        &subject.registers,
        &subject.register_mask,
    );
    judgement.equal_masked(
        "upper halves that a callee finds",
        &answer.upper,
        &subject.upper,
        &subject.upper_mask,
    );
    judgement.equal_masked(
        "stack that a callee finds",
        &answer.stack,
        &subject.stack,
        &subject.stack_mask,
    );
    let mut gathered = vec![0; subject.values.len()];
    let images = [&answer.registers, &answer.upper, &answer.stack];
    let [registers, upper, stack] = images;
    let hidden = gathering(subject.description, registers, upper, stack, &mut gathered);
    judgement.equal("gathering", format!("{}", hidden.is_ok()), "true".to_string());
    judgement.equal_masked(
        "values gathered from what a callee finds",
        &gathered,
        &subject.values,
        &subject.value_mask,
    );
    if subject.accepted.types.description().is_variadic() {
        let count = subject.accepted.layout.vector_count().0;
        judgement.equal("al", format!("{}", answer.rax as u8), format!("{count}"));
    }
    // "the stack needs to be 16 (32 or 64) byte aligned" (000, section 3.2.2).
    let alignment = subject.accepted.layout.area_alignment.0 as u64;
    let past = answer.start % alignment;
    judgement.equal("where the stack begins", format!("{past}"), "0".to_string());
}

/// What gcc's caller took from the return places that the probe filled.
fn judge_taken(subject: &Subject, answer: &Answer, judgement: &mut Judgement) {
    judgement.equal_masked(
        "value that a caller takes from the return places",
        &answer.taken,
        &subject.returned,
        &subject.return_mask,
    );
}

/// Whether the stack is needed, and the first argument that tells it: the first whose value
/// is lost where every byte of the stack that a callee finds is another.
fn judge_need(subject: &Subject, answer: &Answer, judgement: &mut Judgement) {
    let others: Vec<u8> = answer.stack.iter().map(|byte| !byte).collect();
    let mut left = vec![0; subject.values.len()];
    let gathered =
        gathering(subject.description, &answer.registers, &answer.upper, &others, &mut left);
    judgement.equal(
        "gathering without the stack",
        gathered.is_ok().to_string(),
        "true".to_string(),
    );
    let mut end = 0;
    let placements = &subject.accepted.layout.placements;
    let lost = placements.iter().position(|placement| {
        let value = end..end + placement.size.0;
        end = value.end;
        let mask = &subject.value_mask[value.clone()];
        masked(&left[value.clone()], mask) != masked(&subject.values[value], mask)
    });
    let looked = lost.map_or(placements.len(), |position| position + 1);
    let found = StackNeed { needed: lost.is_some(), looked };
    let said = needs_stack(subject.description);
    judgement.equal(
        "need of the stack",
        format!("{:?}", Ok::<_, Refusal>(found)),
        format!("{said:?}"),
    );
}

/// What gcc's function read as named parameters and by va_arg.
fn judge_callee(subject: &Subject, answer: &Answer, judgement: &mut Judgement) {
    judgement.equal_masked(
        "values that a callee reads",
        &answer.read,
        &subject.spaced(&subject.values),
        &subject.spaced(&subject.value_mask),
    );
}

/// Where gcc's function left its value, and what is taken from there.
fn judge_return(subject: &Subject, answer: &Answer, judgement: &mut Judgement) {
    let mut image = answer.after[..48].to_vec();
    // st0 and st1 stand at 28 and 38 of the saved x87 state.
    for start in [48 + 28, 48 + 38] {
        image.extend(&answer.after[start..start + 10]);
        image.extend([0; 6]);
    }
    image.extend(&answer.after[48 + 108..]);
    judgement.equal_masked(
        "return images that a caller finds",
        &image,
        &subject.put(),
        &subject.return_images_mask(&subject.return_mask),
    );
    let expected = subject.returned_part(&subject.returned);
    let mut taken = vec![0; expected.len()];
    let (image, upper) = image.split_at(RETURN_IMAGE);
    let address = taking(subject.description, image, upper, &mut taken);
    let in_memory = matches!(subject.accepted.layout.return_place, ReturnPlace::Memory(_));
    let hidden = if in_memory { subject.hidden_address() } else { 0 };
    judgement.equal(
        "taking",
        format!("{address:x?}"),
        format!("{:x?}", Ok::<u64, Refusal>(hidden)),
    );
    judgement.equal_masked(
        "value taken from what a caller finds",
        &taken,
        expected,
        &subject.return_mask,
    );
    if in_memory {
        judgement.equal_masked(
            "returned bytes in memory",
            &answer.hidden_room,
            &subject.returned,
            &subject.return_mask,
        );
    }
    let expected = subject.return_kind().saturating_sub(1);
    let found = x87_numbers(&answer.after[48..48 + 108]);
    judgement.equal("numbers on the x87 stack", format!("{found}"), format!("{expected}"));
}

/// How many of the eight tags of a saved x87 state are not "empty".
fn x87_numbers(state: &[u8]) -> usize {
    let tags = u16::from_le_bytes([state[8], state[9]]);
    (0..8).filter(|place| (tags >> (2 * place)) & 3 != 3).count()
}

fn record_text(walk: &Walk) -> String {
    format!("gp {} fp {} over {}", walk.gp_offset, walk.fp_offset, walk.overflow)
}

/// All the rest at once, from the record that open gives: what the offsets are after
/// it, and the values that it hands back, packed.
fn judge_rest(
    subject: &Subject,
    station: &Station,
    seat: &[u8],
    opened: Walk,
    judgement: &mut Judgement,
) -> String {
    let mut walk = opened;
    let rest = &subject.accepted.layout.placements[opened.position as usize..];
    let asked: Vec<u8> = rest.iter().map(|placement| placement.type_number).collect();
    let mut out = vec![0; rest.iter().map(|placement| placement.size.0).sum()];
    let (registers, stack) = (&subject.entered_registers, &subject.entered_stack);
    let finished = finish(station, seat, &mut walk, &asked, registers, stack, &mut out);
    judgement.equal("all the rest", format!("{finished:?}"), "Ok(())".to_string());
    let values = &subject.values[subject.values.len() - out.len()..];
    judgement.equal("bytes of all the rest", hex_of_bytes(&out), hex_of_bytes(values));
    record_text(&walk)
}

/// The walk: the offsets that va_start and va_arg leave against open and step, the
/// last against all the rest at once, and the bytes that they hand back.
fn judge_walk(subject: &Subject, answer: &Answer, judgement: &mut Judgement) {
    let mut station = Station::default();
    let mut seat = vec![0x11; SEAT];
    attach(&mut station, &mut seat, subject.description).expect("accepted");
    let mut walk = open(&station, &seat).expect("variadic");
    let finished = judge_rest(subject, &station, &seat, walk, judgement);
    let placements = &subject.accepted.layout.placements;
    let named = walk.position as usize;
    let mut start: usize = placements[..named].iter().map(|placement| placement.size.0).sum();
    let mut records = vec![record_text(&walk)];
    for placement in &placements[named..] {
        let size = placement.size.0;
        let mut out = vec![0; size];
        let stepped = step(
            &station,
            &seat,
            &mut walk,
            placement.type_number,
            &subject.entered_registers,
            &subject.entered_stack,
            &mut out,
        );
        judgement.equal("step", format!("{stepped:?}"), "Ok(())".to_string());
        let value = &subject.values[start..start + size];
        judgement.equal("bytes of a step", hex_of_bytes(&out), hex_of_bytes(value));
        start += size;
        records.push(record_text(&walk));
    }
    let noted = answer.notes.iter();
    let noted: Vec<String> =
        noted.map(|[gp, fp, over]| format!("gp {gp} fp {fp} over {over}")).collect();
    judgement.equal("offsets of the walk", noted.join(", "), records.join(", "));
    let last = noted.last().cloned().unwrap_or_default();
    judgement.equal("offsets after all the rest", last, finished);
}

/// The report of a subject with differences.
pub fn report(subject: &Subject, judgement: &Judgement) -> String {
    let mut text = format!(
        "MISMATCH\ndescription {}\n{}{}",
        hex_of_bytes(subject.description),
        declaration(&subject.accepted.types),
        listing(subject.description)
    );
    for difference in &judgement.differences {
        text.push_str(&format!(
            "{}:\n  gcc    {}\n  layout {}\n",
            difference.what, difference.gcc, difference.layout
        ));
    }
    text
}
