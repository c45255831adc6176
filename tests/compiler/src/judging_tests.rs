//! The driver itself: an answer that agrees with the layout gives no difference,
//! and each kind of wrong answer gives one. This says nothing about gcc.

use crate::judging::judge;
use crate::program::Answer;
use crate::subject::{is_within_gcc, Subject};
use independent::generator::{random_description, SMALL};
use independent::notation::description;
use independent::random::Random;
use independent::walk::offsets_after;

/// What a compiler that keeps to the layout would do.
fn agreeing(subject: &Subject) -> Answer {
    let layout = &subject.accepted.layout;
    let types = &subject.accepted.types;
    let kind = subject.return_kind();
    let image = subject.return_images();
    let mut after = image[..48].to_vec();
    let mut state = [0; 108];
    let tags: u16 = [0xFFFF, 0xFFFF, 0x3FFF, 0x0FFF][kind as usize];
    state[8..10].copy_from_slice(&tags.to_le_bytes());
    state[28..38].copy_from_slice(&image[48..58]);
    state[38..48].copy_from_slice(&image[64..74]);
    after.extend(state);
    after.extend(&image[80..]);
    let named = types.description().named();
    let notes = layout.taken[named..].iter().map(|&taken| {
        let offsets = offsets_after(taken);
        [offsets.gp_offset, offsets.fp_offset, offsets.overflow].map(|bytes| bytes.0 as u32)
    });
    Answer {
        registers: subject.registers.clone(),
        upper: subject.upper.clone(),
        rax: layout.vector_count().0 as u64,
        start: layout.area_alignment.0 as u64,
        stack: subject.stack.clone(),
        taken: subject.returned.clone(),
        read: subject.spaced(&subject.values),
        notes: notes.collect(),
        after,
        hidden_room: subject.returned.clone(),
        measures: subject.measures(),
    }
}

#[test]
fn an_agreeing_answer_has_no_difference() {
    let mut random = Random::new(3);
    for _ in 0..2000 {
        let bytes = random_description(&mut random, SMALL);
        let subject = Subject::new(&mut random, &bytes);
        let judgement = judge(&subject, &agreeing(&subject));
        assert!(judgement.differences.is_empty(), "{bytes:?}");
    }
}

/// How many differences a change to the agreeing answer makes.
fn differences(text: &str, change: impl Fn(&mut Answer)) -> usize {
    let bytes = description(text);
    let subject = Subject::new(&mut Random::new(4), &bytes);
    let mut answer = agreeing(&subject);
    change(&mut answer);
    judge(&subject, &answer).differences.len()
}

#[test]
fn each_kind_of_wrong_answer_is_a_difference() {
    let text = "struct{long, double}: int, struct{float, int}, ..., long_double, double, int128";
    assert_eq!(differences(text, |_| {}), 0);
    // The registers, what is gathered from them, and, before the first argument on the stack, that
    // it is lost without the stack.
    assert_eq!(differences(text, |answer| answer.registers[0] ^= 1), 3);
    assert_eq!(differences(text, |answer| answer.registers[48] ^= 1), 2);
    assert_eq!(differences(text, |answer| answer.stack[9] ^= 1), 2);
    assert_eq!(differences(text, |answer| answer.rax ^= 1), 1);
    assert_eq!(differences(text, |answer| answer.start += 8), 1);
    assert_eq!(differences(text, |answer| answer.taken[15] ^= 1), 1);
    assert_eq!(differences(text, |answer| answer.read[3] ^= 1), 1);
    assert_eq!(differences(text, |answer| answer.notes[1][2] += 8), 1);
    // The return image, and what is taken from it.
    assert_eq!(differences(text, |answer| answer.after[0] ^= 1), 2);
    assert_eq!(differences(text, |answer| answer.after[16] ^= 1), 2);
    assert_eq!(differences(text, |answer| answer.after[48 + 8] ^= 1), 1);
    assert_eq!(differences(text, |answer| answer.measures[2][1] += 1), 1);
    // Type 2 is the struct of long and double; its second member is at 8.
    assert_eq!(differences(text, |answer| answer.measures[2][3] -= 8), 1);
}

/// Upper halves on both sides, the stack's alignment, and that an unnamed one is not in
/// a register. Without a prototype the caller's side is not judged.
#[test]
fn vectors_of_32_bytes_are_judged() {
    let text = "m256: double, m256, ..., struct{m256}";
    assert_eq!(differences(text, |_| {}), 0);
    assert_eq!(differences(text, |answer| answer.upper[16] ^= 1), 3);
    assert_eq!(differences(text, |answer| answer.upper[0] ^= 1), 0);
    assert_eq!(differences(text, |answer| answer.upper[32] ^= 1), 0);
    assert_eq!(differences(text, |answer| answer.stack[31] ^= 1), 2);
    assert_eq!(differences(text, |answer| answer.rax += 1), 1);
    assert_eq!(differences(text, |answer| answer.start += 16), 1);
    assert_eq!(differences("void: m256", |answer| answer.start += 16), 0);
    assert_eq!(differences(text, |answer| answer.taken[31] ^= 1), 1);
    assert_eq!(differences(text, |answer| answer.read[32 + 31] ^= 1), 1);
    assert_eq!(differences(text, |answer| answer.after[48 + 108 + 15] ^= 1), 2);
    let bare = "m256: ..., m256";
    assert_eq!(differences(bare, |answer| answer.stack[0] ^= 1), 0);
    assert_eq!(differences(bare, |answer| answer.read[0] ^= 1), 1);
    // The walk's last record, and the one after all the rest at once.
    assert_eq!(differences(bare, |answer| answer.notes[1][2] += 32), 2);
}

#[test]
fn what_gcc_departs_from_is_left_out() {
    for (text, is_within) in [
        ("void: union{m256, double}, ..., m256, struct{m256[1]}, union{m256, long}", true),
        ("void: int, ..., union{m256}", false),
        ("void: int, ..., struct{union{double, m256}[1]}", false),
    ] {
        assert_eq!(is_within_gcc(&description(text)), is_within, "{text}");
    }
}

#[test]
fn masked_bytes_make_no_difference() {
    let text = "char: char, struct{char, int}, long_double, float";
    // Above the char in rdi, in the struct's padding, in the long double's tail,
    // above the float, above the char in al.
    for at in [1, 9, 49 + 3] {
        assert_eq!(differences(text, |answer| answer.registers[at] ^= 1), 0, "{at}");
    }
    assert_eq!(differences(text, |answer| answer.stack[10] ^= 1), 0);
    assert_eq!(differences(text, |answer| answer.read[64 + 10] ^= 1), 0);
    assert_eq!(differences(text, |answer| answer.after[1] ^= 1), 0);
}

/// "When a value of pointer type is returned or passed in a register, bits 32 to 63
/// shall be zero": so are they under ILP32, but not in a stack slot, nor above a
/// pointer in a struct.
#[test]
fn upper_halves_of_pointers_in_registers_are_judged() {
    let six = "pointer: pointer, pointer, pointer, pointer, pointer, struct{pointer}, pointer";
    for (model, upper, inside, slot, returned) in [("", 3, 3, 2, 2), ("ilp32 ", 1, 0, 0, 1)] {
        let text = &format!("{model}{six}");
        assert_eq!(differences(text, |answer| answer.registers[7] ^= 1), upper);
        assert_eq!(differences(text, |answer| answer.registers[5 * 8 + 4] ^= 1), inside);
        assert_eq!(differences(text, |answer| answer.stack[4] ^= 1), slot);
        assert_eq!(differences(text, |answer| answer.after[7] ^= 1), returned);
    }
    let memory = "ilp32 struct{char[17]}: int";
    assert_eq!(differences(memory, |answer| answer.registers[3] ^= 1), 0);
    assert_eq!(differences(memory, |answer| answer.registers[4] ^= 1), 1);
    assert_eq!(differences(memory, |answer| answer.after[4] ^= 1), 2);
}

#[test]
fn returns_in_memory_and_on_the_x87_stack_are_judged() {
    let memory = "struct{char[17]}: int";
    assert_eq!(differences(memory, |answer| answer.after[0] ^= 1), 2);
    assert_eq!(differences(memory, |answer| answer.hidden_room[16] ^= 1), 1);
    assert_eq!(differences(memory, |answer| answer.registers[0] ^= 1), 0);
    let two = "complex_long_double:";
    assert_eq!(differences(two, |answer| answer.after[48 + 28 + 9] ^= 1), 2);
    assert_eq!(differences(two, |answer| answer.after[48 + 38] ^= 1), 2);
    assert_eq!(differences(two, |answer| answer.after[48 + 9] ^= 0xC0), 1);
}
