//! "The lister": the text for a description.

use crate::places::{accepted, Accepted, Place, Placement, Register, ReturnPlace, ReturnRegister};
use crate::refusal::Refusal;
use crate::units::Eightbytes;
use crate::walk::offsets_after;

pub fn register_name(register: Register) -> String {
    const GENERAL: [&str; 6] = ["rdi", "rsi", "rdx", "rcx", "r8", "r9"];
    match register {
        Register::General(number) => GENERAL[number].to_string(),
        Register::Vector(number, chunk) => format!("xmm{number}{}", chunk_letter(chunk)),
    }
}

/// "An upper half prints as xmm0h."
fn chunk_letter(chunk: Eightbytes) -> &'static str {
    match chunk {
        Eightbytes(0) => "",
        Eightbytes(1) => "h",
        _ => unreachable!("bytes 16 to 31 are never printed alone"),
    }
}

/// "The lister prints such a place as `xmm0y`" (02, 2026-06): one that is all four
/// chunks of a vector register.
fn is_wide_place(eightbytes: usize) -> bool {
    eightbytes == 4
}

pub fn return_register_name(register: ReturnRegister) -> String {
    match register {
        ReturnRegister::Rax => "rax".to_string(),
        ReturnRegister::Rdx => "rdx".to_string(),
        ReturnRegister::Xmm0(chunk) => format!("xmm0{}", chunk_letter(chunk)),
        ReturnRegister::Xmm1 => "xmm1".to_string(),
        ReturnRegister::St0 => "st0".to_string(),
        ReturnRegister::St1 => "st1".to_string(),
    }
}

pub fn place_text(place: &Place) -> String {
    match place {
        Place::Stack(offset) => format!("stack {}", offset.0),
        Place::Registers(registers) if is_wide_place(registers.len()) => {
            format!("{}y", register_name(registers[0]))
        }
        Place::Registers(registers) => {
            let names: Vec<String> = registers.iter().map(|&one| register_name(one)).collect();
            names.join(" ")
        }
    }
}

/// "Line one: version, A, N, registers used (hidden address included), vector
/// count, area."
fn head_line(accepted: &Accepted) -> String {
    let description = accepted.types.description();
    let layout = &accepted.layout;
    format!(
        "KCB {} args {} named {} gp {} vec {} stack {}\n",
        description.version(),
        description.arguments(),
        description.named(),
        layout.registers_used().0,
        layout.vector_count().0,
        layout.area.0
    )
}

/// "Then per argument: position, type, size, alignment, place"; 02: "The lister
/// appends `at 12 named` or `at 12 unnamed`."
fn argument_line(position: usize, placement: &Placement) -> String {
    format!(
        "{} type {} size {} align {} {} at {} {}\n",
        position,
        placement.type_number,
        placement.size.0,
        placement.alignment.0,
        place_text(&placement.place),
        placement.value.0,
        if placement.named { "named" } else { "unnamed" }
    )
}

/// "Return may read `return void` or `return type K memory`".
fn return_line(return_place: &ReturnPlace) -> String {
    match return_place {
        ReturnPlace::Void => "return void\n".to_string(),
        ReturnPlace::Memory(number) => format!("return type {number} memory\n"),
        ReturnPlace::Registers(number, registers) if is_wide_place(registers.len()) => {
            format!("return type {number} {}y\n", return_register_name(registers[0]))
        }
        ReturnPlace::Registers(number, registers) => {
            let names: Vec<String> =
                registers.iter().map(|&one| return_register_name(one)).collect();
            format!("return type {number} {}\n", names.join(" "))
        }
    }
}

/// "a plain function ends with `walk none`"
fn walk_line(accepted: &Accepted) -> String {
    let description = accepted.types.description();
    if !description.is_variadic() {
        return "walk none\n".to_string();
    }
    let offsets = offsets_after(accepted.layout.taken[description.named()]);
    format!(
        "walk gp {} fp {} over {}\n",
        offsets.gp_offset.0, offsets.fp_offset.0, offsets.overflow.0
    )
}

/// "A refusal is the one line `refused n`", and for one that names a type, be it
/// type 0, "`refused 6 type 12`" (02, 2026-01).
fn refusal_line(refusal: Refusal) -> String {
    match refusal {
        Refusal::RecordAgainstRules(lowest) | Refusal::TypeTooLarge(lowest) => {
            format!("refused {} type {lowest}\n", refusal.number())
        }
        _ => format!("refused {}\n", refusal.number()),
    }
}

/// The lister's text.
pub fn listing(bytes: &[u8]) -> String {
    let accepted = match accepted(bytes) {
        Ok(accepted) => accepted,
        Err(refusal) => return refusal_line(refusal),
    };
    let mut text = head_line(&accepted);
    for (position, placement) in accepted.layout.placements.iter().enumerate() {
        text.push_str(&argument_line(position, placement));
    }
    text.push_str(&return_line(&accepted.layout.return_place));
    text.push_str(&walk_line(&accepted));
    text
}
