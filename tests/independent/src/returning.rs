//! Document 02, request 2026-02, "Bringing the result back": putting and taking;
//! and of request 2026-06 the second return image.

use crate::moving::{check_address, Image, Spot};
use crate::places::{accepted, Accepted, ReturnPlace, ReturnRegister};
use crate::refusal::Refusal;
use crate::types::code;
use crate::units::{Bytes, Eightbytes};

/// "The return image is 80 bytes".
pub const RETURN_IMAGE: usize = 80;
/// Bytes 16 to 31 stand "for a returned value in a second return image of 16".
pub const RETURN_UPPER: usize = 16;
/// "only the first ten bytes of each long double are significant"
const SIGNIFICANT: usize = 10;

/// "rax, rdx at 0 and 8, then xmm0, xmm1, st0, st1 of 16 each".
pub fn return_start(register: ReturnRegister) -> Spot {
    let in_image = |offset: usize| Spot { image: Image::Registers, offset: Bytes(offset) };
    match register {
        ReturnRegister::Rax => in_image(0),
        ReturnRegister::Rdx => in_image(8),
        ReturnRegister::Xmm0(Eightbytes(0)) => in_image(16),
        ReturnRegister::Xmm0(Eightbytes(1)) => in_image(24),
        ReturnRegister::Xmm0(chunk) => {
            let upper = Eightbytes(chunk.0 - 2);
            Spot { image: Image::Upper, offset: upper.start() }
        }
        ReturnRegister::Xmm1 => in_image(32),
        ReturnRegister::St0 => in_image(48),
        ReturnRegister::St1 => in_image(64),
    }
}

/// "a void or MEMORY value has length 0"
pub fn value_length(accepted: &Accepted) -> usize {
    match accepted.layout.return_place {
        ReturnPlace::Void | ReturnPlace::Memory(_) => 0,
        ReturnPlace::Registers(number, _) => accepted.types.measure(number).size.0,
    }
}

/// Where in the return image (`Image::Registers`) or in the second one
/// (`Image::Upper`) a byte of the value has its place; the last six bytes of a long
/// double have none.
pub fn return_spot(registers: &[ReturnRegister], byte: usize) -> Option<Spot> {
    let on_x87 = registers[0] == ReturnRegister::St0;
    let room = if on_x87 { 16 } else { 8 };
    let inside = byte % room;
    if on_x87 && inside >= SIGNIFICANT {
        return None;
    }
    let start = return_start(registers[byte / room]);
    Some(Spot { offset: start.offset + Bytes(inside), ..start })
}

/// The place of each byte of the value, in their order.
pub fn return_spots(accepted: &Accepted) -> Vec<Option<Spot>> {
    match &accepted.layout.return_place {
        ReturnPlace::Void | ReturnPlace::Memory(_) => Vec::new(),
        ReturnPlace::Registers(_, registers) => {
            (0..value_length(accepted)).map(|byte| return_spot(registers, byte)).collect()
        }
    }
}

/// 11: a value and two images of exactly the right lengths.
fn check_lengths(
    accepted: &Accepted,
    value: usize,
    image: usize,
    upper: usize,
) -> Result<(), Refusal> {
    if value == value_length(accepted) && image == RETURN_IMAGE && upper == RETURN_UPPER {
        Ok(())
    } else {
        Err(Refusal::WrongLength)
    }
}

/// 12: "a returned _Bool byte not 0 or 1".
fn check_bool(accepted: &Accepted, value: &[u8]) -> Result<(), Refusal> {
    match accepted.layout.return_place {
        ReturnPlace::Registers(number, _)
            if accepted.types.is_basic(number, code::BOOL) && value[0] > 1 =>
        {
            Err(Refusal::WrongBool)
        }
        _ => Ok(()),
    }
}

/// "Putting and taking follow the return places; unused bytes are zero." "A
/// MEMORY return carries the hidden address in rax and no value bytes."
pub fn putting(
    bytes: &[u8],
    hidden_address: u64,
    value: &[u8],
    image: &mut [u8],
    upper: &mut [u8],
) -> Result<(), Refusal> {
    let accepted = accepted(bytes)?;
    check_lengths(&accepted, value.len(), image.len(), upper.len())?;
    check_address(&accepted, hidden_address)?;
    check_bool(&accepted, value)?;
    image.fill(0);
    upper.fill(0);
    if accepted.layout.hidden_address {
        image[0..8].copy_from_slice(&hidden_address.to_le_bytes());
    }
    for (byte, spot) in value.iter().zip(return_spots(&accepted)) {
        match spot {
            Some(Spot { image: Image::Upper, offset }) => upper[offset.0] = *byte,
            Some(Spot { offset, .. }) => image[offset.0] = *byte,
            None => {}
        }
    }
    Ok(())
}

/// The reverse: the bytes that have no place are zero. Answers the hidden
/// address, 0 where none is carried: all 64 bits of rax, under ILP32 too.
pub fn taking(bytes: &[u8], image: &[u8], upper: &[u8], value: &mut [u8]) -> Result<u64, Refusal> {
    let accepted = accepted(bytes)?;
    check_lengths(&accepted, value.len(), image.len(), upper.len())?;
    for (byte, spot) in value.iter_mut().zip(return_spots(&accepted)) {
        *byte = match spot {
            Some(Spot { image: Image::Upper, offset }) => upper[offset.0],
            Some(Spot { offset, .. }) => image[offset.0],
            None => 0,
        };
    }
    if !accepted.layout.hidden_address {
        return Ok(0);
    }
    Ok(u64::from_le_bytes(image[0..8].try_into().expect("eight bytes")))
}
