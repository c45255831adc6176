//! "Images and moving bytes": placing and gathering.

use crate::description::Model;
use crate::places::{accepted, Accepted, Layout, Place, Placement, Register};
use crate::refusal::Refusal;
use crate::types::code;
use crate::units::{Bytes, Eightbytes, Registers};

/// "The register image is 176 bytes".
pub const REGISTER_IMAGE: usize = 176;
/// "rdi, rsi, rdx, rcx, r8, r9 at 0..47, then xmm0..xmm7 at 48".
pub const VECTOR_START: Bytes = Bytes(48);

/// "Bytes 16 to 31 stand in a second lent image of 128 bytes, xmm0 first" (02,
/// 2026-06).
pub const UPPER_IMAGE: usize = 128;

/// Which of the three images.
#[derive(Clone, Copy, Debug, PartialEq, Eq, Hash)]
pub enum Image {
    Registers,
    Upper,
    Stack,
}

/// One byte of one image.
#[derive(Clone, Copy, Debug, PartialEq, Eq, Hash)]
pub struct Spot {
    pub image: Image,
    pub offset: Bytes,
}

/// Eightbyte chunks of a vector register that are in the register image.
const LOWER_CHUNKS: Eightbytes = Eightbytes(2);

/// Where the eightbyte in a register begins.
pub fn register_start(register: Register) -> Spot {
    match register {
        Register::General(number) => {
            Spot { image: Image::Registers, offset: Registers(number).general_room() }
        }
        Register::Vector(number, chunk) if chunk < LOWER_CHUNKS => {
            let offset = VECTOR_START + Registers(number).vector_room() + chunk.start();
            Spot { image: Image::Registers, offset }
        }
        Register::Vector(number, chunk) => {
            let upper = Eightbytes(chunk.0 - LOWER_CHUNKS.0);
            let offset = Registers(number).vector_room() + upper.start();
            Spot { image: Image::Upper, offset }
        }
    }
}

/// Where a byte of an argument's value has its place.
pub fn spot(placement: &Placement, byte: Bytes) -> Spot {
    match &placement.place {
        Place::Stack(start) => Spot { image: Image::Stack, offset: *start + byte },
        Place::Registers(registers) => {
            let eightbyte = byte.eightbyte();
            let inside = Bytes(byte.0 - eightbyte.start().0);
            let start = register_start(registers[eightbyte.0]);
            Spot { offset: start.offset + inside, ..start }
        }
    }
}

/// The place of each byte of one argument's value.
pub fn spots_of(placement: &Placement) -> Vec<Spot> {
    (0..placement.size.0).map(|byte| spot(placement, Bytes(byte))).collect()
}

/// The place of each byte of the packed values, in their order.
pub fn spots(layout: &Layout) -> Vec<Spot> {
    layout.placements.iter().flat_map(spots_of).collect()
}

/// 11: values, register image, upper image and stack image of exactly the right
/// lengths; the upper image's is 128 where nothing is wide too.
fn check_lengths(
    layout: &Layout,
    values: usize,
    registers: usize,
    upper: usize,
    stack: usize,
) -> Result<(), Refusal> {
    let right = values == layout.values_length()
        && registers == REGISTER_IMAGE
        && upper == UPPER_IMAGE
        && stack == layout.area.0;
    if right {
        Ok(())
    } else {
        Err(Refusal::WrongLength)
    }
}

/// The first address that is none of ILP32.
pub const NARROW_ADDRESSES: u64 = 1 << 32;

/// 27: "after 11 in placing and putting, a hidden address in use of 2^32 or
/// more", under ILP32 (02, 2026-11): before 12 as well.
pub fn check_address(accepted: &Accepted, hidden_address: u64) -> Result<(), Refusal> {
    let is_narrow = accepted.types.description().model() == Model::Ilp32;
    if is_narrow && accepted.layout.hidden_address && hidden_address >= NARROW_ADDRESSES {
        return Err(Refusal::AddressTooWide);
    }
    Ok(())
}

/// 12: "A _Bool argument's byte must be 0 or 1; one inside an aggregate may be
/// anything."
fn check_bools(accepted: &Accepted, values: &[u8]) -> Result<(), Refusal> {
    let mut start = 0;
    for placement in &accepted.layout.placements {
        if accepted.types.is_basic(placement.type_number, code::BOOL) && values[start] > 1 {
            return Err(Refusal::WrongBool);
        }
        start += placement.size.0;
    }
    Ok(())
}

/// "Placing copies each value byte to its place and writes zero everywhere else
/// in both images", and "the second image" is "among the images". Answers the vector
/// count.
pub fn placing(
    bytes: &[u8],
    hidden_address: u64,
    values: &[u8],
    registers: &mut [u8],
    upper: &mut [u8],
    stack: &mut [u8],
) -> Result<Registers, Refusal> {
    let accepted = accepted(bytes)?;
    let layout = &accepted.layout;
    check_lengths(layout, values.len(), registers.len(), upper.len(), stack.len())?;
    check_address(&accepted, hidden_address)?;
    check_bools(&accepted, values)?;
    registers.fill(0);
    upper.fill(0);
    stack.fill(0);
    // "The hidden address, little-endian, fills rdi where it is used".
    if layout.hidden_address {
        registers[0..8].copy_from_slice(&hidden_address.to_le_bytes());
    }
    for (value, spot) in values.iter().zip(spots(layout)) {
        match spot.image {
            Image::Registers => registers[spot.offset.0] = *value,
            Image::Upper => upper[spot.offset.0] = *value,
            Image::Stack => stack[spot.offset.0] = *value,
        }
    }
    Ok(layout.vector_count())
}

/// "Gathering does the reverse, looks at no unused byte, and takes a _Bool byte
/// as it finds it." Answers the hidden address, 0 where none is in use: all 64
/// bits of rdi, under ILP32 too.
pub fn gathering(
    bytes: &[u8],
    registers: &[u8],
    upper: &[u8],
    stack: &[u8],
    values: &mut [u8],
) -> Result<u64, Refusal> {
    let layout = accepted(bytes)?.layout;
    check_lengths(&layout, values.len(), registers.len(), upper.len(), stack.len())?;
    for (value, spot) in values.iter_mut().zip(spots(&layout)) {
        *value = match spot.image {
            Image::Registers => registers[spot.offset.0],
            Image::Upper => upper[spot.offset.0],
            Image::Stack => stack[spot.offset.0],
        };
    }
    if !layout.hidden_address {
        return Ok(0);
    }
    Ok(u64::from_le_bytes(registers[0..8].try_into().expect("eight bytes")))
}
