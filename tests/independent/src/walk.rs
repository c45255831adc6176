//! "Station and walk", its second half: open, step, show and show's number; and of
//! document 02 request 2026-05, "All the rest at once".

use crate::classes::{classes_of, Class};
use crate::moving::{spots_of, Image, Spot, REGISTER_IMAGE, VECTOR_START};
use crate::places::{
    accepted, registers_needed, Accepted, Taken, GENERAL_REGISTERS, VECTOR_REGISTERS,
};
use crate::refusal::{told, Refusal, Told};
use crate::station::{check_seat, Station};
use crate::types::Types;
use crate::units::{Bytes, Registers};

/// "A walk record holds the attachment number, argument position, gp_offset,
/// fp_offset and overflow offset." Any value may be handed in.
#[derive(Clone, Copy, Debug, Default, PartialEq, Eq)]
pub struct Walk {
    pub number: u32,
    pub position: u64,
    pub gp_offset: u64,
    pub fp_offset: u64,
    pub overflow: u64,
}

/// gp_offset, fp_offset and overflow offset.
#[derive(Clone, Copy, Debug, PartialEq, Eq)]
pub struct Offsets {
    pub gp_offset: Bytes,
    pub fp_offset: Bytes,
    pub overflow: Bytes,
}

/// "the offsets after the named arguments (and hidden address). With none used
/// they are 0, 48 and 0."
pub fn offsets_after(taken: Taken) -> Offsets {
    Offsets {
        gp_offset: taken.general.general_room(),
        fp_offset: VECTOR_START + taken.vector.vector_room(),
        overflow: taken.stack,
    }
}

fn record(number: u32, position: usize, offsets: Offsets) -> Walk {
    Walk {
        number,
        position: position as u64,
        gp_offset: offsets.gp_offset.0 as u64,
        fp_offset: offsets.fp_offset.0 as u64,
        overflow: offsets.overflow.0 as u64,
    }
}

/// Some bytes of one image.
#[derive(Clone, Copy, Debug, PartialEq, Eq)]
pub struct Piece {
    pub image: Image,
    pub start: Bytes,
    pub length: Bytes,
}

/// What one step reads: the pieces in eightbyte order, and the offsets after it.
#[derive(Clone, Debug, PartialEq, Eq)]
pub struct Fetch {
    pub pieces: Vec<Piece>,
    pub after: Offsets,
}

/// "A step, from 000 section 3.5.7: a type that may be in registers, with
/// gp_offset at most 48 - 8 num_gp and fp_offset at most 176 - 16 num_fp, is
/// read from the register image and both offsets move on."
pub fn fetch(types: &Types, type_number: u8, offsets: Offsets) -> Fetch {
    let classes = classes_of(types, type_number);
    // The walk is over unnamed arguments.
    if let Some((num_gp, num_fp)) = registers_needed(classes, false) {
        let last_gp = GENERAL_REGISTERS.general_room();
        let last_fp = VECTOR_START + VECTOR_REGISTERS.vector_room();
        let fits = offsets.gp_offset + num_gp.general_room() <= last_gp
            && offsets.fp_offset + num_fp.vector_room() <= last_fp;
        if fits {
            return fetch_from_registers(types, type_number, offsets);
        }
    }
    fetch_from_stack(types, type_number, offsets)
}

fn fetch_from_registers(types: &Types, type_number: u8, offsets: Offsets) -> Fetch {
    let size = types.size(type_number);
    let mut after = offsets;
    let mut pieces = Vec::new();
    for class in classes_of(types, type_number) {
        let start = match class {
            Class::Integer => {
                let start = after.gp_offset;
                after.gp_offset += Registers(1).general_room();
                start
            }
            Class::Sse => {
                let start = after.fp_offset;
                after.fp_offset += Registers(1).vector_room();
                start
            }
            // The upper half of the register just passed.
            Class::SseUp => Bytes(after.fp_offset.0 - 8),
            _ => continue,
        };
        let before = 8 * pieces.len();
        let length = Bytes((size.0 - before).min(8));
        pieces.push(Piece { image: Image::Registers, start, length });
    }
    Fetch { pieces, after }
}

/// "Otherwise the overflow offset is raised .. where the alignment exceeds 8, the
/// type is read there, its size is added, and the result is raised to 8"; raised "to
/// the type's alignment" (02, 2026-06).
fn fetch_from_stack(types: &Types, type_number: u8, offsets: Offsets) -> Fetch {
    let measure = types.measure(type_number);
    let mut start = offsets.overflow;
    if measure.alignment > Bytes(8) {
        start = start.raised_to(measure.alignment);
    }
    let overflow = (start + measure.size).raised_to(Bytes(8));
    let piece = Piece { image: Image::Stack, start, length: measure.size };
    Fetch { pieces: vec![piece], after: Offsets { overflow, ..offsets } }
}

/// "Open and step read the description in the seat at the station's length."
fn attached<'a>(station: &Station, seat: &'a [u8]) -> Result<Accepted<'a>, Refusal> {
    if !station.attached {
        return Err(Refusal::NothingAttached);
    }
    accepted(&seat[..station.length])
}

/// "Open: 11, 13, 1..10, 16." It "gives position N and the offsets after the
/// named arguments (and hidden address)".
pub fn open(station: &Station, seat: &[u8]) -> Result<Walk, Refusal> {
    check_seat(station, seat)?;
    let accepted = attached(station, seat)?;
    let description = accepted.types.description();
    if !description.is_variadic() {
        return Err(Refusal::NotVariadic);
    }
    let named = description.named();
    Ok(record(station.number, named, offsets_after(accepted.layout.taken[named])))
}

/// 17, then 18; answers the position and the offsets of the walk.
fn check_record(
    station: &Station,
    accepted: &Accepted,
    walk: &Walk,
) -> Result<(usize, Offsets), Refusal> {
    if walk.number != station.number {
        return Err(Refusal::OtherAttachment);
    }
    let description = accepted.types.description();
    let named = description.named() as u64;
    let arguments = description.arguments() as u64;
    if walk.position < named || walk.position > arguments {
        return Err(Refusal::WrongRecord);
    }
    let position = walk.position as usize;
    let offsets = offsets_after(accepted.layout.taken[position]);
    if *walk != record(station.number, position, offsets) {
        return Err(Refusal::WrongRecord);
    }
    Ok((position, offsets))
}

/// 17, 18, 19, 20 in their order; answers the offsets of the walk.
fn check_walk(
    station: &Station,
    accepted: &Accepted,
    walk: &Walk,
    type_number: u8,
) -> Result<Offsets, Refusal> {
    let (position, offsets) = check_record(station, accepted, walk)?;
    let description = accepted.types.description();
    if position == description.arguments() {
        return Err(Refusal::AtEnd);
    }
    if type_number != description.argument(position) {
        return Err(Refusal::OtherType);
    }
    Ok(offsets)
}

/// What step and show have in common: "11 for seat, station and register image,
/// 13, 1..10, 17, 18, 19, 20, then 11 for stack image".
fn checked_fetch(
    station: &Station,
    seat: &[u8],
    walk: &Walk,
    type_number: u8,
    registers: &[u8],
    stack: &[u8],
) -> Result<Fetch, Refusal> {
    check_seat(station, seat)?;
    if registers.len() != REGISTER_IMAGE {
        return Err(Refusal::WrongLength);
    }
    let accepted = attached(station, seat)?;
    let offsets = check_walk(station, &accepted, walk, type_number)?;
    if stack.len() != accepted.layout.area.0 {
        return Err(Refusal::WrongLength);
    }
    Ok(fetch(&accepted.types, type_number, offsets))
}

fn piece_bytes<'a>(piece: Piece, registers: &'a [u8], stack: &'a [u8]) -> &'a [u8] {
    let image = match piece.image {
        Image::Registers => registers,
        Image::Stack => stack,
        Image::Upper => unreachable!("an unnamed argument is never there"),
    };
    &image[piece.start.0..piece.start.0 + piece.length.0]
}

/// "The step copies into an out buffer of exactly the type's size."
pub fn step(
    station: &Station,
    seat: &[u8],
    walk: &mut Walk,
    type_number: u8,
    registers: &[u8],
    stack: &[u8],
    out: &mut [u8],
) -> Result<(), Refusal> {
    let fetch = checked_fetch(station, seat, walk, type_number, registers, stack)?;
    let pieces = fetch.pieces.iter().map(|&piece| piece_bytes(piece, registers, stack));
    let value = pieces.collect::<Vec<_>>().concat();
    if out.len() != value.len() {
        return Err(Refusal::WrongLength);
    }
    out.copy_from_slice(&value);
    *walk = record(walk.number, walk.position as usize + 1, fetch.after);
    Ok(())
}

/// Request 2026-05: "One call should take the expected type numbers and write all
/// remaining arguments, packed, to one buffer." "Refusals: as for a step, but a
/// number of types other than those remaining is 24, after 18, and 19 never occurs;
/// no types with none remaining is accepted." Each byte is read where the layout has
/// its place, as gathering does, and the walk ends where the layout does: that this is
/// what steps do, one by one, is for the tests to say.
pub fn finish(
    station: &Station,
    seat: &[u8],
    walk: &mut Walk,
    asked: &[u8],
    registers: &[u8],
    stack: &[u8],
    out: &mut [u8],
) -> Result<(), Refusal> {
    check_seat(station, seat)?;
    if registers.len() != REGISTER_IMAGE {
        return Err(Refusal::WrongLength);
    }
    let accepted = attached(station, seat)?;
    let (position, _) = check_record(station, &accepted, walk)?;
    let layout = &accepted.layout;
    let rest = &layout.placements[position..];
    if asked.len() != rest.len() {
        return Err(Refusal::WrongTypeCount);
    }
    if rest.iter().zip(asked).any(|(placement, &asked)| placement.type_number != asked) {
        return Err(Refusal::OtherType);
    }
    let value: Vec<Spot> = rest.iter().flat_map(spots_of).collect();
    if stack.len() != layout.area.0 || out.len() != value.len() {
        return Err(Refusal::WrongLength);
    }
    for (byte, spot) in out.iter_mut().zip(value) {
        *byte = match spot.image {
            Image::Registers => registers[spot.offset.0],
            Image::Stack => stack[spot.offset.0],
            Image::Upper => unreachable!("an unnamed argument is never there"),
        };
    }
    let end = layout.placements.len();
    *walk = record(station.number, end, offsets_after(layout.taken[end]));
    Ok(())
}

/// Where the argument lies as one run: "the empty part for a refusal, for two
/// vector registers and for mixed ones (r9 with xmm0 too, though they adjoin)".
pub fn shown_piece(
    station: &Station,
    seat: &[u8],
    walk: &Walk,
    type_number: u8,
    registers: &[u8],
    stack: &[u8],
) -> Result<Option<Piece>, Refusal> {
    let fetch = checked_fetch(station, seat, walk, type_number, registers, stack)?;
    Ok(single_run(&fetch.pieces))
}

/// Two general registers, or a vector register and its upper half, are one run.
fn single_run(pieces: &[Piece]) -> Option<Piece> {
    match pieces {
        [only] => Some(*only),
        [first, second] => {
            let adjoin = first.start + Bytes(8) == second.start;
            let both_general = second.start < VECTOR_START;
            let both_vector = first.start >= VECTOR_START;
            let length = first.length + second.length;
            (adjoin && (both_general || both_vector)).then_some(Piece { length, ..*first })
        }
        _ => None,
    }
}

/// "it shows the argument as a part of the register image or of the stack
/// image"
pub fn show<'a>(
    station: &Station,
    seat: &[u8],
    walk: &Walk,
    type_number: u8,
    registers: &'a [u8],
    stack: &'a [u8],
) -> &'a [u8] {
    match shown_piece(station, seat, walk, type_number, registers, stack) {
        Ok(Some(piece)) => piece_bytes(piece, registers, stack),
        _ => &[],
    }
}

/// "A third call gives the second's refusal number, or 0", and "passes such a
/// refusal on", so it "passes the number too" (02, 2026-01).
pub fn show_number(
    station: &Station,
    seat: &[u8],
    walk: &Walk,
    type_number: u8,
    registers: &[u8],
    stack: &[u8],
) -> Told {
    told(&shown_piece(station, seat, walk, type_number, registers, stack))
}
