//! A description as a whole, and its types.

use crate::raw;
use crate::Refusal;

/// Whether a description is right in every respect: refused 1 to 10.
pub fn check(description: &[u8]) -> Result<(), Refusal> {
    // Safety: pointer and length are those of one slice.
    Refusal::of(unsafe { raw::cb_check(description.as_ptr(), description.len()) })
}

/// Size and alignment of a type, in bytes.
#[derive(Clone, Copy, Debug, PartialEq, Eq)]
pub struct Extent {
    pub size: usize,
    pub align: usize,
}

/// Size and alignment of the type with this number: refused 1 to 8.
pub fn extent(description: &[u8], type_number: u8) -> Result<Extent, Refusal> {
    let mut extent = raw::Extent { size: 0, align: 0 };
    // Safety: pointer and length are those of one slice; the struct is this function's own.
    let answer = unsafe {
        raw::cb_type_extent(description.as_ptr(), description.len(), type_number, &mut extent)
    };
    Refusal::of(answer)?;
    Ok(Extent { size: extent.size, align: extent.align })
}

/// The classes of the supplement, section 3.2.3.
#[derive(Clone, Copy, Debug, PartialEq, Eq)]
pub enum Class {
    NoClass,
    Integer,
    Sse,
    SseUp,
    X87,
    X87Up,
    ComplexX87,
    Memory,
}

fn class_of(number: u8) -> Class {
    match number {
        1 => Class::Integer,
        2 => Class::Sse,
        3 => Class::SseUp,
        4 => Class::X87,
        5 => Class::X87Up,
        6 => Class::ComplexX87,
        7 => Class::Memory,
        _ => Class::NoClass,
    }
}

/// The classes of the type's first four eightbytes: refused 1 to 8.
pub fn classes(description: &[u8], type_number: u8) -> Result<[Class; 4], Refusal> {
    let mut classes = raw::Classes { first: 0, second: 0, third: 0, fourth: 0 };
    // Safety: as in `extent`.
    let answer = unsafe {
        raw::cb_type_classes(description.as_ptr(), description.len(), type_number, &mut classes)
    };
    Refusal::of(answer)?;
    Ok([classes.first, classes.second, classes.third, classes.fourth].map(class_of))
}

/// The type numbers of a struct's or union's members, as a part of the description; empty for
/// another kind of type. Refused 1 to 8.
pub fn members(description: &[u8], type_number: u8) -> Result<&[u8], Refusal> {
    let mut run = raw::Part::default();
    // Safety: as in `extent`.
    let answer = unsafe {
        raw::cb_member_run(description.as_ptr(), description.len(), type_number, &mut run)
    };
    Refusal::of(answer)?;
    Ok(&description[run.offset..run.offset + run.length])
}

/// Where each member of a struct or union lies in it, in bytes and in order; empty for another kind
/// of type. Refused 1 to 8.
pub fn offsets(description: &[u8], type_number: u8) -> Result<Vec<usize>, Refusal> {
    let mut offsets = vec![0; members(description, type_number)?.len()];
    // Safety: each pointer goes with the length of its slice; the list is this function's own.
    let answer = unsafe {
        let (list, room) = (offsets.as_mut_ptr(), offsets.len());
        raw::cb_member_offsets(description.as_ptr(), description.len(), type_number, list, room)
    };
    Refusal::of(answer)?;
    Ok(offsets)
}

/// The tidy form of the description: only the types that the call uses, equal ones once, each with a
/// run of its own. Two descriptions have the same one exactly where they describe the same call. Refused
/// 1 to 10, then 29 where the separate runs need over 255 members.
pub fn tidy(description: &[u8]) -> Result<Vec<u8>, Refusal> {
    let mut tidied = raw::Tidied::default();
    // Safety: as in `extent`.
    let answer =
        unsafe { raw::cb_tidy_length(description.as_ptr(), description.len(), &mut tidied) };
    Refusal::of(answer)?;
    let mut out = vec![0; tidied.length];
    // Safety: pointers and lengths are those of two slices, of which one is this function's own.
    let answer = unsafe {
        raw::cb_tidy(description.as_ptr(), description.len(), out.as_mut_ptr(), out.len())
    };
    Refusal::of(answer)?;
    Ok(out)
}

/// The layout as text, or the line `refused n`, or `refused n type t` where the refusal names a type.
pub fn listing(description: &[u8]) -> String {
    let mut out = [0u8; 8192];
    // Safety: pointer and length are those of one slice; `out` has the 8192 bytes that the call wants.
    let length =
        unsafe { raw::cb_write_listing(description.as_ptr(), description.len(), out.as_mut_ptr()) };
    String::from_utf8_lossy(&out[..length]).into_owned()
}
