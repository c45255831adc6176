//! Values into the images and out again.

use crate::layout::Layout;
use crate::raw;
use crate::Refusal;

/// Bytes of the register image: rdi, rsi, rdx, rcx, r8, r9 at 8 bytes, then xmm0 to xmm7 at 16.
pub const REGISTER_IMAGE: usize = 176;

/// Bytes of the upper image: bytes 16 to 31 of ymm0 to ymm7, at 16.
pub const UPPER_IMAGE: usize = 128;

/// The register image, the upper image and the stack image of one call.
#[derive(Clone, Debug, PartialEq, Eq)]
pub struct Images {
    pub registers: [u8; REGISTER_IMAGE],
    pub upper: [u8; UPPER_IMAGE],
    pub stack: Vec<u8>,
}

impl Images {
    /// Zeros, of the lengths that a call of this layout has.
    pub fn new(layout: &Layout) -> Images {
        Images {
            registers: [0; REGISTER_IMAGE],
            upper: [0; UPPER_IMAGE],
            stack: vec![0; layout.area],
        }
    }
}

/// Places the values, packed argument after argument, and zeros everywhere else. Answers how many
/// vector registers are used. Refused 1 to 10, 11 for a length, 27 for a hidden address of 2^32 or more
/// that is passed in ILP32, 12 for a `_Bool` that is not 0 or 1.
pub fn place(
    description: &[u8],
    hidden: u64,
    values: &[u8],
    images: &mut Images,
) -> Result<usize, Refusal> {
    let mut placed = raw::Placed { vector_registers: 0 };
    // Safety: each pointer and length are those of one slice, and the three that are written to are borrowed mutably.
    let answer = unsafe {
        raw::cb_place_values(
            description.as_ptr(),
            description.len(),
            hidden,
            values.as_ptr(),
            values.len(),
            images.registers.as_mut_ptr(),
            images.registers.len(),
            images.upper.as_mut_ptr(),
            images.upper.len(),
            images.stack.as_mut_ptr(),
            images.stack.len(),
            &mut placed,
        )
    };
    Refusal::of(answer)?;
    Ok(placed.vector_registers)
}

/// Gathers the values again, packed, into a buffer of the layout's `values` bytes. Answers the hidden
/// address, 0 where none is passed. Refused 1 to 10, 11 for a length.
pub fn gather(description: &[u8], images: &Images, values: &mut [u8]) -> Result<u64, Refusal> {
    let mut gathered = raw::Gathered { hidden: 0 };
    // Safety: as in `place`.
    let answer = unsafe {
        raw::cb_gather_values(
            description.as_ptr(),
            description.len(),
            images.registers.as_ptr(),
            images.registers.len(),
            images.upper.as_ptr(),
            images.upper.len(),
            images.stack.as_ptr(),
            images.stack.len(),
            values.as_mut_ptr(),
            values.len(),
            &mut gathered,
        )
    };
    Refusal::of(answer)?;
    Ok(gathered.hidden)
}

/// Bytes of the return image: rax, rdx at 8 bytes, then xmm0, xmm1, st0, st1 at 16.
pub const RETURN_IMAGE: usize = 80;

/// Bytes of the upper return image: bytes 16 to 31 of ymm0.
pub const RETURN_UPPER: usize = 16;

/// What a called function leaves.
#[derive(Clone, Copy, Debug, PartialEq, Eq)]
pub struct ReturnImages {
    pub image: [u8; RETURN_IMAGE],
    pub upper: [u8; RETURN_UPPER],
}

impl ReturnImages {
    /// Zeros.
    pub fn new() -> ReturnImages {
        ReturnImages { image: [0; RETURN_IMAGE], upper: [0; RETURN_UPPER] }
    }
}

impl Default for ReturnImages {
    fn default() -> ReturnImages {
        ReturnImages::new()
    }
}

/// Puts a returned value into the return images, zeros everywhere else: what the called function
/// leaves. A value in memory has length 0, and so has void. Refused 1 to 10, 11 for a length, 27 for a
/// hidden address of 2^32 or more that is returned in ILP32, 12 for a `_Bool` that is not 0 or 1.
pub fn put_returned(
    description: &[u8],
    hidden: u64,
    value: &[u8],
    images: &mut ReturnImages,
) -> Result<(), Refusal> {
    // Safety: as in `place`.
    Refusal::of(unsafe {
        raw::cb_put_returned(
            description.as_ptr(),
            description.len(),
            hidden,
            value.as_ptr(),
            value.len(),
            images.image.as_mut_ptr(),
            images.image.len(),
            images.upper.as_mut_ptr(),
            images.upper.len(),
        )
    })
}

/// Takes a returned value out of the return images. Answers the hidden address, 0 where none is
/// passed. Refused 1 to 10, 11 for a length.
pub fn take_returned(
    description: &[u8],
    images: &ReturnImages,
    value: &mut [u8],
) -> Result<u64, Refusal> {
    let mut taken = raw::Gathered { hidden: 0 };
    // Safety: as in `place`.
    let answer = unsafe {
        raw::cb_take_returned(
            description.as_ptr(),
            description.len(),
            images.image.as_ptr(),
            images.image.len(),
            images.upper.as_ptr(),
            images.upper.len(),
            value.as_mut_ptr(),
            value.len(),
            &mut taken,
        )
    };
    Refusal::of(answer)?;
    Ok(taken.hidden)
}
