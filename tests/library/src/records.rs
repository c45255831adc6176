//! The structs of include/callbridge.h that calls fill or read: their fields by name, in the order in which the driver sends them, and
//! what a call leaves in one that it was lent.

use independent::station;
use independent::walk;

/// In each byte of what a call fills, before the call.
pub const FILLING: u8 = 0xEE;

pub trait Fields: Sized {
    /// Before a call.
    const FILLED: Self;

    /// Each field's name and number, in order.
    fn each(&self, take: impl FnMut(&'static str, u64));
}

/// What a field may be: a number, or reserved bytes.
pub trait Field: Copy {
    const FILLED: Self;

    /// As the driver sends it.
    fn sent(self) -> u64;
}

macro_rules! numbers {
    ($($width:ty)*) => { $(
        impl Field for $width {
            const FILLED: $width = <$width>::from_le_bytes([FILLING; size_of::<$width>()]);

            fn sent(self) -> u64 {
                self.into()
            }
        }
    )* };
}

numbers! { u8 u32 u64 }

impl<const COUNT: usize> Field for [u8; COUNT] {
    const FILLED: [u8; COUNT] = [FILLING; COUNT];

    fn sent(self) -> u64 {
        self.iter().rev().fold(0, |sum, &byte| 256 * sum + u64::from(byte))
    }
}

macro_rules! structs {
    ($($name:ident { $($field:ident: $width:ty,)* })*) => { $(
        #[derive(Clone, Copy)]
        pub struct $name {
            $(pub $field: $width,)*
        }

        impl Fields for $name {
            const FILLED: $name = $name {
                $($field: <$width as Field>::FILLED,)*
            };

            fn each(&self, mut take: impl FnMut(&'static str, u64)) {
                $(take(stringify!($field), self.$field.sent());)*
            }
        }
    )* };
}

structs! {
    Extent { size: u64, align: u64, }
    Classes { first: u8, second: u8, third: u8, fourth: u8, }
    Offset { offset: u64, }
    Part { offset: u64, length: u64, image: u8, reserved: [u8; 7], }
    Placement {
        size: u64,
        align: u64,
        offset: u64,
        value: u64,
        type_number: u8,
        first: u8,
        second: u8,
        named: u8,
        reserved: [u8; 4],
    }
    Layout {
        general_registers: u64,
        vector_registers: u64,
        stack_end: u64,
        area: u64,
        area_alignment: u64,
        values: u64,
        return_size: u64,
        named_general_registers: u64,
        named_vector_registers: u64,
        named_stack_end: u64,
        arguments: u64,
        return_first: u8,
        return_second: u8,
        hidden: u8,
        reserved: [u8; 5],
    }
    Placed { vector_registers: u64, }
    Gathered { hidden: u64, }
    StackNeed { looked: u64, needed: u8, reserved: [u8; 7], }
    Tidied { length: u64, }
    Station { length: u64, number: u32, attached: u8, reserved: [u8; 3], }
    Walk {
        position: u64,
        general: u64,
        vector: u64,
        overflow: u64,
        number: u32,
        reserved: [u8; 4],
    }
}

impl Part {
    /// No part.
    pub const EMPTY: Part = Part { offset: 0, length: 0, image: NOWHERE, reserved: [0; 7] };

    pub fn new(image: u8, offset: usize, length: usize) -> Part {
        Part { offset: offset as u64, length: length as u64, image, reserved: [0; 7] }
    }
}

/// What the library writes for a station and for a walk.
impl From<station::Station> for Station {
    fn from(of: station::Station) -> Station {
        Station {
            length: of.length as u64,
            number: of.number,
            attached: of.attached.into(),
            reserved: [0; 3],
        }
    }
}

impl From<walk::Walk> for Walk {
    fn from(of: walk::Walk) -> Walk {
        Walk {
            position: of.position,
            general: of.gp_offset,
            vector: of.fp_offset,
            overflow: of.overflow,
            number: of.number,
            reserved: [0; 4],
        }
    }
}

/// A struct that a call fills. What a refused call leaves in it is said here and nowhere else.
pub trait Lent: Sized {
    fn refused(before: Self) -> Self {
        before
    }
}

impl Lent for Extent {}
impl Lent for Classes {}
impl Lent for Layout {}
impl Lent for Placed {}
impl Lent for Gathered {}
impl Lent for StackNeed {}
impl Lent for Tidied {}
impl Lent for Station {}
impl Lent for Walk {}

/// A part is an answer and not lent: a refused call makes it the empty part.
impl Lent for Part {
    fn refused(_: Part) -> Part {
        Part::EMPTY
    }
}

/// What a call leaves in a struct that held `before`: what it gives, or what a refusal leaves.
pub fn left<Struct: Lent, Why>(before: Struct, given: Result<Struct, Why>) -> Struct {
    given.unwrap_or(Struct::refused(before))
}

// ---- the numbers of the header

/// What a part is a part of.
pub const NOWHERE: u8 = 0;
pub const DESCRIPTION: u8 = 1;
pub const REGISTERS: u8 = 2;
pub const STACK: u8 = 3;

/// Registers: rdi to r9 from 0, and these.
pub const RDX: u8 = 2;
pub const RAX: u8 = 6;
pub const ST0: u8 = 8;
pub const ST1: u8 = 9;
pub const XMM0: u8 = 16;
pub const XMM0H: u8 = 32;
pub const XMM0Y: u8 = 48;
pub const NONE: u8 = 255;

/// Bytes of the buffer of cb_write_listing.
pub const LISTING_ROOM: usize = 8192;
