//! include/callbridge.h, word for word: the same structs, constants and functions.
//!
//! What a caller must keep to stands in the header: buffers with their own lengths, none of which
//! overlap where one is written to, and no null pointer but for a buffer of length 0.
//!
//! No struct has padding. Its `reserved` bytes are written as zero wherever the struct is written, and
//! never looked at.

/// Limits of a description, and what its bytes 3 and 4 say.
pub const FORMAT_VERSION: u16 = 1;
pub const MAX_TYPES: usize = 64;
pub const MAX_MEMBERS: usize = 255;
pub const MAX_ARGUMENTS: usize = 64;
pub const MAX_ELEMENTS: usize = 4096;

/// Byte 9 of a description where nothing is returned.
pub const VOID: u8 = 255;

/// Bits of byte 6 of a description.
pub const VARIADIC: u8 = 1;
pub const ILP32: u8 = 2;

/// Kinds of a type: the first byte of its record.
pub const BASIC: u8 = 0;
pub const ARRAY: u8 = 1;
pub const STRUCT: u8 = 2;
pub const UNION: u8 = 3;

/// Codes of basic types: the second byte of such a record.
pub const BOOL: u8 = 0;
pub const CHAR: u8 = 1;
pub const SHORT: u8 = 2;
pub const INT: u8 = 3;
pub const LONG: u8 = 4;
pub const INT128: u8 = 5;
pub const FLOAT: u8 = 6;
pub const DOUBLE: u8 = 7;
pub const LONG_DOUBLE: u8 = 8;
pub const FLOAT128: u8 = 9;
pub const M64: u8 = 10;
pub const M128: u8 = 11;
pub const COMPLEX_FLOAT: u8 = 12;
pub const COMPLEX_DOUBLE: u8 = 13;
pub const COMPLEX_LONG_DOUBLE: u8 = 14;
pub const POINTER: u8 = 15;
pub const M256: u8 = 16;

/// Why a call was refused, number 0 for none. `type_number` is a type's where `number` is 6 or 7, and 0
/// otherwise.
#[repr(C)]
#[derive(Clone, Copy, Debug, PartialEq, Eq)]
pub struct Refusal {
    pub number: u8,
    pub type_number: u8,
}

#[repr(C)]
#[derive(Clone, Copy, Debug, PartialEq, Eq)]
pub struct Extent {
    pub size: usize,
    pub align: usize,
}

#[repr(C)]
#[derive(Clone, Copy, Debug, PartialEq, Eq)]
pub struct Classes {
    pub first: u8,
    pub second: u8,
    pub third: u8,
    pub fourth: u8,
}

/// What a part is a part of.
pub const NOWHERE: u8 = 0;
pub const DESCRIPTION: u8 = 1;
pub const REGISTERS: u8 = 2;
pub const STACK: u8 = 3;

/// The default is the empty part, which a refused call gives.
#[repr(C)]
#[derive(Clone, Copy, Debug, Default, PartialEq, Eq)]
pub struct Part {
    pub offset: usize,
    pub length: usize,
    pub image: u8,
    pub reserved: [u8; 7],
}

/// Registers as numbers: rdi to r9 from 0, and these.
pub const RDX: u8 = 2;
pub const RAX: u8 = 6;
pub const ST0: u8 = 8;
pub const ST1: u8 = 9;
pub const XMM0: u8 = 16;
pub const XMM0H: u8 = 32;
pub const XMM0Y: u8 = 48;
pub const NONE: u8 = 255;

#[repr(C)]
#[derive(Clone, Copy, Debug, PartialEq, Eq)]
pub struct Placement {
    pub size: usize,
    pub align: usize,
    pub offset: usize,
    pub value: usize,
    pub type_number: u8,
    pub first: u8,
    pub second: u8,
    pub named: u8,
    pub reserved: [u8; 4],
}

#[repr(C)]
#[derive(Clone, Copy, Debug, PartialEq, Eq)]
pub struct Layout {
    pub general_registers: usize,
    pub vector_registers: usize,
    pub stack_end: usize,
    pub area: usize,
    pub area_alignment: usize,
    pub values: usize,
    pub return_size: usize,
    pub named_general_registers: usize,
    pub named_vector_registers: usize,
    pub named_stack_end: usize,
    pub arguments: usize,
    pub return_first: u8,
    pub return_second: u8,
    pub hidden: u8,
    pub reserved: [u8; 5],
}

#[repr(C)]
#[derive(Clone, Copy, Debug, Default, PartialEq, Eq)]
pub struct StackNeed {
    pub looked: usize,
    pub needed: u8,
    pub reserved: [u8; 7],
}

#[repr(C)]
#[derive(Clone, Copy, Debug, Default, PartialEq, Eq)]
pub struct Tidied {
    pub length: usize,
}

#[repr(C)]
#[derive(Clone, Copy, Debug, PartialEq, Eq)]
pub struct Placed {
    pub vector_registers: usize,
}

#[repr(C)]
#[derive(Clone, Copy, Debug, PartialEq, Eq)]
pub struct Gathered {
    pub hidden: u64,
}

/// `attached` is 0 where nothing is attached; the library writes 1 where something is, and takes any
/// other number as 1. The default is what `cb_new_station` gives.
#[repr(C)]
#[derive(Clone, Copy, Debug, Default, PartialEq, Eq)]
pub struct Station {
    pub length: usize,
    pub number: u32,
    pub attached: u8,
    pub reserved: [u8; 3],
}

#[repr(C)]
#[derive(Clone, Copy, Debug, Default, PartialEq, Eq)]
pub struct Walk {
    pub position: usize,
    pub general: usize,
    pub vector: usize,
    pub overflow: usize,
    pub number: u32,
    pub reserved: [u8; 4],
}

extern "C" {
    pub fn cb_version() -> u32;
    pub fn cb_check(d: *const u8, n: usize) -> Refusal;
    pub fn cb_type_extent(d: *const u8, n: usize, asked: u8, extent: *mut Extent) -> Refusal;
    pub fn cb_type_classes(d: *const u8, n: usize, asked: u8, classes: *mut Classes) -> Refusal;
    pub fn cb_member_run(d: *const u8, n: usize, asked: u8, run: *mut Part) -> Refusal;
    pub fn cb_member_offsets(
        d: *const u8,
        n: usize,
        asked: u8,
        offsets: *mut usize,
        room: usize,
    ) -> Refusal;
    pub fn cb_layout_of(d: *const u8, n: usize, layout: *mut Layout) -> Refusal;
    pub fn cb_needs_stack(d: *const u8, n: usize, need: *mut StackNeed) -> Refusal;
    pub fn cb_lay_out(
        d: *const u8,
        n: usize,
        layout: *mut Layout,
        list: *mut Placement,
        room: usize,
    ) -> Refusal;
    pub fn cb_write_listing(d: *const u8, n: usize, out: *mut u8) -> usize;
    pub fn cb_tidy_length(d: *const u8, n: usize, tidied: *mut Tidied) -> Refusal;
    pub fn cb_tidy(d: *const u8, n: usize, out: *mut u8, out_length: usize) -> Refusal;
    pub fn cb_place_values(
        d: *const u8,
        n: usize,
        hidden: u64,
        values: *const u8,
        values_length: usize,
        registers: *mut u8,
        registers_length: usize,
        upper: *mut u8,
        upper_length: usize,
        stack: *mut u8,
        stack_length: usize,
        placed: *mut Placed,
    ) -> Refusal;
    pub fn cb_gather_values(
        d: *const u8,
        n: usize,
        registers: *const u8,
        registers_length: usize,
        upper: *const u8,
        upper_length: usize,
        stack: *const u8,
        stack_length: usize,
        values: *mut u8,
        values_length: usize,
        gathered: *mut Gathered,
    ) -> Refusal;
    pub fn cb_put_returned(
        d: *const u8,
        n: usize,
        hidden: u64,
        value: *const u8,
        value_length: usize,
        image: *mut u8,
        image_length: usize,
        upper: *mut u8,
        upper_length: usize,
    ) -> Refusal;
    pub fn cb_take_returned(
        d: *const u8,
        n: usize,
        image: *const u8,
        image_length: usize,
        upper: *const u8,
        upper_length: usize,
        value: *mut u8,
        value_length: usize,
        taken: *mut Gathered,
    ) -> Refusal;
    pub fn cb_new_station() -> Station;
    pub fn cb_attach(
        station: *mut Station,
        seat: *mut u8,
        seat_length: usize,
        d: *const u8,
        n: usize,
    ) -> Refusal;
    pub fn cb_detach(station: *mut Station, seat: *mut u8, seat_length: usize) -> Refusal;
    pub fn cb_change(
        station: *mut Station,
        seat: *mut u8,
        seat_length: usize,
        d: *const u8,
        n: usize,
    ) -> Refusal;
    pub fn cb_open_walk(
        station: *const Station,
        seat: *const u8,
        seat_length: usize,
        walk: *mut Walk,
    ) -> Refusal;
    pub fn cb_step(
        station: *const Station,
        seat: *const u8,
        seat_length: usize,
        walk: *mut Walk,
        registers: *const u8,
        registers_length: usize,
        stack: *const u8,
        stack_length: usize,
        asked: u8,
        out: *mut u8,
        out_length: usize,
    ) -> Refusal;
    pub fn cb_finish_walk(
        station: *const Station,
        seat: *const u8,
        seat_length: usize,
        walk: *mut Walk,
        registers: *const u8,
        registers_length: usize,
        stack: *const u8,
        stack_length: usize,
        types: *const u8,
        types_length: usize,
        out: *mut u8,
        out_length: usize,
    ) -> Refusal;
    pub fn cb_show(
        station: *const Station,
        seat: *const u8,
        seat_length: usize,
        walk: *const Walk,
        registers: *const u8,
        registers_length: usize,
        stack: *const u8,
        stack_length: usize,
        asked: u8,
        part: *mut Part,
    ) -> Refusal;
}
