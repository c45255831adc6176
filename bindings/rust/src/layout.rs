//! Where the arguments of a call go.

use crate::raw;
use crate::Refusal;
use std::fmt;

/// A register, or the upper half of a vector register, that holds one eightbyte; or a whole vector
/// register of 32 bytes.
#[derive(Clone, Copy, Debug, PartialEq, Eq)]
pub enum Register {
    /// rdi, rsi, rdx, rcx, r8, r9: 0 to 5.
    General(u8),
    /// xmm0 to xmm7.
    Vector(u8),
    /// The upper half of xmm0 to xmm7.
    Upper(u8),
    /// All 32 bytes of ymm0 to ymm7.
    Wide(u8),
    /// Returned values only.
    Rax,
    St0,
    St1,
}

impl Register {
    /// Where its bytes begin in the register image, of a wide one bytes 0 to 15; none for rax, st0 and st1.
    pub fn offset(self) -> Option<usize> {
        match self {
            Register::General(number) => Some(8 * number as usize),
            Register::Vector(number) | Register::Wide(number) => Some(48 + 16 * number as usize),
            Register::Upper(number) => Some(56 + 16 * number as usize),
            Register::Rax | Register::St0 | Register::St1 => None,
        }
    }

    /// Where bytes 16 to 31 of a wide one begin in the upper image; none for the others.
    pub fn upper_offset(self) -> Option<usize> {
        match self {
            Register::Wide(number) => Some(16 * number as usize),
            _ => None,
        }
    }

    fn of(number: u8) -> Option<Register> {
        match number {
            0..=5 => Some(Register::General(number)),
            raw::RAX => Some(Register::Rax),
            raw::ST0 => Some(Register::St0),
            raw::ST1 => Some(Register::St1),
            16..=23 => Some(Register::Vector(number - raw::XMM0)),
            32..=39 => Some(Register::Upper(number - raw::XMM0H)),
            48..=55 => Some(Register::Wide(number - raw::XMM0Y)),
            _ => None,
        }
    }
}

impl fmt::Display for Register {
    fn fmt(&self, formatter: &mut fmt::Formatter<'_>) -> fmt::Result {
        match self {
            Register::General(number) => {
                let names = ["rdi", "rsi", "rdx", "rcx", "r8", "r9"];
                formatter.write_str(names.get(*number as usize).copied().unwrap_or("?"))
            }
            Register::Vector(number) => write!(formatter, "xmm{number}"),
            Register::Upper(number) => write!(formatter, "xmm{number}h"),
            Register::Wide(number) => write!(formatter, "xmm{number}y"),
            Register::Rax => formatter.write_str("rax"),
            Register::St0 => formatter.write_str("st0"),
            Register::St1 => formatter.write_str("st1"),
        }
    }
}

/// Where an argument is: registers in eightbyte order, or an offset of the stack image.
#[derive(Clone, Copy, Debug, PartialEq, Eq)]
pub enum Place {
    One(Register),
    Two(Register, Register),
    Stack(usize),
}

impl fmt::Display for Place {
    fn fmt(&self, formatter: &mut fmt::Formatter<'_>) -> fmt::Result {
        match self {
            Place::One(first) => write!(formatter, "{first}"),
            Place::Two(first, second) => write!(formatter, "{first} {second}"),
            Place::Stack(offset) => write!(formatter, "stack {offset}"),
        }
    }
}

/// One argument.
#[derive(Clone, Copy, Debug, PartialEq, Eq)]
pub struct Placement {
    pub type_number: u8,
    pub size: usize,
    pub align: usize,
    pub place: Place,
    /// Where its value begins in the packed values.
    pub value: usize,
    /// Whether it is one of the named arguments.
    pub named: bool,
}

/// Where a value is returned.
#[derive(Clone, Copy, Debug, PartialEq, Eq)]
pub enum Returned {
    Void,
    /// At the address that the caller passes in rdi.
    Memory,
    One(Register),
    Two(Register, Register),
}

/// A call as a whole.
#[derive(Clone, Copy, Debug, PartialEq, Eq)]
pub struct Layout {
    /// General registers used, the hidden address included.
    pub general_registers: usize,
    /// Vector registers used: what a variadic function wants in al.
    pub vector_registers: usize,
    /// Bytes of the stack image.
    pub area: usize,
    /// Of the stack image's first byte in the real stack: 32 where an argument that is aligned to 32 lies
    /// there, else 16.
    pub area_alignment: usize,
    /// Bytes of all values, packed.
    pub values: usize,
    /// Bytes of the returned value, in memory too; 0 for void.
    pub return_size: usize,
    pub arguments: usize,
    pub returned: Returned,
}

const NO_LAYOUT: raw::Layout = raw::Layout {
    general_registers: 0,
    vector_registers: 0,
    stack_end: 0,
    area: 0,
    area_alignment: 0,
    values: 0,
    return_size: 0,
    named_general_registers: 0,
    named_vector_registers: 0,
    named_stack_end: 0,
    arguments: 0,
    return_first: raw::NONE,
    return_second: raw::NONE,
    hidden: 0,
    reserved: [0; 5],
};

const NO_PLACEMENT: raw::Placement = raw::Placement {
    size: 0,
    align: 0,
    offset: 0,
    value: 0,
    type_number: 0,
    first: raw::NONE,
    second: raw::NONE,
    named: 0,
    reserved: [0; 4],
};

fn layout_from(of: &raw::Layout) -> Layout {
    let returned = match (Register::of(of.return_first), Register::of(of.return_second)) {
        (Some(first), Some(second)) => Returned::Two(first, second),
        (Some(first), None) => Returned::One(first),
        _ if of.hidden != 0 => Returned::Memory,
        _ => Returned::Void,
    };
    Layout {
        general_registers: of.general_registers,
        vector_registers: of.vector_registers,
        area: of.area,
        area_alignment: of.area_alignment,
        values: of.values,
        return_size: of.return_size,
        arguments: of.arguments,
        returned,
    }
}

fn placement_from(of: &raw::Placement) -> Placement {
    let place = match (Register::of(of.first), Register::of(of.second)) {
        (Some(first), Some(second)) => Place::Two(first, second),
        (Some(first), None) => Place::One(first),
        _ => Place::Stack(of.offset),
    };
    Placement {
        type_number: of.type_number,
        size: of.size,
        align: of.align,
        place,
        value: of.value,
        named: of.named != 0,
    }
}

/// The layout of a call: refused 1 to 10.
pub fn layout(description: &[u8]) -> Result<Layout, Refusal> {
    let mut layout = NO_LAYOUT;
    // Safety: pointer and length are those of one slice; the struct is this function's own.
    let answer = unsafe { raw::cb_layout_of(description.as_ptr(), description.len(), &mut layout) };
    Refusal::of(answer)?;
    Ok(layout_from(&layout))
}

/// Whether an argument goes to the stack, and how many arguments were looked at to know it: up to the
/// first that does, or all of them.
#[derive(Clone, Copy, Debug, PartialEq, Eq)]
pub struct StackNeed {
    pub needed: bool,
    pub looked: usize,
}

/// Whether the call needs the stack, told at the first argument that goes there: as `area != 0` of its
/// layout. Refused 1 to 9; a call whose area is too large needs the stack.
pub fn needs_stack(description: &[u8]) -> Result<StackNeed, Refusal> {
    let mut need = raw::StackNeed::default();
    // Safety: as in `layout`.
    let answer = unsafe { raw::cb_needs_stack(description.as_ptr(), description.len(), &mut need) };
    Refusal::of(answer)?;
    Ok(StackNeed { needed: need.needed != 0, looked: need.looked })
}

/// As `layout`, and one placement for each argument, in order.
pub fn lay_out(description: &[u8]) -> Result<(Layout, Vec<Placement>), Refusal> {
    let mut layout = NO_LAYOUT;
    let mut list = [NO_PLACEMENT; 64];
    // Safety: as in `layout`; the list has as many records as are said.
    let answer = unsafe {
        raw::cb_lay_out(
            description.as_ptr(),
            description.len(),
            &mut layout,
            list.as_mut_ptr(),
            list.len(),
        )
    };
    Refusal::of(answer)?;
    let placements = list[..layout.arguments].iter().map(placement_from).collect();
    Ok((layout_from(&layout), placements))
}
