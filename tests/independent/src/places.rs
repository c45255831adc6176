//! "Places": the layout, return places, refusals 8 to 10.

use crate::classes::{classes_of, Class, Classes, IN_MEMORY};
use crate::description::{Description, ARRAY, VOID};
use crate::refusal::{told, Refusal, Told};
use crate::types::{code, types, Types};
use crate::units::{Bytes, Eightbytes, Registers};

/// rdi, rsi, rdx, rcx, r8, r9
pub const GENERAL_REGISTERS: Registers = Registers(6);
/// xmm0..xmm7
pub const VECTOR_REGISTERS: Registers = Registers(8);
/// "rounded stack area over 16,384"
pub const LARGEST_AREA: Bytes = Bytes(16384);

/// A register, or an eightbyte chunk of a vector register, that holds one eightbyte.
/// Chunk 0 is the lowest, chunk 1 the upper half of xmm, 2 and 3 are bytes 16 to 31.
#[derive(Clone, Copy, Debug, PartialEq, Eq)]
pub enum Register {
    General(usize),
    Vector(usize, Eightbytes),
}

/// "either its registers in eightbyte order or its stack offset"
#[derive(Clone, Debug, PartialEq, Eq)]
pub enum Place {
    Registers(Vec<Register>),
    Stack(Bytes),
}

/// "One placement record for each argument"; 02: "Each placement record gains the
/// offset of the argument in the packed values and a named mark."
#[derive(Clone, Debug, PartialEq, Eq)]
pub struct Placement {
    pub type_number: u8,
    pub size: Bytes,
    pub alignment: Bytes,
    pub place: Place,
    pub value: Bytes,
    pub named: bool,
}

#[derive(Clone, Copy, Debug, PartialEq, Eq)]
pub enum ReturnRegister {
    Rax,
    Rdx,
    /// An eightbyte chunk of xmm0.
    Xmm0(Eightbytes),
    Xmm1,
    St0,
    St1,
}

#[derive(Clone, Debug, PartialEq, Eq)]
pub enum ReturnPlace {
    Void,
    Memory(u8),
    Registers(u8, Vec<ReturnRegister>),
}

/// What is taken after some of the arguments (and the hidden address).
#[derive(Clone, Copy, Debug, Default, PartialEq, Eq)]
pub struct Taken {
    pub general: Registers,
    pub vector: Registers,
    /// End of the stack arguments so far, a multiple of 8.
    pub stack: Bytes,
}

/// The answer of the layout.
#[derive(Clone, Debug, PartialEq, Eq)]
pub struct Layout {
    pub placements: Vec<Placement>,
    /// Entry p: what is taken before the argument at position p; entry A: at
    /// the end.
    pub taken: Vec<Taken>,
    pub hidden_address: bool,
    pub area: Bytes,
    /// 16, or 32 where an argument on the stack is aligned to 32.
    pub area_alignment: Bytes,
    pub return_place: ReturnPlace,
}

impl Layout {
    /// "registers used (hidden address included)"
    pub fn registers_used(&self) -> Registers {
        self.at_end().general
    }

    /// "The vector count (for al) is the number of vector registers used."
    pub fn vector_count(&self) -> Registers {
        self.at_end().vector
    }

    fn at_end(&self) -> Taken {
        self.taken[self.placements.len()]
    }

    /// "Values come packed, argument after argument, size bytes each, no gaps."
    pub fn values_length(&self) -> usize {
        self.placements.iter().map(|placement| placement.size.0).sum()
    }
}

/// 8: "return or argument number not below T (255 return apart), or an array".
fn has_wrong_type_number(description: Description) -> bool {
    let wrong = |number: u8| {
        number as usize >= description.types() || description.record(number).kind == ARRAY
    };
    let returned = description.return_number();
    (returned != VOID && wrong(returned))
        || (0..description.arguments()).any(|position| wrong(description.argument(position)))
}

/// 9: "an unnamed _Bool, char, short or float".
fn has_unnamed_small(types: &Types) -> bool {
    let description = types.description();
    let small = [code::BOOL, code::CHAR, code::SHORT, code::FLOAT];
    (description.named()..description.arguments()).any(|position| {
        let number = description.argument(position);
        small.iter().any(|&basic| types.is_basic(number, basic))
    })
}

/// The four classes of __m256: "SSE and three SSEUP".
pub fn is_wide(classes: Classes) -> bool {
    classes == [Class::Sse, Class::SseUp, Class::SseUp, Class::SseUp]
}

/// num_gp and num_fp: the registers that an argument of these classes needs,
/// or nothing where it goes on the stack in any case: "MEMORY, X87, X87UP and
/// COMPLEX_X87 go on the stack", and "A named argument of these four classes takes
/// one vector register; an unnamed one, structures included, is always on the
/// stack" (02, 2026-06).
pub fn registers_needed(classes: Classes, named: bool) -> Option<(Registers, Registers)> {
    if !named && is_wide(classes) {
        return None;
    }
    let mut general = Registers(0);
    let mut vector = Registers(0);
    for class in classes {
        match class {
            Class::Integer => general += Registers(1),
            Class::Sse => vector += Registers(1),
            Class::SseUp | Class::NoClass => {}
            Class::Memory | Class::X87 | Class::X87Up | Class::ComplexX87 => return None,
        }
    }
    Some((general, vector))
}

/// The next registers for these classes, in eightbyte order: "INTEGER takes the
/// next of rdi, rsi, rdx, rcx, r8, r9; SSE the next of xmm0..xmm7; SSEUP the
/// upper half of the last vector register", which is "the next available eightbyte
/// chunk of the last used vector register" (000).
fn next_registers(classes: Classes, taken: &mut Taken) -> Vec<Register> {
    let mut registers = Vec::new();
    let mut chunk = Eightbytes(0);
    for class in classes {
        match class {
            Class::Integer => {
                registers.push(Register::General(taken.general.0));
                taken.general += Registers(1);
            }
            Class::Sse => {
                chunk = Eightbytes(0);
                registers.push(Register::Vector(taken.vector.0, chunk));
                taken.vector += Registers(1);
            }
            Class::SseUp => {
                chunk = Eightbytes(chunk.0 + 1);
                registers.push(Register::Vector(taken.vector.0 - 1, chunk));
            }
            _ => {}
        }
    }
    registers
}

/// "If any eightbyte finds no register, the whole argument goes on the stack
/// and takes none; a later argument may still use those left."
fn place(types: &Types, type_number: u8, named: bool, taken: &mut Taken) -> Place {
    let classes = classes_of(types, type_number);
    if let Some((general, vector)) = registers_needed(classes, named) {
        let fits = taken.general + general <= GENERAL_REGISTERS
            && taken.vector + vector <= VECTOR_REGISTERS;
        if fits {
            return Place::Registers(next_registers(classes, taken));
        }
    }
    stack_place(types, type_number, taken)
}

/// "A stack argument has the lowest offset, after the one before, that is a
/// multiple of 8 and of its alignment; the room it takes is rounded up to 8."
/// "Stack places honour 32."
fn stack_place(types: &Types, type_number: u8, taken: &mut Taken) -> Place {
    let measure = types.measure(type_number);
    // Alignments are powers of two: the larger is a multiple of the smaller.
    let offset = taken.stack.raised_to(measure.alignment.max(Bytes(8)));
    taken.stack = offset + measure.size.raised_to(Bytes(8));
    Place::Stack(offset)
}

/// "rax, rdx; xmm0, xmm1; xmm0 and its upper half; X87 st0; COMPLEX_X87 st0 and
/// st1", in eightbyte order. SSEUP is "the next available eightbyte chunk of the last
/// used vector register" (000), which is xmm0: xmm1 is used for a lone SSE only.
fn return_registers(classes: Classes) -> Vec<ReturnRegister> {
    let mut general = [ReturnRegister::Rax, ReturnRegister::Rdx].into_iter();
    let first = ReturnRegister::Xmm0(Eightbytes(0));
    let mut vector = [first, ReturnRegister::Xmm1].into_iter();
    let mut chunk = Eightbytes(0);
    let mut registers = Vec::new();
    for class in classes {
        match class {
            Class::Integer => registers.extend(general.next()),
            Class::Sse => registers.extend(vector.next()),
            Class::SseUp => {
                chunk = Eightbytes(chunk.0 + 1);
                registers.push(ReturnRegister::Xmm0(chunk));
            }
            Class::X87 => registers.push(ReturnRegister::St0),
            Class::ComplexX87 => registers.extend([ReturnRegister::St0, ReturnRegister::St1]),
            // X87UP comes back together with the X87 before it.
            Class::X87Up | Class::NoClass | Class::Memory => {}
        }
    }
    registers
}

fn return_place(types: &Types) -> ReturnPlace {
    let number = types.description().return_number();
    if number == VOID {
        return ReturnPlace::Void;
    }
    let classes = classes_of(types, number);
    if classes == IN_MEMORY {
        ReturnPlace::Memory(number)
    } else {
        ReturnPlace::Registers(number, return_registers(classes))
    }
}

/// "If the return type's class is MEMORY, a hidden address takes rdi first."
fn taken_at_first(return_place: &ReturnPlace) -> Taken {
    match return_place {
        ReturnPlace::Memory(_) => Taken { general: Registers(1), ..Taken::default() },
        _ => Taken::default(),
    }
}

/// 000, section 3.2.2: "The end of the input argument area shall be aligned on a 16
/// (32 or 64, if __m256 or __m512 is passed on stack) byte boundary"; 02: "an area
/// with a 32-byte aligned argument on it is rounded up to 32".
fn area_alignment(placements: &[Placement]) -> Bytes {
    let on_stack = |placement: &&Placement| matches!(placement.place, Place::Stack(_));
    let alignments = placements.iter().filter(on_stack).map(|placement| placement.alignment);
    alignments.max().unwrap_or(Bytes(0)).max(Bytes(16))
}

/// "Values come packed, argument after argument, size bytes each, no gaps": where the
/// next value begins.
fn value_start(before: &[Placement]) -> Bytes {
    before.last().map_or(Bytes(0), |last| Bytes(last.value.0 + last.size.0))
}

/// "Arguments follow left to right."
pub fn laid_out(types: &Types) -> Layout {
    let description = types.description();
    let return_place = return_place(types);
    let mut now = taken_at_first(&return_place);
    let mut taken = vec![now];
    let mut placements = Vec::new();
    for position in 0..description.arguments() {
        let type_number = description.argument(position);
        let measure = types.measure(type_number);
        let named = position < description.named();
        let place = place(types, type_number, named, &mut now);
        placements.push(Placement {
            type_number,
            size: measure.size,
            alignment: measure.alignment,
            place,
            value: value_start(&placements),
            named,
        });
        taken.push(now);
    }
    let area_alignment = area_alignment(&placements);
    Layout {
        placements,
        taken,
        hidden_address: matches!(return_place, ReturnPlace::Memory(_)),
        area: now.stack.raised_to(area_alignment),
        area_alignment,
        return_place,
    }
}

/// A description that passed 1 to 10, its types and its layout.
#[derive(Clone, Debug)]
pub struct Accepted<'a> {
    pub types: Types<'a>,
    pub layout: Layout,
}

/// Refusals 1 to 9.
pub fn usable(bytes: &[u8]) -> Result<Types<'_>, Refusal> {
    let types = types(bytes)?;
    if has_wrong_type_number(types.description()) {
        return Err(Refusal::WrongTypeNumber);
    }
    if has_unnamed_small(&types) {
        return Err(Refusal::UnnamedSmall);
    }
    Ok(types)
}

/// Refusals 1 to 10, "as numbered, each over the whole description".
pub fn accepted(bytes: &[u8]) -> Result<Accepted<'_>, Refusal> {
    let types = usable(bytes)?;
    let layout = laid_out(&types);
    if layout.area > LARGEST_AREA {
        return Err(Refusal::AreaTooLarge);
    }
    Ok(Accepted { types, layout })
}

/// 0, or the refusal of the whole description.
pub fn check(bytes: &[u8]) -> Told {
    told(&accepted(bytes))
}

/// "Layout: 1..10, 11." One record for each argument goes into the lent list;
/// "Entries past A stay."
pub fn layout(bytes: &[u8], list: &mut [Placement]) -> Result<Layout, Refusal> {
    let layout = accepted(bytes)?.layout;
    if list.len() < layout.placements.len() {
        return Err(Refusal::WrongLength);
    }
    list[..layout.placements.len()].clone_from_slice(&layout.placements);
    Ok(layout)
}
