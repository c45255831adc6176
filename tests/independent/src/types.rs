//! Sizes and alignments, refusal 7, and the questions for a member run and for
//! the members' offsets.

use crate::description::{form, Description, Model, Record, ARRAY, BASIC, STRUCT, UNION};
use crate::refusal::Refusal;
use crate::units::Bytes;
use std::ops::Range;

/// "a type over 4,096 bytes"
pub const LARGEST: Bytes = Bytes(4096);

/// The codes of the basic types that are spoken of by name.
pub mod code {
    pub const BOOL: u8 = 0;
    pub const CHAR: u8 = 1;
    pub const SHORT: u8 = 2;
    pub const INT: u8 = 3;
    pub const LONG: u8 = 4;
    pub const INT128: u8 = 5;
    pub const FLOAT: u8 = 6;
    pub const DOUBLE: u8 = 7;
    pub const LONG_DOUBLE: u8 = 8;
    pub const FLOAT128: u8 = 9;
    pub const M64: u8 = 10;
    pub const M128: u8 = 11;
    pub const COMPLEX_FLOAT: u8 = 12;
    pub const COMPLEX_DOUBLE: u8 = 13;
    pub const COMPLEX_LONG_DOUBLE: u8 = 14;
    pub const POINTER: u8 = 15;
    pub const M256: u8 = 16;
}

#[derive(Clone, Copy, Debug, PartialEq, Eq)]
pub struct Measure {
    pub size: Bytes,
    pub alignment: Bytes,
}

fn measure(size: usize, alignment: usize) -> Measure {
    Measure { size: Bytes(size), alignment: Bytes(alignment) }
}

/// "Pointers (code 15) become 4 bytes, alignment 4" (02, 2026-11).
fn pointer_measure(model: Model) -> Measure {
    match model {
        Model::Lp64 => measure(8, 8),
        Model::Ilp32 => measure(4, 4),
    }
}

/// The column "Size/align" of the table of codes.
pub fn basic_measure(model: Model, basic: u8) -> Measure {
    match basic {
        code::BOOL | code::CHAR => measure(1, 1),
        code::SHORT => measure(2, 2),
        code::INT | code::FLOAT => measure(4, 4),
        code::LONG | code::DOUBLE | code::M64 => measure(8, 8),
        code::POINTER => pointer_measure(model),
        code::INT128 | code::LONG_DOUBLE | code::FLOAT128 | code::M128 => measure(16, 16),
        code::COMPLEX_FLOAT => measure(8, 4),
        code::COMPLEX_DOUBLE => measure(16, 8),
        code::COMPLEX_LONG_DOUBLE => measure(32, 16),
        // "Code 16 is __m256: size and alignment 32" (02, 2026-06).
        code::M256 => measure(32, 32),
        _ => unreachable!("refusal 6 keeps codes over 16 out"),
    }
}

/// A description that passed 1 to 7, with the measure of each of its types.
#[derive(Clone, Debug)]
pub struct Types<'a> {
    description: Description<'a>,
    measures: Vec<Measure>,
}

/// A member or an element, and its offset in the type that names it.
#[derive(Clone, Copy, Debug, PartialEq, Eq)]
pub struct Part {
    pub type_number: u8,
    pub offset: Bytes,
}

impl<'a> Types<'a> {
    pub fn description(&self) -> Description<'a> {
        self.description
    }

    pub fn record(&self, type_number: u8) -> Record {
        self.description.record(type_number)
    }

    pub fn measure(&self, type_number: u8) -> Measure {
        self.measures[type_number as usize]
    }

    pub fn size(&self, type_number: u8) -> Bytes {
        self.measure(type_number).size
    }

    pub fn is_basic(&self, type_number: u8, basic: u8) -> bool {
        let record = self.record(type_number);
        record.kind == BASIC && record.a == basic
    }

    /// Members or elements in their order; none for a basic type.
    pub fn parts(&self, type_number: u8) -> Vec<Part> {
        let record = self.record(type_number);
        match record.kind {
            ARRAY => self.elements(record),
            STRUCT => self.struct_members(record),
            UNION => self.union_members(record),
            _ => Vec::new(),
        }
    }

    fn elements(&self, record: Record) -> Vec<Part> {
        let step = self.size(record.a).0;
        (0..record.count)
            .map(|index| Part { type_number: record.a, offset: Bytes(index * step) })
            .collect()
    }

    /// "A struct member has the lowest aligned offset after the one before."
    fn struct_members(&self, record: Record) -> Vec<Part> {
        let mut end = Bytes(0);
        let mut parts = Vec::new();
        for &member in self.description.run(record) {
            let offset = end.raised_to(self.measure(member).alignment);
            parts.push(Part { type_number: member, offset });
            end = offset + self.size(member);
        }
        parts
    }

    /// "A union's members are at 0."
    fn union_members(&self, record: Record) -> Vec<Part> {
        let run = self.description.run(record);
        run.iter().map(|&member| Part { type_number: member, offset: Bytes(0) }).collect()
    }

    /// Where the members lie, in their order; a basic type and an array have
    /// none.
    pub fn member_offsets(&self, type_number: u8) -> Vec<Bytes> {
        match self.record(type_number).kind {
            STRUCT | UNION => self.parts(type_number).iter().map(|part| part.offset).collect(),
            _ => Vec::new(),
        }
    }

    /// The measure of a type whose parts are measured.
    fn measured(&self, type_number: u8) -> Measure {
        let record = self.record(type_number);
        match record.kind {
            BASIC => basic_measure(self.description.model(), record.a),
            ARRAY => self.array_measure(record),
            _ => self.member_measure(type_number),
        }
    }

    /// "An array takes its element's alignment."
    fn array_measure(&self, record: Record) -> Measure {
        let element = self.measure(record.a);
        Measure { size: Bytes(record.count * element.size.0), alignment: element.alignment }
    }

    /// "size is rounded up to the alignment", which is the strictest member's
    /// (000, section 3.1.2).
    fn member_measure(&self, type_number: u8) -> Measure {
        let parts = self.parts(type_number);
        let alignments = parts.iter().map(|part| self.measure(part.type_number).alignment);
        let alignment = alignments.max().expect("a run has a member");
        let ends = parts.iter().map(|part| part.offset + self.size(part.type_number));
        let end = ends.max().expect("a run has a member");
        Measure { size: end.raised_to(alignment), alignment }
    }
}

/// Refusals 1 to 7. Types only name lower numbers, so sizes are found from 0
/// upward, each once; the first over 4,096, which is "the lowest type number
/// that breaks the rule", ends it, so no size here exceeds 4096 elements of 4096
/// bytes.
pub fn types(bytes: &[u8]) -> Result<Types<'_>, Refusal> {
    let description = form(bytes)?;
    let mut types = Types { description, measures: Vec::new() };
    for type_number in 0..description.types() as u8 {
        let found = types.measured(type_number);
        if found.size > LARGEST {
            return Err(Refusal::TypeTooLarge(type_number));
        }
        types.measures.push(found);
    }
    Ok(types)
}

/// "A question about one type (size, alignment, classes, run): 1..7, then 8
/// for a type number not below T; arrays are answered."
pub fn asked(bytes: &[u8], type_number: u8) -> Result<Types<'_>, Refusal> {
    let types = types(bytes)?;
    if type_number as usize >= types.description.types() {
        return Err(Refusal::WrongTypeNumber);
    }
    Ok(types)
}

pub fn size(bytes: &[u8], type_number: u8) -> Result<Bytes, Refusal> {
    Ok(asked(bytes, type_number)?.measure(type_number).size)
}

pub fn alignment(bytes: &[u8], type_number: u8) -> Result<Bytes, Refusal> {
    Ok(asked(bytes, type_number)?.measure(type_number).alignment)
}

/// Where the run lies in the description: "the part of the lent description
/// that holds the run, or ... the empty part for a refusal or another kind".
pub fn run_range(bytes: &[u8], type_number: u8) -> Range<usize> {
    let Ok(types) = asked(bytes, type_number) else {
        return 0..0;
    };
    let record = types.record(type_number);
    if record.kind != STRUCT && record.kind != UNION {
        return 0..0;
    }
    let start = types.description.members_start() + record.a as usize;
    start..start + record.count
}

pub fn run(bytes: &[u8], type_number: u8) -> &[u8] {
    &bytes[run_range(bytes, type_number)]
}

/// The members' offsets into the first entries of a lent list, the others as
/// they were. A question about one type, then 11, as for "a placement list under
/// A", for a list of fewer entries than there are members.
pub fn offsets(bytes: &[u8], type_number: u8, list: &mut [u64]) -> Result<(), Refusal> {
    let found = asked(bytes, type_number)?.member_offsets(type_number);
    if list.len() < found.len() {
        return Err(Refusal::WrongLength);
    }
    for (entry, offset) in list.iter_mut().zip(found) {
        *entry = offset.0 as u64;
    }
    Ok(())
}
