//! "Classes of aggregates", the column "Classes" of the table of codes, and the
//! full rule of 000, section 3.2.3, that takes the place of "Over 16 bytes: MEMORY"
//! (02, 2026-06).

use crate::description::BASIC;
use crate::refusal::Refusal;
use crate::types::{asked, code, Types};
use crate::units::{Bytes, Eightbytes};
use std::collections::HashMap;
use std::ops::Range;

#[derive(Clone, Copy, Debug, PartialEq, Eq)]
pub enum Class {
    NoClass,
    Integer,
    Sse,
    SseUp,
    X87,
    X87Up,
    ComplexX87,
    Memory,
}

/// The classes of a whole type: one for each eightbyte, NO_CLASS behind them. More
/// than four eightbytes are never in registers: no basic type has more.
pub type Classes = [Class; 4];

/// "A lone class, MEMORY and COMPLEX_X87 stand first with NO_CLASS second."
pub const IN_MEMORY: Classes = lone(Class::Memory);
const ON_TWO_X87: Classes = lone(Class::ComplexX87);

const fn lone(class: Class) -> Classes {
    [class, Class::NoClass, Class::NoClass, Class::NoClass]
}

impl Class {
    /// The name in the paper.
    pub fn name(self) -> &'static str {
        match self {
            Class::NoClass => "NO_CLASS",
            Class::Integer => "INTEGER",
            Class::Sse => "SSE",
            Class::SseUp => "SSEUP",
            Class::X87 => "X87",
            Class::X87Up => "X87UP",
            Class::ComplexX87 => "COMPLEX_X87",
            Class::Memory => "MEMORY",
        }
    }

    fn is_x87(self) -> bool {
        matches!(self, Class::X87 | Class::X87Up | Class::ComplexX87)
    }

    /// SSE or SSEUP.
    fn is_vector(self) -> bool {
        matches!(self, Class::Sse | Class::SseUp)
    }
}

/// "Merging, first rule that fits: equal; one NO_CLASS gives the other; one
/// MEMORY gives MEMORY; one INTEGER gives INTEGER; one of X87, X87UP,
/// COMPLEX_X87 gives MEMORY; else SSE."
pub fn merged(one: Class, other: Class) -> Class {
    let either = |class| one == class || other == class;
    if one == other {
        one
    } else if one == Class::NoClass {
        other
    } else if other == Class::NoClass {
        one
    } else if either(Class::Memory) {
        Class::Memory
    } else if either(Class::Integer) {
        Class::Integer
    } else if one.is_x87() || other.is_x87() {
        Class::Memory
    } else {
        Class::Sse
    }
}

/// "If the size of an object is larger than eight eightbytes .. it has class
/// MEMORY" (000): so there are at most eight to look at.
const MOST: Eightbytes = Eightbytes(8);

/// The eightbytes of a whole, "each starting as NO_CLASS".
pub type Frame = [Class; MOST.0];

pub const NOTHING: Frame = [Class::NoClass; MOST.0];

/// One class in some of the eightbytes.
fn filled(class: Class, eightbytes: Range<usize>) -> Frame {
    let mut frame = NOTHING;
    frame[eightbytes].fill(class);
    frame
}

fn merged_frames(one: Frame, other: Frame) -> Frame {
    std::array::from_fn(|index| merged(one[index], other[index]))
}

/// "Then a post merger cleanup is done" (000), for an aggregate of this size at this
/// offset of a whole. "The whole argument is passed in memory" makes all that merges
/// with it MEMORY.
pub fn cleaned_up(frame: Frame, offset: Bytes, size: Bytes) -> Frame {
    let own = eightbytes(offset, size);
    let before = |index: usize| if index == 0 { Class::NoClass } else { frame[index - 1] };
    let in_memory = filled(Class::Memory, own.clone());
    // "(a) If one of the classes is MEMORY, the whole argument is passed in memory."
    if frame.contains(&Class::Memory) {
        return in_memory;
    }
    // "(b) If X87UP is not preceded by X87, the whole argument is passed in memory."
    if (0..MOST.0).any(|index| frame[index] == Class::X87Up && before(index) != Class::X87) {
        return in_memory;
    }
    // "(c) If the size of the aggregate exceeds two eightbytes and the first
    // eightbyte isn't SSE or any other eightbyte isn't SSEUP, the whole argument is
    // passed in memory."
    let is_other = |class: &Class| *class != Class::SseUp;
    let exceeds_two = size.eightbytes() > Eightbytes(2);
    if exceeds_two && (frame[own.start] != Class::Sse || frame[own][1..].iter().any(is_other)) {
        return in_memory;
    }
    // "(d) If SSEUP is not preceded by SSE or SSEUP, it is converted to SSE."
    std::array::from_fn(|index| match frame[index] {
        Class::SseUp if !before(index).is_vector() => Class::Sse,
        class => class,
    })
}

/// The eightbytes that so many bytes from an offset on lie in.
fn eightbytes(offset: Bytes, size: Bytes) -> Range<usize> {
    let behind = Bytes(offset.0 + size.0).eightbytes();
    offset.eightbyte().0..behind.0
}

/// The classes of a basic type at `offset` of a whole.
fn basic_at(basic: u8, offset: Bytes, size: Bytes) -> Frame {
    let own = eightbytes(offset, size);
    let (first, behind) = (own.start, own.start + 1..own.end);
    let led = |lead: Class, rest: Class| {
        merged_frames(filled(lead, first..first + 1), filled(rest, behind))
    };
    match basic {
        code::LONG_DOUBLE => led(Class::X87, Class::X87Up),
        // "split into two halves. The least significant ones belong to class SSE, the
        // most significant one to class SSEUP"; of __m256 "four eightbyte chunks. The
        // least significant one belongs to class SSE and all the others to class SSEUP"
        // (000).
        code::FLOAT128 | code::M128 | code::M256 => led(Class::Sse, Class::SseUp),
        // "as a struct of two": all their eightbytes are SSE, and two where the
        // numbers lie in two.
        code::FLOAT | code::DOUBLE | code::M64 | code::COMPLEX_FLOAT | code::COMPLEX_DOUBLE => {
            filled(Class::Sse, own)
        }
        code::COMPLEX_LONG_DOUBLE => filled(Class::ComplexX87, own),
        _ => filled(Class::Integer, own),
    }
}

/// Works out classes, each pair of type and offset in the whole once.
struct Classifier<'a> {
    types: &'a Types<'a>,
    finished: HashMap<(u8, Bytes), Frame>,
}

impl Classifier<'_> {
    /// "A type's classes come from its members', each at its offset in the
    /// whole, and theirs again from the types they name; an inner aggregate is
    /// cleaned up before it merges." The eightbytes are those of the whole.
    fn at(&mut self, type_number: u8, offset: Bytes) -> Frame {
        if let Some(&frame) = self.finished.get(&(type_number, offset)) {
            return frame;
        }
        let record = self.types.record(type_number);
        let frame = if record.kind == BASIC {
            basic_at(record.a, offset, self.types.size(type_number))
        } else {
            self.aggregate_at(type_number, offset)
        };
        self.finished.insert((type_number, offset), frame);
        frame
    }

    /// Members merge in the order of their run: merging is not associative. Each
    /// aggregate, an inner one too, is judged by its own size.
    fn aggregate_at(&mut self, type_number: u8, offset: Bytes) -> Frame {
        let mut frame = NOTHING;
        for part in self.types.parts(type_number) {
            let inner = self.at(part.type_number, offset + part.offset);
            frame = merged_frames(frame, inner);
        }
        cleaned_up(frame, offset, self.types.size(type_number))
    }
}

/// The classes of a type as a whole argument, return value or question.
pub fn classes_of(types: &Types, type_number: u8) -> Classes {
    // "A variable of type complex long double is classified as type COMPLEX_X87":
    // it is basic, and no clean-up looks at its size.
    if types.is_basic(type_number, code::COMPLEX_LONG_DOUBLE) {
        return ON_TWO_X87;
    }
    // "over eight eightbytes is MEMORY"
    if types.size(type_number).eightbytes() > MOST {
        return IN_MEMORY;
    }
    let mut classifier = Classifier { types, finished: HashMap::new() };
    whole(classifier.at(type_number, Bytes(0)))
}

/// What of the eightbytes is answered.
fn whole(frame: Frame) -> Classes {
    if frame[0] == Class::Memory {
        return IN_MEMORY;
    }
    let (classes, behind) = frame.split_at(4);
    assert!(behind.iter().all(|&class| class == Class::NoClass), "no vector of 64 bytes");
    [classes[0], classes[1], classes[2], classes[3]]
}

pub fn classes(bytes: &[u8], type_number: u8) -> Result<Classes, Refusal> {
    let types = asked(bytes, type_number)?;
    Ok(classes_of(&types, type_number))
}
