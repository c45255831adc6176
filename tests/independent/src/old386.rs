//! Document 02, request 2026-12, "Old modules of the 386 kind", and source document
//! 003: their sizes, the verdict on a description, the places of the arguments and
//! where the result is.

use crate::description::{form, Description, Record, ARRAY, BASIC, ILP32, STRUCT, UNION, VOID};
use crate::refusal::Refusal;
use crate::types::{code, Measure, LARGEST};
use crate::units::Bytes;

/// "in rounded-up multiples of 4"
pub const SLOT: Bytes = Bytes(4);
/// "a 4-byte hidden address at offset 0"
pub const ADDRESS: Bytes = Bytes(4);
/// "the area is rounded up to 16"
pub const ROUNDING: Bytes = Bytes(16);
/// 10: "rounded stack area over 16,384"
pub const WIDEST_AREA: Bytes = Bytes(16384);

/// "Results are in eax, in edx and eax for 8-byte integers, or st0 for the floats";
/// "Structs and unions return through a 4-byte hidden address".
#[derive(Clone, Copy, Debug, PartialEq, Eq)]
pub enum Result386 {
    Void,
    Memory,
    Eax,
    EdxAndEax,
    St0,
}

/// A description of the 386 kind that none of its refusals 1 to 10 and 28 refuses.
#[derive(Clone, Debug)]
pub struct Old386<'a> {
    description: Description<'a>,
    measures: Vec<Measure>,
    /// Of each argument, its offset in the area.
    pub offsets: Vec<Bytes>,
    pub area: Bytes,
    pub result: Result386,
}

/// "int, long and pointers 4 bytes; long long and double 8 with alignment 4 in
/// structs; long double 12 with alignment 4. Long is described by code 3 and long
/// long by code 4"; none where the code is left out.
fn basic(basic: u8) -> Option<Measure> {
    let (size, alignment) = match basic {
        code::BOOL | code::CHAR => (1, 1),
        code::SHORT => (2, 2),
        code::INT | code::FLOAT | code::POINTER => (4, 4),
        code::LONG | code::DOUBLE => (8, 4),
        code::LONG_DOUBLE => (12, 4),
        // "Vectors, 16-byte types and complex types are left out."
        _ => return None,
    };
    Some(Measure { size: Bytes(size), alignment: Bytes(alignment) })
}

/// 1 to 6, but "4 still refuses bit 1".
fn old_form(bytes: &[u8]) -> Result<Description<'_>, Refusal> {
    match form(bytes) {
        Err(early) if early.number() <= 4 => Err(early),
        _ if bytes[6] & ILP32 != 0 => Err(Refusal::CountsAgainstRules),
        judged => judged,
    }
}

impl<'a> Old386<'a> {
    pub fn description(&self) -> Description<'a> {
        self.description
    }

    pub fn measure(&self, type_number: u8) -> Measure {
        self.measures[type_number as usize]
    }

    fn record(&self, type_number: u8) -> Record {
        self.description.record(type_number)
    }

    /// "Each member is assigned to the lowest available offset with the appropriate
    /// alignment" (003); a union's members are at 0.
    pub fn member_offsets(&self, type_number: u8) -> Vec<Bytes> {
        let record = self.record(type_number);
        if record.kind != STRUCT && record.kind != UNION {
            return Vec::new();
        }
        let mut end = Bytes(0);
        let mut found = Vec::new();
        for &member in self.description.run(record) {
            let Measure { size, alignment } = self.measure(member);
            let offset = if record.kind == UNION { Bytes(0) } else { end.raised_to(alignment) };
            found.push(offset);
            end = offset + size;
        }
        found
    }

    fn measured(&self, type_number: u8) -> Measure {
        let record = self.record(type_number);
        match record.kind {
            BASIC => basic(record.a).expect("28 comes first"),
            ARRAY => {
                let Measure { size, alignment } = self.measure(record.a);
                Measure { size: Bytes(size.0 * record.count), alignment }
            }
            _ => self.aggregate(type_number, record),
        }
    }

    /// "Structures and unions assume the alignment of their most strictly aligned
    /// component", "The size of any object is always a multiple of the object's
    /// alignment" (003).
    fn aggregate(&self, type_number: u8, record: Record) -> Measure {
        let run = self.description.run(record);
        let alignment = run.iter().map(|&member| self.measure(member).alignment).max();
        let alignment = alignment.expect("a run has a member");
        let offsets = self.member_offsets(type_number);
        let ends = run.iter().zip(offsets).map(|(&member, at)| at + self.measure(member).size);
        Measure { size: ends.max().expect("a run has a member").raised_to(alignment), alignment }
    }

    /// 8: "not below T (255 return apart), or an array".
    fn is_no_use(&self, type_number: u8) -> bool {
        type_number as usize >= self.description.types() || self.record(type_number).kind == ARRAY
    }

    fn is_used_wrongly(&self) -> bool {
        let returned = self.description.return_number();
        (returned != VOID && self.is_no_use(returned))
            || self.arguments().any(|argument| self.is_no_use(argument))
    }

    fn arguments(&self) -> impl Iterator<Item = u8> + '_ {
        (0..self.description.arguments()).map(|position| self.description.argument(position))
    }

    /// 9: "an unnamed _Bool, char, short or float".
    fn has_small_unnamed(&self) -> bool {
        let small = [code::BOOL, code::CHAR, code::SHORT, code::FLOAT];
        self.arguments().skip(self.description.named()).any(|argument| {
            let record = self.record(argument);
            record.kind == BASIC && small.contains(&record.a)
        })
    }

    fn found_result(&self) -> Result386 {
        let returned = self.description.return_number();
        if returned == VOID {
            return Result386::Void;
        }
        let record = self.record(returned);
        match (record.kind, record.a) {
            (BASIC, code::LONG) => Result386::EdxAndEax,
            (BASIC, code::FLOAT | code::DOUBLE | code::LONG_DOUBLE) => Result386::St0,
            (BASIC, _) => Result386::Eax,
            _ => Result386::Memory,
        }
    }

    /// "All arguments go on the stack in rounded-up multiples of 4, lowest first; the
    /// area is rounded up to 16"; the hidden address before them.
    fn lay_out(&mut self) {
        self.result = self.found_result();
        let mut end = Bytes(self.popped().0);
        for position in 0..self.description.arguments() {
            let argument = self.description.argument(position);
            self.offsets.push(end);
            end = (end + self.measure(argument).size).raised_to(SLOT);
        }
        self.area = end.raised_to(ROUNDING);
    }

    /// "which the callee pops": the bytes of the hidden address.
    pub fn popped(&self) -> Bytes {
        match self.result {
            Result386::Memory => ADDRESS,
            _ => Bytes(0),
        }
    }
}

/// "after 6, 28 a basic code left out, wherever in the table"
fn has_code_left_out(description: Description) -> bool {
    (0..description.types() as u8).any(|type_number| {
        let record = description.record(type_number);
        record.kind == BASIC && basic(record.a).is_none()
    })
}

/// The verdict: 1 to 6, 28, 7 to 10.
pub fn judged(bytes: &[u8]) -> Result<Old386<'_>, Refusal> {
    let description = old_form(bytes)?;
    if has_code_left_out(description) {
        return Err(Refusal::CodeLeftOut);
    }
    let mut old = Old386 {
        description,
        measures: Vec::new(),
        offsets: Vec::new(),
        area: Bytes(0),
        result: Result386::Void,
    };
    for type_number in 0..description.types() as u8 {
        let found = old.measured(type_number);
        if found.size > LARGEST {
            return Err(Refusal::TypeTooLarge(type_number));
        }
        old.measures.push(found);
    }
    if old.is_used_wrongly() {
        return Err(Refusal::WrongTypeNumber);
    }
    if old.has_small_unnamed() {
        return Err(Refusal::UnnamedSmall);
    }
    old.lay_out();
    if old.area > WIDEST_AREA {
        return Err(Refusal::AreaTooLarge);
    }
    Ok(old)
}

#[cfg(test)]
mod tests {
    use super::*;
    use crate::cases::{bytes_of_hex, LISTER};
    use crate::draft::Draft;

    fn sizes(draft: &Draft, type_number: u8) -> (usize, usize) {
        let bytes = draft.bytes();
        let measure = judged(&bytes).expect("accepted").measure(type_number);
        (measure.size.0, measure.alignment.0)
    }

    #[test]
    fn a_double_behind_a_char_is_at_four() {
        let mut draft = Draft::new();
        let (char_type, double) = (draft.basic(code::CHAR), draft.basic(code::DOUBLE));
        let both = draft.structure(&[char_type, double]);
        assert_eq!(sizes(&draft, both), (12, 4));
        assert_eq!(judged(&draft.bytes()).unwrap().member_offsets(both), [Bytes(0), Bytes(4)]);
    }

    #[test]
    fn the_address_comes_before_the_arguments() {
        let mut draft = Draft::new();
        let (char_type, double) = (draft.basic(code::CHAR), draft.basic(code::DOUBLE));
        let (long_double, int) = (draft.basic(code::LONG_DOUBLE), draft.basic(code::INT));
        draft.returned = draft.structure(&[char_type]);
        for argument in [char_type, double, long_double, int] {
            draft.argument(argument);
        }
        let bytes = draft.bytes();
        let old = judged(&bytes).unwrap();
        assert_eq!(old.offsets, [Bytes(4), Bytes(8), Bytes(16), Bytes(28)]);
        assert_eq!((old.area, old.popped(), old.result), (Bytes(32), Bytes(4), Result386::Memory));
    }

    #[test]
    fn refusals_stand_in_their_order() {
        let lister = bytes_of_hex(LISTER);
        assert_eq!(judged(&lister).err(), Some(Refusal::CodeLeftOut));
        let mut draft = Draft::new();
        draft.basic(code::INT128);
        let int = draft.basic(code::INT);
        draft.array(int, 4096);
        assert_eq!(judged(&draft.bytes()).err(), Some(Refusal::CodeLeftOut));
        draft.flags = ILP32;
        assert_eq!(judged(&draft.bytes()).err(), Some(Refusal::CountsAgainstRules));
    }
}
