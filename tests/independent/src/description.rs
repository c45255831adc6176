//! "The description (KCB)": its form, and refusals 1 to 6.

use crate::refusal::Refusal;

/// Bytes before the type records.
pub const HEAD: usize = 11;
/// "T, types, 0..64".
pub const MOST_TYPES: usize = 64;
/// "A, all arguments of this call, 0..64".
pub const MOST_ARGUMENTS: usize = 64;
/// "11 + 4T + M + A bytes, at most 586".
pub const LONGEST: usize = 586;
/// "return type number, 255 for void".
pub const VOID: u8 = 255;

/// "A type record is kind, a, count (16 bits, little-endian)."
#[derive(Clone, Copy, Debug, PartialEq, Eq)]
pub struct Record {
    pub kind: u8,
    pub a: u8,
    pub count: usize,
}

pub const BASIC: u8 = 0;
pub const ARRAY: u8 = 1;
pub const STRUCT: u8 = 2;
pub const UNION: u8 = 3;

/// The bits of byte 6: "Bit 1 of byte 6 selects it; bit 0 remains the variadic
/// mark" (02, 2026-11).
pub const VARIADIC: u8 = 1;
pub const ILP32: u8 = 2;

/// The two programming models of 000.
#[derive(Clone, Copy, Debug, PartialEq, Eq)]
pub enum Model {
    Lp64,
    Ilp32,
}

pub const MODELS: [Model; 2] = [Model::Lp64, Model::Ilp32];

/// A description whose length is at least that of the head. Only `form` makes
/// one that the rest of this library may rely on.
#[derive(Clone, Copy, Debug)]
pub struct Description<'a> {
    bytes: &'a [u8],
}

impl<'a> Description<'a> {
    pub fn bytes(&self) -> &'a [u8] {
        self.bytes
    }

    pub fn version(&self) -> usize {
        self.bytes[3] as usize + 256 * self.bytes[4] as usize
    }

    /// T
    pub fn types(&self) -> usize {
        self.bytes[5] as usize
    }

    /// byte 6
    pub fn flags(&self) -> u8 {
        self.bytes[6]
    }

    pub fn is_variadic(&self) -> bool {
        self.flags() & VARIADIC != 0
    }

    pub fn model(&self) -> Model {
        match self.flags() & ILP32 {
            0 => Model::Lp64,
            _ => Model::Ilp32,
        }
    }

    /// N
    pub fn named(&self) -> usize {
        self.bytes[7] as usize
    }

    /// A
    pub fn arguments(&self) -> usize {
        self.bytes[8] as usize
    }

    /// byte 9
    pub fn return_number(&self) -> u8 {
        self.bytes[9]
    }

    /// M
    pub fn members(&self) -> usize {
        self.bytes[10] as usize
    }

    pub fn record(&self, type_number: u8) -> Record {
        let at = HEAD + 4 * type_number as usize;
        Record {
            kind: self.bytes[at],
            a: self.bytes[at + 1],
            count: self.bytes[at + 2] as usize + 256 * self.bytes[at + 3] as usize,
        }
    }

    /// Where the member bytes begin.
    pub fn members_start(&self) -> usize {
        HEAD + 4 * self.types()
    }

    /// The type numbers of a struct's or union's members, in their order.
    pub fn run(&self, record: Record) -> &'a [u8] {
        let start = self.members_start() + record.a as usize;
        &self.bytes[start..start + record.count]
    }

    /// The type number of the argument at a position.
    pub fn argument(&self, position: usize) -> u8 {
        self.bytes[self.members_start() + self.members() + position]
    }

    fn all_types(&self) -> impl Iterator<Item = u8> {
        0..self.types() as u8
    }
}

/// 1: "under 11 bytes".
fn is_under_eleven_bytes(bytes: &[u8]) -> bool {
    bytes.len() < HEAD
}

/// 2: "mark, ASCII KCB".
fn has_wrong_mark(description: Description) -> bool {
    &description.bytes[0..3] != b"KCB"
}

/// 3: "version, little-endian, 1".
fn has_wrong_version(description: Description) -> bool {
    description.version() != 1
}

/// 4: "N is at most A, and equals A where bit 0 is 0"; "4 admits bit 1" (02,
/// 2026-11), and no other bit.
fn has_counts_against_rules(description: Description) -> bool {
    description.types() > MOST_TYPES
        || description.arguments() > MOST_ARGUMENTS
        || description.flags() > VARIADIC + ILP32
        || description.named() > description.arguments()
        || (!description.is_variadic() && description.named() != description.arguments())
}

/// 5: "and nothing more: 11 + 4T + M + A bytes".
fn has_wrong_total_length(description: Description) -> bool {
    let right = HEAD + 4 * description.types() + description.members() + description.arguments();
    description.bytes.len() != right
}

/// 6: "a type record against the rules", any of them, used or not; answers "the
/// lowest type number that breaks the rule".
fn first_against_rules(description: Description) -> Option<u8> {
    description.all_types().find(|&number| is_record_against_rules(description, number))
}

fn is_record_against_rules(description: Description, number: u8) -> bool {
    let record = description.record(number);
    match record.kind {
        // "Kind 0, basic: a is the code below, count 0"; "6 admits code 16" (02,
        // 2026-06).
        BASIC => record.a > 16 || record.count != 0,
        // "Kind 1, array: a is the element type, count 1..4096."
        ARRAY => record.a >= number || record.count < 1 || record.count > 4096,
        STRUCT | UNION => is_run_against_rules(description, number, record),
        _ => true,
    }
}

/// "count is 1 or more, and the run must end within M", and "every element and
/// member type has a lower number than its owner".
fn is_run_against_rules(description: Description, number: u8, record: Record) -> bool {
    if record.count < 1 || record.a as usize + record.count > description.members() {
        return true;
    }
    description.run(record).iter().any(|&member| member >= number)
}

/// Refusals 1 to 6, "as numbered, each over the whole description".
pub fn form(bytes: &[u8]) -> Result<Description<'_>, Refusal> {
    if is_under_eleven_bytes(bytes) {
        return Err(Refusal::UnderElevenBytes);
    }
    let description = Description { bytes };
    if has_wrong_mark(description) {
        return Err(Refusal::WrongMark);
    }
    if has_wrong_version(description) {
        return Err(Refusal::WrongVersion);
    }
    if has_counts_against_rules(description) {
        return Err(Refusal::CountsAgainstRules);
    }
    if has_wrong_total_length(description) {
        return Err(Refusal::WrongTotalLength);
    }
    if let Some(lowest) = first_against_rules(description) {
        return Err(Refusal::RecordAgainstRules(lowest));
    }
    Ok(description)
}
