//! Refusal numbers.

use std::fmt;

/// "A refusal returns its number only and writes nothing", but for 02, 2026-01:
/// "Refusals 6 and 7 now return the lowest type number that breaks the rule".
#[derive(Clone, Copy, Debug, PartialEq, Eq)]
pub enum Refusal {
    /// "under 11 bytes"
    UnderElevenBytes,
    /// "wrong mark"
    WrongMark,
    /// "wrong ... version"
    WrongVersion,
    /// "T, A, N or byte 6 against the rules"
    CountsAgainstRules,
    /// "wrong total length"
    WrongTotalLength,
    /// "a type record against the rules"
    RecordAgainstRules(u8),
    /// "a type over 4,096 bytes"
    TypeTooLarge(u8),
    /// "return or argument number not below T (255 return apart), or an array"
    WrongTypeNumber,
    /// "an unnamed _Bool, char, short or float"
    UnnamedSmall,
    /// "rounded stack area over 16,384"
    AreaTooLarge,
    /// "a lent buffer of wrong length, a placement list under A, a station
    /// length over 586"
    WrongLength,
    /// "_Bool argument byte not 0 or 1"
    WrongBool,
    /// "nothing attached"
    NothingAttached,
    /// "already attached"
    AlreadyAttached,
    /// "attachment number 4,294,967,295 reached"
    NumbersUsedUp,
    /// "open on a function that isn't variadic"
    NotVariadic,
    /// "walk of another attachment number"
    OtherAttachment,
    /// "position outside N..A, or offsets not those this description gives
    /// there"
    WrongRecord,
    /// "position is A"
    AtEnd,
    /// "type number asked differs from the argument's"
    OtherType,
    /// "a number of types other than those remaining" (02, 2026-05)
    WrongTypeCount,
    /// "a hidden address in use of 2^32 or more" (02, 2026-11)
    AddressTooWide,
    /// "a basic code left out, wherever in the table" (02, 2026-12)
    CodeLeftOut,
    /// 02, 2026-03: "the separate runs need over 255 members"
    TooManyMembers,
}

impl Refusal {
    /// The paper's number.
    pub fn number(self) -> u8 {
        match self {
            Refusal::UnderElevenBytes => 1,
            Refusal::WrongMark => 2,
            Refusal::WrongVersion => 3,
            Refusal::CountsAgainstRules => 4,
            Refusal::WrongTotalLength => 5,
            Refusal::RecordAgainstRules(_) => 6,
            Refusal::TypeTooLarge(_) => 7,
            Refusal::WrongTypeNumber => 8,
            Refusal::UnnamedSmall => 9,
            Refusal::AreaTooLarge => 10,
            Refusal::WrongLength => 11,
            Refusal::WrongBool => 12,
            Refusal::NothingAttached => 13,
            Refusal::AlreadyAttached => 14,
            Refusal::NumbersUsedUp => 15,
            Refusal::NotVariadic => 16,
            Refusal::OtherAttachment => 17,
            Refusal::WrongRecord => 18,
            Refusal::AtEnd => 19,
            Refusal::OtherType => 20,
            Refusal::WrongTypeCount => 24,
            Refusal::AddressTooWide => 27,
            Refusal::CodeLeftOut => 28,
            Refusal::TooManyMembers => 29,
        }
    }

    /// "All other refusals give 0 there."
    pub fn type_number(self) -> u8 {
        match self {
            Refusal::RecordAgainstRules(lowest) | Refusal::TypeTooLarge(lowest) => lowest,
            _ => 0,
        }
    }
}

/// What a call tells: a refusal's number and the type's, both 0 where the call
/// was accepted. Type 0 may be the broken one: the number alone says which
/// refusal names a type.
#[derive(Clone, Copy, Debug, Default, PartialEq, Eq)]
pub struct Told {
    pub number: u8,
    pub type_number: u8,
}

impl From<Refusal> for Told {
    fn from(refusal: Refusal) -> Told {
        Told { number: refusal.number(), type_number: refusal.type_number() }
    }
}

impl fmt::Display for Told {
    fn fmt(&self, formatter: &mut fmt::Formatter<'_>) -> fmt::Result {
        write!(formatter, "{} {}", self.number, self.type_number)
    }
}

/// What is told of an answer.
pub fn told<Answer>(answer: &Result<Answer, Refusal>) -> Told {
    match answer {
        Ok(_) => Told::default(),
        Err(refusal) => Told::from(*refusal),
    }
}
