//! Why a call was refused.

use crate::raw;
use std::fmt;
use std::num::NonZeroU8;

/// The number of a refusal, 1 to 20, 24, 27 or 29, and for 6 and 7 the type that is wrong.
#[derive(Clone, Copy, PartialEq, Eq, Hash)]
pub struct Refusal {
    number: NonZeroU8,
    type_number: u8,
}

/// In the order of their numbers, empty for 21 to 23, 25, 26 and 28, which are no refusals of this
/// library; the header has the same.
const TEXTS: [&str; 29] = [
    "the description has under 11 bytes",
    "the description does not begin with KCB",
    "the description's version is not 1",
    "the description's counts of types or arguments, or its byte 6, are against the rules",
    "the description has not the length that its counts ask for",
    "a type record is against the rules",
    "a type has over 4096 bytes",
    "a type number names no type, or an array where a value is passed or returned",
    "an unnamed argument is a _Bool, char, short or float",
    "the stack area is over 16384 bytes",
    "a buffer has the wrong length, the list is too short, or the station's length is over 586",
    "the byte of a _Bool argument is not 0 or 1",
    "nothing is attached",
    "something is attached already",
    "the station's number can count no further",
    "the function is not variadic",
    "the walk is of another attachment",
    "the walk's position or offsets are not those of this description",
    "the walk has passed the last argument",
    "the argument is of another type",
    "",
    "",
    "",
    "the types asked are not as many as the arguments that are left",
    "",
    "",
    "the hidden address is 2^32 or more, where a pointer has 4 bytes",
    "",
    "the structs and unions that are used have over 255 members together",
];

impl Refusal {
    /// What each refusal means, from number 1 on; 21 to 23, 25, 26 and 28 have none.
    pub const TEXTS: [&'static str; 29] = TEXTS;

    pub fn number(self) -> u8 {
        self.number.get()
    }

    /// The lowest number of a type that breaks the rule: of 6, a type record, or of 7, a type's size.
    /// None for the other refusals.
    pub fn type_number(self) -> Option<u8> {
        matches!(self.number(), 6 | 7).then_some(self.type_number)
    }

    /// What it means, in a line.
    pub fn text(self) -> &'static str {
        match TEXTS.get(self.number() as usize - 1) {
            None | Some(&"") => "no refusal of this library",
            Some(text) => text,
        }
    }

    /// An answer of the library as a result.
    pub(crate) fn of(answer: raw::Refusal) -> Result<(), Refusal> {
        match NonZeroU8::new(answer.number) {
            None => Ok(()),
            Some(number) => Err(Refusal { number, type_number: answer.type_number }),
        }
    }
}

impl fmt::Display for Refusal {
    fn fmt(&self, formatter: &mut fmt::Formatter<'_>) -> fmt::Result {
        write!(formatter, "refused {}: {}", self.number(), self.text())?;
        match self.type_number() {
            Some(number) => write!(formatter, ", type {number}"),
            None => Ok(()),
        }
    }
}

impl fmt::Debug for Refusal {
    fn fmt(&self, formatter: &mut fmt::Formatter<'_>) -> fmt::Result {
        match self.type_number() {
            Some(number) => write!(formatter, "Refusal({}, type {number})", self.number()),
            None => write!(formatter, "Refusal({})", self.number()),
        }
    }
}

impl std::error::Error for Refusal {}
