//! Descriptions in the making.

use crate::raw;
use crate::types::check;
use crate::Refusal;

/// What [`Builder::returns`] takes where nothing is returned: no type has this number.
pub const VOID: u8 = raw::VOID;

/// Which basic type. Signedness changes nothing: `Int` is unsigned too.
#[repr(u8)]
#[derive(Clone, Copy, Debug, PartialEq, Eq)]
pub enum Basic {
    Bool = raw::BOOL,
    Char = raw::CHAR,
    Short = raw::SHORT,
    /// An enum too; in ILP32 also `long` and `size_t`.
    Int = raw::INT,
    /// `long long` and `size_t` too; in ILP32 `long long` alone.
    Long = raw::LONG,
    Int128 = raw::INT128,
    Float = raw::FLOAT,
    Double = raw::DOUBLE,
    LongDouble = raw::LONG_DOUBLE,
    Float128 = raw::FLOAT128,
    M64 = raw::M64,
    M128 = raw::M128,
    ComplexFloat = raw::COMPLEX_FLOAT,
    ComplexDouble = raw::COMPLEX_DOUBLE,
    ComplexLongDouble = raw::COMPLEX_LONG_DOUBLE,
    /// To whatever: 8 bytes, in ILP32 4.
    Pointer = raw::POINTER,
    M256 = raw::M256,
}

/// Makes a description, as the builder of the header does, byte for byte and refusal for refusal.
///
/// Types go in, and each answers its number; the other calls want numbers. A type that is there already
/// is not made again: its number is answered. The first mistake is kept, by the number that the library
/// has for it: 4 for too many types, members or arguments, 6 for a type that breaks the rules, with the
/// number that it would have had, 8 for a number that no type has. A call that makes a mistake answers
/// [`VOID`], nothing that comes behind heals it, and [`Builder::finish`] tells it.
///
/// ```
/// use callbridge::{Basic, Builder};
///
/// // double f(const char *format, ...), called with an int and a double behind the format.
/// let mut builder = Builder::new();
/// let double = builder.basic(Basic::Double);
/// let pointer = builder.basic(Basic::Pointer);
/// let int = builder.basic(Basic::Int);
/// builder.returns(double).argument(pointer).ellipsis().argument(int).argument(double);
/// let description = builder.finish()?;
/// let (_, placements) = callbridge::lay_out(&description)?;
/// assert_eq!(placements[2].place.to_string(), "xmm0");
///
/// // What is wrong is told at the end, whatever came behind it.
/// let mut builder = Builder::new();
/// let none = builder.array(0, 12);
/// builder.argument(none);
/// let refusal = builder.finish().unwrap_err();
/// assert_eq!(refusal.to_string(), "refused 6: a type record is against the rules, type 0");
/// # Ok::<(), callbridge::Refusal>(())
/// ```
#[derive(Clone, Debug, Default)]
pub struct Builder {
    refusal: Option<Refusal>,
    types: Vec<[u8; 4]>,
    members: Vec<u8>,
    arguments: Vec<u8>,
    named: Option<u8>,
    ilp32: bool,
    returned: Option<u8>,
}

impl Builder {
    /// An empty one.
    pub fn new() -> Builder {
        Builder::default()
    }

    /// An empty one for a function of a module that is built for ILP32, where a pointer has 4 bytes.
    ///
    /// ```
    /// use callbridge::{Basic, Builder};
    ///
    /// let mut builder = Builder::ilp32();
    /// let pointer = builder.basic(Basic::Pointer);
    /// let pair = builder.structure(&[pointer, pointer]);
    /// builder.argument(pair);
    /// let (_, placements) = callbridge::lay_out(&builder.finish()?)?;
    /// assert_eq!((placements[0].size, placements[0].place.to_string()), (8, "rdi".to_string()));
    /// # Ok::<(), callbridge::Refusal>(())
    /// ```
    pub fn ilp32() -> Builder {
        Builder { ilp32: true, ..Builder::default() }
    }

    /// The number of a basic type.
    pub fn basic(&mut self, code: Basic) -> u8 {
        self.add_type([raw::BASIC, code as u8, 0, 0])
    }

    /// The number of an array of 1 to 4,096 elements: a member or an element, never an argument by
    /// itself, as in C.
    pub fn array(&mut self, element: u8, count: usize) -> u8 {
        if !self.has(element) || count == 0 || count > raw::MAX_ELEMENTS {
            return self.wrong_record();
        }
        let [low, high] = (count as u16).to_le_bytes();
        self.add_type([raw::ARRAY, element, low, high])
    }

    /// The number of a struct of these members, one or more, by their types' numbers in C's order.
    pub fn structure(&mut self, members: &[u8]) -> u8 {
        self.add_aggregate(raw::STRUCT, members)
    }

    /// The number of a union of these members.
    pub fn union(&mut self, members: &[u8]) -> u8 {
        self.add_aggregate(raw::UNION, members)
    }

    /// What the function returns: a type's number, or [`VOID`], which it is where this is not called.
    pub fn returns(&mut self, type_number: u8) -> &mut Builder {
        if type_number == VOID {
            self.returned = None;
        } else if self.has(type_number) {
            self.returned = Some(type_number);
        } else {
            self.mistake(8, 0);
        }
        self
    }

    /// The next argument, from the left.
    pub fn argument(&mut self, type_number: u8) -> &mut Builder {
        if !self.has(type_number) {
            self.mistake(8, 0);
        } else if self.arguments.len() >= raw::MAX_ARGUMENTS {
            self.mistake(4, 0);
        } else {
            self.arguments.push(type_number);
        }
        self
    }

    /// C's `...`: the function is variadic, and the arguments behind are the unnamed ones of this call,
    /// as C passes them: `Int` for a `_Bool`, char or short, `Double` for a float. A second one is 4.
    pub fn ellipsis(&mut self) -> &mut Builder {
        if self.named.is_some() {
            self.mistake(4, 0);
        } else {
            self.named = Some(self.arguments.len() as u8);
        }
        self
    }

    /// The first mistake so far.
    pub fn refusal(&self) -> Option<Refusal> {
        self.refusal
    }

    /// The description: no call refuses it 1 to 10. Refused for the first mistake, else by [`check`].
    pub fn finish(&self) -> Result<Vec<u8>, Refusal> {
        if let Some(refusal) = self.refusal {
            return Err(refusal);
        }
        let arguments = self.arguments.len() as u8;
        let [low, high] = raw::FORMAT_VERSION.to_le_bytes();
        let mut description = vec![b'K', b'C', b'B', low, high, self.types.len() as u8];
        description.extend([self.flags(), self.named.unwrap_or(arguments)]);
        description.extend([arguments, self.returned.unwrap_or(VOID), self.members.len() as u8]);
        description.extend(self.types.iter().flatten());
        description.extend(&self.members);
        description.extend(&self.arguments);
        check(&description)?;
        Ok(description)
    }

    /// Byte 6.
    fn flags(&self) -> u8 {
        let variadic = if self.named.is_some() { raw::VARIADIC } else { 0 };
        let model = if self.ilp32 { raw::ILP32 } else { 0 };
        variadic | model
    }

    fn has(&self, type_number: u8) -> bool {
        usize::from(type_number) < self.types.len()
    }

    /// Keeps the first mistake, and answers what is no type's number.
    fn mistake(&mut self, number: u8, type_number: u8) -> u8 {
        if self.refusal.is_none() {
            self.refusal = Refusal::of(raw::Refusal { number, type_number }).err();
        }
        VOID
    }

    fn wrong_record(&mut self) -> u8 {
        self.mistake(6, self.types.len() as u8)
    }

    /// The number of the type with this record, which is added where it is not there.
    fn add_type(&mut self, record: [u8; 4]) -> u8 {
        if let Some(found) = self.types.iter().position(|known| *known == record) {
            return found as u8;
        }
        if self.types.len() >= raw::MAX_TYPES {
            return self.mistake(4, 0);
        }
        self.types.push(record);
        (self.types.len() - 1) as u8
    }

    /// The number of the struct or union with these members, which is added, with a run of its own, where
    /// it is not there.
    fn add_aggregate(&mut self, kind: u8, members: &[u8]) -> u8 {
        if members.len() > raw::MAX_MEMBERS {
            return self.mistake(4, 0);
        }
        if members.is_empty() || !members.iter().all(|member| self.has(*member)) {
            return self.wrong_record();
        }
        let same = |record: &[u8; 4]| record[0] == kind && self.run(record) == members;
        if let Some(found) = self.types.iter().position(same) {
            return found as u8;
        }
        let first = self.members.len();
        if first + members.len() > raw::MAX_MEMBERS {
            return self.mistake(4, 0);
        }
        self.members.extend(members);
        self.add_type([kind, first as u8, members.len() as u8, 0])
    }

    /// The members of a struct's or union's record.
    fn run(&self, record: &[u8; 4]) -> &[u8] {
        &self.members[usize::from(record[1])..][..usize::from(record[2])]
    }
}
