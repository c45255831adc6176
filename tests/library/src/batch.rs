//! Commands for the driver, and beside each the answer that it should give, byte by byte. driver.c says how both are written.

use crate::comparison::hex;
use crate::records::Fields;
use independent::history::Command;
use independent::refusal::Told;

/// The driver's commands about one description, and one between those of a history, which are written by `independent::history`.
#[derive(Clone, Copy)]
pub enum Code {
    HostBytes = 15,
    Version = 32,
    Describe = 33,
    Check = 34,
    TypeExtent = 35,
    TypeClasses = 36,
    MemberRun = 37,
    LayoutOf = 38,
    LayOut = 39,
    WriteListing = 40,
    PlaceValues = 41,
    GatherValues = 42,
    PutReturned = 43,
    TakeReturned = 44,
    MemberOffsets = 45,
    TidyLength = 46,
    Tidy = 47,
    NeedsStack = 48,
}

/// What is lent, in the driver's order: its number is in its canaries.
#[derive(Clone, Copy)]
pub enum Thing {
    Description,
    Values,
    Registers,
    Upper,
    Stack,
    Image,
    Text,
    Record,
    List,
    Out,
    Asked,
    Seat,
    Station,
    Walk0,
    Walk1,
    Walk2,
    Walk3,
}

const FIRST_MARK: u8 = 0xA0;

impl Thing {
    fn mark(self) -> u8 {
        FIRST_MARK + self as u8
    }

    fn name(self) -> &'static str {
        match self {
            Thing::Description => "description",
            Thing::Values => "values",
            Thing::Registers => "registers",
            Thing::Upper => "upper",
            Thing::Stack => "stack",
            Thing::Image => "image",
            Thing::Text => "text",
            Thing::Record => "struct's canaries",
            Thing::List => "list's canaries",
            Thing::Out => "out",
            Thing::Asked => "types",
            Thing::Seat => "seat",
            Thing::Station => "station's canaries",
            _ => "walk's canaries",
        }
    }
}

/// A piece of an answer: a number, or bytes.
pub struct Piece {
    pub name: &'static str,
    /// Which entry of a list it is of.
    pub entry: Option<u16>,
    pub is_number: bool,
    pub end: usize,
}

/// One call, and where its commands, the pieces of its answer and the answer end.
#[derive(Default)]
pub struct Call {
    pub name: &'static str,
    pub commands_end: usize,
    pub pieces_end: usize,
    pub end: usize,
}

/// What the calls of a batch are about, for the reader of a difference.
pub enum About {
    Description(Vec<u8>),
    History(Vec<Command>),
}

impl About {
    /// What one of the calls is about.
    pub fn text(&self, call: usize) -> String {
        match self {
            About::Description(bytes) => hex(bytes),
            About::History(commands) => format!("{:?}", commands[call]),
        }
    }

    pub fn whole(&self) -> String {
        match self {
            About::Description(bytes) => hex(bytes),
            About::History(commands) => format!("{commands:?}"),
        }
    }
}

impl Default for About {
    fn default() -> About {
        About::History(Vec::new())
    }
}

#[derive(Default)]
pub struct Batch {
    canary: usize,
    pub about: About,
    pub commands: Vec<u8>,
    pub expected: Vec<u8>,
    pub pieces: Vec<Piece>,
    pub calls: Vec<Call>,
}

impl Batch {
    pub fn new(canary: usize) -> Batch {
        Batch { canary, ..Batch::default() }
    }

    pub fn clear(&mut self) {
        self.commands.clear();
        self.expected.clear();
        self.pieces.clear();
        self.calls.clear();
    }

    // ---- commands

    pub fn command(&mut self, code: Code) -> &mut Batch {
        self.byte(code as u8)
    }

    pub fn byte(&mut self, value: u8) -> &mut Batch {
        self.commands.push(value);
        self
    }

    pub fn short(&mut self, value: usize) -> &mut Batch {
        let value = u16::try_from(value).expect("a length below 65,536");
        self.commands.extend_from_slice(&value.to_le_bytes());
        self
    }

    pub fn word(&mut self, value: u64) -> &mut Batch {
        self.commands.extend_from_slice(&value.to_le_bytes());
        self
    }

    pub fn part(&mut self, bytes: &[u8]) -> &mut Batch {
        self.short(bytes.len()).commands.extend_from_slice(bytes);
        self
    }

    // ---- answers

    fn piece(&mut self, name: &'static str, entry: Option<u16>, is_number: bool) {
        self.pieces.push(Piece { name, entry, is_number, end: self.expected.len() });
    }

    pub fn number(&mut self, name: &'static str, value: u64) -> &mut Batch {
        self.expected.extend_from_slice(&value.to_le_bytes());
        self.piece(name, None, true);
        self
    }

    pub fn told(&mut self, told: Told) -> &mut Batch {
        self.number("refusal's number", told.number.into());
        self.number("refusal's type", told.type_number.into())
    }

    fn canary(&mut self, thing: Thing) {
        self.expected.resize(self.expected.len() + self.canary, thing.mark());
    }

    /// A buffer that was lent, with its canaries.
    pub fn buffer(&mut self, thing: Thing, bytes: &[u8]) -> &mut Batch {
        self.canary(thing);
        self.expected.extend_from_slice(bytes);
        self.canary(thing);
        self.piece(thing.name(), None, false);
        self
    }

    /// The canaries alone, of what is sent field by field.
    fn canaries(&mut self, thing: Thing) -> &mut Batch {
        self.buffer(thing, &[])
    }

    fn fields(&mut self, of: &impl Fields, entry: Option<u16>) {
        of.each(|name, value| {
            self.expected.extend_from_slice(&value.to_le_bytes());
            self.piece(name, entry, true);
        });
    }

    /// A struct that was lent.
    pub fn record(&mut self, thing: Thing, of: &impl Fields) -> &mut Batch {
        self.fields(of, None);
        self.canaries(thing)
    }

    /// A list of structs that was lent.
    pub fn list(&mut self, of: &[impl Fields]) -> &mut Batch {
        for (entry, one) in of.iter().enumerate() {
            self.fields(one, Some(entry as u16));
        }
        self.canaries(Thing::List)
    }

    /// Ends a call and what it should answer.
    pub fn end(&mut self, name: &'static str) {
        self.calls.push(Call {
            name,
            commands_end: self.commands.len(),
            pieces_end: self.pieces.len(),
            end: self.expected.len(),
        });
    }
}
