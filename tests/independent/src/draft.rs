//! A description in the making. Nothing is checked: drafts may be wrong on
//! purpose.

use crate::description::{ARRAY, BASIC, ILP32, STRUCT, UNION, VARIADIC, VOID};

#[derive(Clone, Debug)]
pub struct Draft {
    pub mark: [u8; 3],
    pub version: u16,
    pub records: Vec<[u8; 4]>,
    pub members: Vec<u8>,
    pub arguments: Vec<u8>,
    pub flags: u8,
    pub named: u8,
    pub returned: u8,
}

impl Default for Draft {
    fn default() -> Draft {
        Draft {
            mark: *b"KCB",
            version: 1,
            records: Vec::new(),
            members: Vec::new(),
            arguments: Vec::new(),
            flags: 0,
            named: 0,
            returned: VOID,
        }
    }
}

impl Draft {
    pub fn new() -> Draft {
        Draft::default()
    }

    /// A new type record; answers its number.
    pub fn record(&mut self, kind: u8, a: u8, count: usize) -> u8 {
        let [low, high] = (count as u16).to_le_bytes();
        self.records.push([kind, a, low, high]);
        (self.records.len() - 1) as u8
    }

    /// The number of a basic type, which is added where it is not there yet.
    pub fn basic(&mut self, code: u8) -> u8 {
        let wanted = [BASIC, code, 0, 0];
        match self.records.iter().position(|record| *record == wanted) {
            Some(found) => found as u8,
            None => self.record(BASIC, code, 0),
        }
    }

    pub fn array(&mut self, element: u8, count: usize) -> u8 {
        self.record(ARRAY, element, count)
    }

    fn with_run(&mut self, kind: u8, run: &[u8]) -> u8 {
        let start = self.members.len() as u8;
        self.members.extend_from_slice(run);
        self.record(kind, start, run.len())
    }

    /// A struct with a new run of its own.
    pub fn structure(&mut self, run: &[u8]) -> u8 {
        self.with_run(STRUCT, run)
    }

    /// A union with a new run of its own.
    pub fn union(&mut self, run: &[u8]) -> u8 {
        self.with_run(UNION, run)
    }

    /// A struct of `size` chars.
    pub fn block(&mut self, size: usize) -> u8 {
        let character = self.basic(1);
        let array = self.array(character, size);
        self.structure(&[array])
    }

    /// One more argument, named where the function is not variadic yet.
    pub fn argument(&mut self, type_number: u8) {
        self.arguments.push(type_number);
        if !self.is_variadic() {
            self.named = self.arguments.len() as u8;
        }
    }

    pub fn arguments(&mut self, type_number: u8, count: usize) {
        for _ in 0..count {
            self.argument(type_number);
        }
    }

    pub fn is_variadic(&self) -> bool {
        self.flags & VARIADIC != 0
    }

    /// Arguments from here on are unnamed.
    pub fn ellipsis(&mut self) {
        self.flags |= VARIADIC;
        self.named = self.arguments.len() as u8;
    }

    pub fn bytes(&self) -> Vec<u8> {
        let mut bytes = self.mark.to_vec();
        bytes.extend(self.version.to_le_bytes());
        bytes.push(self.records.len() as u8);
        bytes.push(self.flags);
        bytes.push(self.named);
        bytes.push(self.arguments.len() as u8);
        bytes.push(self.returned);
        bytes.push(self.members.len() as u8);
        bytes.extend(self.records.iter().flatten());
        bytes.extend(&self.members);
        bytes.extend(&self.arguments);
        bytes
    }
}

/// Each description, then each under ILP32.
pub fn in_both_models(mut all: Vec<Vec<u8>>) -> Vec<Vec<u8>> {
    all.extend(all.clone().iter().map(|bytes| in_ilp32(bytes)));
    all
}

/// The same bytes under ILP32, where there is a byte 6 to say it.
pub fn in_ilp32(bytes: &[u8]) -> Vec<u8> {
    let mut bytes = bytes.to_vec();
    if let Some(flags) = bytes.get_mut(6) {
        *flags |= ILP32;
    }
    bytes
}
