//! Descriptions written as text, so that cases can be read:
//! `"void: int, double, ..., int, struct{float, char[3]}"`. First the return
//! type, then the arguments; `...` stands before the unnamed ones, and `ilp32`
//! before all of it for that model.

use crate::description::ILP32;
use crate::draft::Draft;

/// Names of the basic types, each at the place of its code.
pub const NAMES: [&str; 17] = [
    "bool",
    "char",
    "short",
    "int",
    "long",
    "int128",
    "float",
    "double",
    "long_double",
    "float128",
    "m64",
    "m128",
    "complex_float",
    "complex_double",
    "complex_long_double",
    "pointer",
    "m256",
];

struct Reader<'a> {
    rest: &'a str,
    draft: Draft,
}

impl Reader<'_> {
    /// Passes over `text` where it stands next.
    fn accept(&mut self, text: &str) -> bool {
        self.rest = self.rest.trim_start();
        match self.rest.strip_prefix(text) {
            Some(rest) => {
                self.rest = rest;
                true
            }
            None => false,
        }
    }

    fn expect(&mut self, text: &str) {
        assert!(self.accept(text), "expected {text:?} before {:?}", self.rest);
    }

    /// The letters, digits and underscores that stand next.
    fn word(&mut self) -> String {
        self.rest = self.rest.trim_start();
        let is_word = |letter: char| letter.is_ascii_alphanumeric() || letter == '_';
        let end = self.rest.find(|letter| !is_word(letter)).unwrap_or(self.rest.len());
        let (word, rest) = self.rest.split_at(end);
        self.rest = rest;
        word.to_string()
    }

    fn run(&mut self) -> Vec<u8> {
        self.expect("{");
        let mut run = vec![self.type_number()];
        while self.accept(",") {
            run.push(self.type_number());
        }
        self.expect("}");
        run
    }

    fn plain_type(&mut self) -> u8 {
        let word = self.word();
        match word.as_str() {
            "struct" => {
                let run = self.run();
                self.draft.structure(&run)
            }
            "union" => {
                let run = self.run();
                self.draft.union(&run)
            }
            _ => {
                let code = NAMES.iter().position(|&name| name == word);
                let code = code.unwrap_or_else(|| panic!("no type {word:?}"));
                self.draft.basic(code as u8)
            }
        }
    }

    fn type_number(&mut self) -> u8 {
        let mut number = self.plain_type();
        while self.accept("[") {
            let count = self.word().parse().expect("a count");
            self.expect("]");
            number = self.draft.array(number, count);
        }
        number
    }

    fn arguments(&mut self) {
        loop {
            if self.accept("...") {
                self.draft.ellipsis();
            } else if self.rest.trim_start().is_empty() {
                return;
            } else {
                let number = self.type_number();
                self.draft.argument(number);
            }
            self.accept(",");
        }
    }
}

/// The draft that a text describes.
pub fn draft(text: &str) -> Draft {
    let mut reader = Reader { rest: text, draft: Draft::new() };
    if reader.accept("ilp32 ") {
        reader.draft.flags |= ILP32;
    }
    if !reader.accept("void") {
        reader.draft.returned = reader.type_number();
    }
    reader.expect(":");
    reader.arguments();
    reader.draft
}

/// The bytes of the description that a text describes.
pub fn description(text: &str) -> Vec<u8> {
    draft(text).bytes()
}
