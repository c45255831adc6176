//! Texts for the reader of prototypes: grown from the grammar of docs/GRAMMAR.md,
//! damaged, and of random tokens and bytes.

use crate::declaration::{Start, LONGEST_TEXT, RESERVED, SIGNS};
use crate::random::Random;

/// Grows one sentence, token after token.
struct Growing<'a> {
    random: &'a mut Random,
    tokens: Vec<String>,
    depth: usize,
}

const BASIC: [&str; 33] = [
    "_Bool",
    "char",
    "signed char",
    "char unsigned",
    "short",
    "short int",
    "int short unsigned",
    "unsigned",
    "signed int",
    "int",
    "int",
    "int",
    "long",
    "long int",
    "unsigned long",
    "long long",
    "long unsigned int long",
    "float",
    "float",
    "double",
    "double",
    "double long",
    "long double",
    "_Complex float",
    "double _Complex",
    "long _Complex double",
    "__int128",
    "unsigned __int128",
    "__float128",
    "__m64",
    "__m128",
    "__m256",
    "long signed",
];

impl<'a> Growing<'a> {
    fn put(&mut self, text: &str) {
        self.tokens.extend(text.split(' ').map(str::to_string));
    }

    fn maybe(&mut self, times: usize, text: &str) {
        if self.random.one_in(times) {
            self.put(text);
        }
    }

    fn qualifiers(&mut self) {
        self.maybe(6, "const");
        self.maybe(20, "volatile");
    }

    fn name(&mut self) {
        let name = self
            .random
            .choose(&["a", "b1", "level", "_x", "constant", "int32", "longer", "voidp", "K_9"]);
        self.put(name);
    }

    fn number(&mut self) {
        let number = self.random.choose(&[
            "0",
            "1",
            "2",
            "3",
            "16",
            "255",
            "4096",
            "65535",
            "65536",
            "99999999999999999999",
        ]);
        self.put(number);
    }

    fn pointers(&mut self) {
        self.put("*");
        while self.random.one_in(4) {
            let more = self.random.choose(&["*", "const", "volatile", "restrict"]);
            self.put(more);
        }
    }

    fn words(&mut self) {
        let words = self.random.choose(&BASIC);
        for word in words.split(' ') {
            self.put(word);
            self.qualifiers();
        }
    }

    fn is_deep(&self) -> bool {
        self.depth > 4 || self.tokens.len() > 300
    }

    fn group(&mut self) {
        let kind = self.random.choose(&["struct", "union"]);
        self.put(kind);
        if self.is_deep() || self.random.one_in(4) {
            self.name();
            self.qualifiers();
            self.pointers();
            return;
        }
        if self.random.one_in(3) {
            self.name();
        }
        self.put("{");
        self.depth += 1;
        for _ in 0..self.random.between(1, 4) {
            self.member();
        }
        self.depth -= 1;
        self.put("}");
        self.qualifiers();
        if self.random.one_in(5) {
            self.pointers();
        }
    }

    /// What only a pointer can be to.
    fn target(&mut self) {
        if self.random.one_in(2) {
            self.put("void");
        } else {
            self.name();
        }
        self.qualifiers();
    }

    fn member(&mut self) {
        self.qualifiers();
        match self.random.below(5) {
            0 => {
                self.group();
                self.field();
            }
            1 if !self.is_deep() && self.random.one_in(3) => {
                self.target();
                self.function_pointer(false);
            }
            1 => {
                self.target();
                self.pointers();
                self.field();
            }
            _ => {
                self.words();
                self.maybe_pointers();
                self.field();
                while self.random.one_in(4) {
                    self.put(",");
                    self.maybe_pointers();
                    self.field();
                }
            }
        }
        self.put(";");
    }

    fn maybe_pointers(&mut self) {
        if self.random.one_in(4) {
            self.pointers();
        }
    }

    fn field(&mut self) {
        if !self.is_deep() && self.random.one_in(10) {
            self.function_pointer(false);
            return;
        }
        self.name();
        while self.random.one_in(4) {
            self.put("[");
            self.number();
            self.put("]");
        }
    }

    fn function_pointer(&mut self, nameless: bool) {
        self.put("( *");
        while self.random.one_in(5) {
            let more = self.random.choose(&["*", "const", "volatile"]);
            self.put(more);
        }
        if !nameless || self.random.one_in(2) {
            self.name();
        }
        self.put(") (");
        self.depth += 1;
        self.parameters();
        self.depth -= 1;
        self.put(")");
    }

    fn parameters(&mut self) {
        match self.random.below(8) {
            0 => {}
            1 => self.put("void"),
            2 => self.put("..."),
            _ => {
                self.types();
                self.maybe(3, ", ...");
            }
        }
    }

    fn types(&mut self) {
        self.parameter();
        while self.random.one_in(2) {
            self.put(",");
            self.parameter();
        }
    }

    fn parameter(&mut self) {
        self.qualifiers();
        match self.random.below(4) {
            0 => self.group(),
            1 if !self.is_deep() && self.random.one_in(4) => {
                self.target();
                self.function_pointer(true);
                return;
            }
            1 => {
                self.target();
                self.pointers();
            }
            _ => {
                self.words();
                self.maybe_pointers();
            }
        }
        if !self.is_deep() && self.random.one_in(12) {
            self.function_pointer(true);
            return;
        }
        if self.random.one_in(2) {
            self.name();
        }
        if self.random.one_in(5) {
            self.put("[");
            if self.random.one_in(2) {
                self.number();
            }
            self.put("]");
            while self.random.one_in(3) {
                self.put("[");
                self.number();
                self.put("]");
            }
        }
    }

    fn prototype(&mut self) {
        self.maybe(8, "extern");
        self.qualifiers();
        match self.random.below(5) {
            0 => {
                self.put("void");
                self.qualifiers();
                self.maybe_pointers();
            }
            1 => self.group(),
            2 => {
                self.name();
                self.qualifiers();
                self.pointers();
            }
            _ => {
                self.words();
                self.maybe_pointers();
            }
        }
        if !self.random.one_in(6) {
            self.name();
        }
        self.put("(");
        self.parameters();
        self.put(")");
        self.maybe(2, ";");
    }
}

fn is_word(token: &str) -> bool {
    token.bytes().next().is_some_and(|byte| byte.is_ascii_alphanumeric() || byte == b'_')
}

/// The tokens as a text, with blanks where two would be one without, and with some more.
fn spaced(tokens: &[String], random: &mut Random) -> Vec<u8> {
    let mut text = Vec::new();
    for (place, token) in tokens.iter().enumerate() {
        let needed = place > 0 && is_word(&tokens[place - 1]) && is_word(token);
        if needed || random.one_in(3) {
            text.push(random.choose(b"    \t\n\r"));
        }
        while random.one_in(30) {
            text.push(b' ');
        }
        text.extend(token.bytes());
    }
    text
}

/// A sentence of the grammar.
pub fn grown(start: Start, random: &mut Random) -> Vec<u8> {
    let mut growing = Growing { random, tokens: Vec::new(), depth: 0 };
    match start {
        Start::Prototype => growing.prototype(),
        Start::Types => {
            if !growing.random.one_in(10) {
                growing.types();
            }
        }
    }
    let tokens = growing.tokens;
    spaced(&tokens, random)
}

/// The text with one byte or one token more, less or other, or cut off.
pub fn damaged(text: &[u8], random: &mut Random) -> Vec<u8> {
    let mut text = text.to_vec();
    let at = random.below(text.len() + 1);
    let other = match random.below(3) {
        0 => vec![random.byte()],
        1 => random.choose(&SIGNS).as_bytes().to_vec(),
        _ => format!(" {} ", random.choose(&RESERVED)).into_bytes(),
    };
    match random.below(4) {
        0 => text.truncate(at),
        1 if at < text.len() => {
            text.remove(at);
        }
        2 if at < text.len() => {
            text.splice(at..at + 1, other);
        }
        _ => {
            text.splice(at..at, other);
        }
    }
    text
}

/// Random tokens, with a random byte among them now and then.
pub fn jumbled(random: &mut Random) -> Vec<u8> {
    let mut text = Vec::new();
    for _ in 0..random.below(40) {
        match random.below(12) {
            0 => text.push(random.byte()),
            1 => text.extend(b" a1 "),
            2 => text.extend(b"7"),
            3 | 4 => text.extend(format!(" {} ", random.choose(&RESERVED)).into_bytes()),
            5 | 6 => text.extend(b" int "),
            _ => text.extend(random.choose(&SIGNS).as_bytes()),
        }
    }
    text
}

/// Texts that are as long as the limit allows, and one byte longer, and deep: nothing may
/// stall or overrun on them.
pub fn extreme() -> Vec<Vec<u8>> {
    let filled = |unit: &str, end: &str| {
        let mut text = unit.repeat((LONGEST_TEXT - end.len()) / unit.len()).into_bytes();
        text.extend(end.bytes());
        text
    };
    let names = format!("int f(int {})", "a".repeat(LONGEST_TEXT - 11));
    vec![
        filled("{", ""),
        filled("struct{", ""),
        filled("(", ""),
        filled("\0", ""),
        filled("\u{e9}", ""),
        filled(" ", ""),
        filled("f", ""),
        filled("int f(int(*a)(", ""),
        format!("int f({})", vec!["int"; 1000].join(",")).into_bytes(),
        format!("int f(struct {{ {} }} *p)", "int a;".repeat(600)).into_bytes(),
        format!("int f({}int a;{}b)", "struct{".repeat(300), "}a;".repeat(299) + "}").into_bytes(),
        names.clone().into_bytes(),
        (names + " ").into_bytes(),
    ]
}
