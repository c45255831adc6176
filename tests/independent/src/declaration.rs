//! Document 02, request 2026-08, "Reading a C prototype": docs/GRAMMAR.md a second
//! time. Every way to read a text is followed at once, without looking ahead: what may
//! come next at a place is then all that some way wants there.

use std::collections::{BTreeMap, BTreeSet};
use std::sync::OnceLock;

/// "text to 4,096 bytes"
pub const LONGEST_TEXT: usize = 4096;

/// What a token is: a word or a sign that is written in one way, a name, a number.
#[derive(Clone, Copy, Debug, PartialEq, Eq, PartialOrd, Ord)]
pub enum Token {
    Fixed(&'static str),
    Name,
    Number,
}

pub const SIGNS: [&str; 10] = ["(", ")", "{", "}", "[", "]", ",", ";", "*", "..."];
pub const RESERVED: [&str; 35] = [
    "void",
    "_Bool",
    "bool",
    "char",
    "short",
    "int",
    "long",
    "signed",
    "unsigned",
    "float",
    "double",
    "_Complex",
    "__int128",
    "__float128",
    "__m64",
    "__m128",
    "__m256",
    "int8_t",
    "uint8_t",
    "int16_t",
    "uint16_t",
    "int32_t",
    "uint32_t",
    "int64_t",
    "uint64_t",
    "size_t",
    "ptrdiff_t",
    "intptr_t",
    "uintptr_t",
    "struct",
    "union",
    "const",
    "volatile",
    "restrict",
    "extern",
];

/// The words of each basic type, in any order; `signed` and `unsigned` stand for each
/// other.
const BASIC_TYPES: [&[&str]; 40] = [
    &["_Bool"],
    &["bool"],
    &["char"],
    &["signed", "char"],
    &["short"],
    &["short", "int"],
    &["short", "signed"],
    &["short", "signed", "int"],
    &["signed"],
    &["int"],
    &["signed", "int"],
    &["long"],
    &["long", "int"],
    &["long", "signed"],
    &["long", "signed", "int"],
    &["long", "long"],
    &["long", "long", "int"],
    &["long", "long", "signed"],
    &["long", "long", "signed", "int"],
    &["float"],
    &["double"],
    &["long", "double"],
    &["__int128"],
    &["signed", "__int128"],
    &["__float128"],
    &["__m64"],
    &["__m128"],
    &["__m256"],
    &["int8_t"],
    &["uint8_t"],
    &["int16_t"],
    &["uint16_t"],
    &["int32_t"],
    &["uint32_t"],
    &["int64_t"],
    &["uint64_t"],
    &["size_t"],
    &["ptrdiff_t"],
    &["intptr_t"],
    &["uintptr_t"],
];
/// Those that `_Complex` may stand beside.
const COMPLEX_PARTS: [&[&str]; 3] = [&["float"], &["double"], &["long", "double"]];

fn is_blank(byte: u8) -> bool {
    matches!(byte, b' ' | b'\t' | b'\n' | b'\r')
}

fn is_letter(byte: u8) -> bool {
    byte.is_ascii_alphabetic() || byte == b'_'
}

fn is_word_byte(byte: u8) -> bool {
    is_letter(byte) || byte.is_ascii_digit()
}

/// Whether a byte goes on with a token that stands before it: words are runs of letters
/// and digits, dots stand together, every other byte stands alone.
fn joins(token: &[u8], byte: u8) -> bool {
    match token.last() {
        None => false,
        Some(&last) => (is_word_byte(last) && is_word_byte(byte)) || (last == b'.' && byte == b'.'),
    }
}

/// Whether the bytes are the token.
fn is_token(bytes: &[u8], token: Token) -> bool {
    match token {
        Token::Fixed(text) => bytes == text.as_bytes(),
        Token::Name => is_name_part(bytes) && !RESERVED.iter().any(|word| bytes == word.as_bytes()),
        Token::Number => is_number_part(bytes),
    }
}

fn is_name_part(bytes: &[u8]) -> bool {
    !bytes.is_empty() && is_letter(bytes[0]) && bytes.iter().all(|&byte| is_word_byte(byte))
}

/// "digits, no leading zero except `0` alone"
fn is_number_part(bytes: &[u8]) -> bool {
    !bytes.is_empty()
        && bytes.iter().all(u8::is_ascii_digit)
        && (bytes[0] != b'0' || bytes.len() == 1)
}

/// Whether some token of the kind begins with the bytes: a name can always go on, so that
/// a reserved word is the beginning of one.
fn begins(bytes: &[u8], token: Token) -> bool {
    match token {
        Token::Fixed(text) => text.as_bytes().starts_with(bytes),
        Token::Name => is_name_part(bytes),
        Token::Number => is_number_part(bytes),
    }
}

/// The places, as numbers of tokens, that some ways to read have come to.
type Places = BTreeSet<usize>;

/// All ways to read the tokens, followed at once.
struct Ways<'a> {
    tokens: &'a [Vec<u8>],
    /// By place: what some way wants there.
    wanted: Vec<BTreeSet<Token>>,
}

impl<'a> Ways<'a> {
    fn take(&mut self, from: &Places, token: Token) -> Places {
        let mut to = Places::new();
        for &place in from {
            self.wanted[place].insert(token);
            if place < self.tokens.len() && is_token(&self.tokens[place], token) {
                to.insert(place + 1);
            }
        }
        to
    }

    fn fixed(&mut self, from: &Places, text: &'static str) -> Places {
        self.take(from, Token::Fixed(text))
    }

    fn either(&mut self, from: &Places, texts: &[&'static str]) -> Places {
        texts.iter().flat_map(|text| self.fixed(from, text)).collect()
    }

    fn optional(&mut self, from: &Places, rule: fn(&mut Self, &Places) -> Places) -> Places {
        let to = rule(self, from);
        from.union(&to).copied().collect()
    }

    /// The rule any number of times.
    fn repeated(&mut self, from: &Places, rule: fn(&mut Self, &Places) -> Places) -> Places {
        let (mut all, mut newest) = (from.clone(), from.clone());
        while !newest.is_empty() {
            newest = rule(self, &newest).difference(&all).copied().collect();
            all.extend(&newest);
        }
        all
    }

    /// qualifier = "const" | "volatile"
    fn qualifier(&mut self, from: &Places) -> Places {
        self.either(from, &["const", "volatile"])
    }

    fn qualifiers(&mut self, from: &Places) -> Places {
        self.repeated(from, Ways::qualifier)
    }

    /// The words of one basic type in any order, qualifiers between and behind them.
    fn words(&mut self, from: &Places) -> Places {
        let mut to = Places::new();
        let mut open: Vec<(Words, Places)> = vec![(Words::new(), from.clone())];
        while let Some((words, places)) = open.pop() {
            let known = &known_words()[&words];
            if known.is_type {
                to.extend(&places);
            }
            for &word in &known.next {
                let behind = self.fixed(&places, word);
                let behind = self.qualifiers(&behind);
                if !behind.is_empty() {
                    open.push((with_word(&words, word), behind));
                }
            }
        }
        to
    }

    /// pointers = "*" { "*" | qual | "restrict" }
    fn pointers(&mut self, from: &Places) -> Places {
        let star = self.fixed(from, "*");
        self.repeated(&star, |ways, places| {
            ways.either(places, &["*", "const", "volatile", "restrict"])
        })
    }

    fn maybe_pointers(&mut self, from: &Places) -> Places {
        self.optional(from, Ways::pointers)
    }

    fn name(&mut self, from: &Places) -> Places {
        self.take(from, Token::Name)
    }

    /// A struct or a union with its members, or a tag alone behind a pointer.
    fn group(&mut self, from: &Places) -> Places {
        let head = self.either(from, &["struct", "union"]);
        let tag = self.name(&head);
        let before = head.union(&tag).copied().collect();
        let mut inside = self.fixed(&before, "{");
        if !inside.is_empty() {
            inside = self.member(&inside);
            inside = self.repeated(&inside, Ways::member);
        }
        let closed = self.fixed(&inside, "}");
        let closed = self.qualifiers(&closed);
        let mut to = self.maybe_pointers(&closed);
        let tagged = self.qualifiers(&tag);
        to.extend(self.pointers(&tagged));
        to
    }

    /// ( "void" | name ) { qualifier }: what only a pointer can be to.
    fn target(&mut self, from: &Places) -> Places {
        let mut target = self.fixed(from, "void");
        target.extend(self.name(from));
        self.qualifiers(&target)
    }

    /// Members of basic types may be several, with commas between them.
    fn member(&mut self, from: &Places) -> Places {
        let from = self.qualifiers(from);
        let words = self.words(&from);
        let words = self.maybe_pointers(&words);
        let first = self.field(&words);
        let mut ends = self.repeated(&first, |ways, places| {
            let comma = ways.fixed(places, ",");
            let comma = ways.maybe_pointers(&comma);
            ways.field(&comma)
        });
        let target = self.target(&from);
        let mut single = self.group(&from);
        single.extend(self.pointers(&target));
        ends.extend(self.field(&single));
        ends.extend(self.function_pointer(&target, false));
        self.fixed(&ends, ";")
    }

    /// field = name { "[" number "]" } | a pointer to a function
    fn field(&mut self, from: &Places) -> Places {
        let name = self.name(from);
        let mut to = self.repeated(&name, Ways::size);
        to.extend(self.function_pointer(from, false));
        to
    }

    fn size(&mut self, from: &Places) -> Places {
        let open = self.fixed(from, "[");
        let number = self.take(&open, Token::Number);
        self.fixed(&number, "]")
    }

    /// "(" "*" { "*" | qual } name ")" "(" parameters ")", a parameter's without a name too.
    fn function_pointer(&mut self, from: &Places, nameless: bool) -> Places {
        let open = self.fixed(from, "(");
        let star = self.fixed(&open, "*");
        let stars =
            self.repeated(&star, |ways, places| ways.either(places, &["*", "const", "volatile"]));
        let mut named = self.name(&stars);
        if nameless {
            named.extend(&stars);
        }
        let closed = self.fixed(&named, ")");
        self.parameter_list(&closed)
    }

    fn parameter_list(&mut self, from: &Places) -> Places {
        let open = self.fixed(from, "(");
        if open.is_empty() {
            return open;
        }
        let inside = self.parameters(&open);
        self.fixed(&inside, ")")
    }

    /// parameters = [ "void" | "..." | parameter { "," parameter } [ "," "..." ] ]
    fn parameters(&mut self, from: &Places) -> Places {
        let mut to = from.clone();
        to.extend(self.either(from, &["void", "..."]));
        let some = self.types(from);
        let comma = self.fixed(&some, ",");
        to.extend(self.fixed(&comma, "..."));
        to.extend(&some);
        to
    }

    fn types(&mut self, from: &Places) -> Places {
        let first = self.parameter(from);
        self.repeated(&first, |ways, places| {
            let comma = ways.fixed(places, ",");
            ways.parameter(&comma)
        })
    }

    fn parameter(&mut self, from: &Places) -> Places {
        let from = self.qualifiers(from);
        let target = self.target(&from);
        let words = self.words(&from);
        let mut typed = self.maybe_pointers(&words);
        typed.extend(self.group(&from));
        typed.extend(self.pointers(&target));
        let mut to = typed.clone();
        let name = self.name(&typed);
        to.extend(&name);
        let dimensioned = typed.union(&name).copied().collect();
        to.extend(self.sizes(&dimensioned));
        let called = typed.union(&target).copied().collect();
        to.extend(self.function_pointer(&called, true));
        to
    }

    /// sizes = "[" [ number ] "]" { "[" number "]" }
    fn sizes(&mut self, from: &Places) -> Places {
        let open = self.fixed(from, "[");
        let mut inside = self.take(&open, Token::Number);
        inside.extend(&open);
        let closed = self.fixed(&inside, "]");
        self.repeated(&closed, Ways::size)
    }

    /// prototype = [ "extern" ] returned [ name ] "(" parameters ")" [ ";" ]
    fn prototype(&mut self, from: &Places) -> Places {
        let from = self.optional(from, |ways, places| ways.fixed(places, "extern"));
        let from = self.qualifiers(&from);
        let void = self.fixed(&from, "void");
        let mut typed = self.qualifiers(&void);
        typed.extend(self.words(&from));
        let mut returned = self.maybe_pointers(&typed);
        returned.extend(self.group(&from));
        let other = self.name(&from);
        let other = self.qualifiers(&other);
        returned.extend(self.pointers(&other));
        let named = self.optional(&returned, Ways::name);
        let closed = self.parameter_list(&named);
        self.optional(&closed, |ways, places| ways.fixed(places, ";"))
    }
}

/// Words of a basic type: `unsigned` is told by `signed`, and the order does not matter.
type Words = Vec<&'static str>;

fn with_word(words: &[&'static str], word: &'static str) -> Words {
    let mut longer = words.to_vec();
    longer.push(if word == "unsigned" { "signed" } else { word });
    longer.sort_unstable();
    longer
}

fn basic_types() -> Vec<Words> {
    let complex = COMPLEX_PARTS.iter().map(|words| [words, &["_Complex"][..]].concat());
    let all = BASIC_TYPES.iter().map(|words| words.to_vec()).chain(complex);
    all.map(|words| words.iter().fold(Words::new(), |some, word| with_word(&some, word))).collect()
}

/// Of words that begin a basic type: whether they are one, and the words that may follow.
struct Known {
    is_type: bool,
    next: Vec<&'static str>,
}

/// Whether the second has all words of the first.
fn is_within(some: &[&'static str], mut whole: Words) -> bool {
    some.iter().all(|word| match whole.iter().position(|known| known == word) {
        Some(found) => {
            whole.remove(found);
            true
        }
        None => false,
    })
}

fn known_words() -> &'static BTreeMap<Words, Known> {
    static KNOWN: OnceLock<BTreeMap<Words, Known>> = OnceLock::new();
    KNOWN.get_or_init(|| {
        let types = basic_types();
        let begins = |words: &Words| types.iter().any(|whole| is_within(words, whole.clone()));
        let (mut known, mut open) = (BTreeMap::new(), vec![Words::new()]);
        while let Some(words) = open.pop() {
            let next: Vec<_> =
                RESERVED.into_iter().filter(|word| begins(&with_word(&words, word))).collect();
            open.extend(next.iter().map(|word| with_word(&words, word)));
            known.insert(words.clone(), Known { is_type: types.contains(&words), next });
        }
        known
    })
}

/// What is read: a prototype, or the types that a call adds.
#[derive(Clone, Copy, Debug, PartialEq, Eq)]
pub enum Start {
    Prototype,
    Types,
}

/// The tokens of a text: blanks only separate them.
pub fn tokens_of(text: &[u8]) -> Vec<Vec<u8>> {
    let mut tokens: Vec<Vec<u8>> = Vec::new();
    let mut token: Vec<u8> = Vec::new();
    for &byte in text {
        if !joins(&token, byte) {
            tokens.push(std::mem::take(&mut token));
        }
        if !is_blank(byte) {
            token.push(byte);
        }
    }
    tokens.push(token);
    tokens.retain(|token| !token.is_empty());
    tokens
}

/// Whether the text is in the grammar; where it is not, "the place of the first byte after
/// which no continuation fits, or the length where the text only stops short".
pub fn in_grammar(text: &[u8], start: Start) -> Result<(), usize> {
    let tokens = tokens_of(text);
    let mut ways = Ways { tokens: &tokens, wanted: vec![BTreeSet::new(); tokens.len() + 1] };
    let first = Places::from([0]);
    let ends = match start {
        Start::Prototype => ways.prototype(&first),
        Start::Types => {
            let some = ways.types(&first);
            first.union(&some).copied().collect()
        }
    };
    let fits =
        |place: usize, bytes: &[u8]| ways.wanted[place].iter().any(|&token| begins(bytes, token));
    let is_one =
        |place: usize, bytes: &[u8]| ways.wanted[place].iter().any(|&token| is_token(bytes, token));
    let (mut place, mut token) = (0, Vec::new());
    for (at, &byte) in text.iter().enumerate() {
        if !joins(&token, byte) && !token.is_empty() {
            if !is_one(place, &token) {
                return Err(at);
            }
            place += 1;
            token.clear();
        }
        if !is_blank(byte) {
            token.push(byte);
            if !fits(place, &token) {
                return Err(at);
            }
        }
    }
    if ends.contains(&tokens.len()) {
        Ok(())
    } else {
        Err(text.len())
    }
}
