//! Document 02, request 2026-08, "Reading a C prototype": what a sentence of
//! docs/GRAMMAR.md says, and the text that says a description's named part.

use crate::declaration::{in_grammar, tokens_of, Start, LONGEST_TEXT, RESERVED};
use crate::description::{Description, Model, ARRAY, BASIC, ILP32, STRUCT, UNION, VARIADIC, VOID};
use crate::places::accepted;
use crate::refusal::Refusal;
use crate::tidying::tidy;
use crate::types::code;

/// A type as it is written out.
#[derive(Clone, Debug, PartialEq, Eq)]
pub enum Written {
    Basic(u8),
    Array(Box<Written>, usize),
    Struct(Vec<Written>),
    Union(Vec<Written>),
}

/// What a prototype says; `None` is void.
#[derive(Clone, Debug, PartialEq, Eq)]
pub struct Prototype {
    pub returned: Option<Written>,
    pub parameters: Vec<Written>,
    pub variadic: bool,
}

/// Why a text is refused: 25, 26 with its place, or a refusal of the description.
#[derive(Clone, Copy, Debug, PartialEq, Eq)]
pub enum Unread {
    TooLong,
    NotInGrammar(usize),
    Refused(Refusal),
}

/// "sizes over 65,535 are clamped": a count has 16 bits.
const LARGEST_COUNT: usize = 65535;

/// What stands before a declared name: a type, or something that only a pointer can be
/// to.
enum Base {
    Known(Written),
    Target,
}

/// Reads the tokens of a text that is in the grammar.
struct Reading<'a> {
    tokens: &'a [Vec<u8>],
    at: usize,
    model: Model,
}

const POINTER: Written = Written::Basic(code::POINTER);

impl Reading<'_> {
    fn next(&self) -> &str {
        self.tokens.get(self.at).map_or("", |token| std::str::from_utf8(token).expect("a token"))
    }

    fn accept(&mut self, text: &str) -> bool {
        let found = self.next() == text;
        self.at += usize::from(found);
        found
    }

    fn expect(&mut self, text: &str) {
        assert!(self.accept(text), "{text} before token {}", self.at);
    }

    fn pass(&mut self, texts: &[&str]) {
        while texts.contains(&self.next()) {
            self.at += 1;
        }
    }

    fn qualifiers(&mut self) {
        self.pass(&["const", "volatile"]);
    }

    /// Whether the next token is a name.
    fn is_name(&self) -> bool {
        let first = self.next().bytes().next();
        first.is_some_and(|byte| byte.is_ascii_alphabetic() || byte == b'_')
            && !RESERVED.contains(&self.next())
    }

    fn name(&mut self) -> bool {
        let found = self.is_name();
        self.at += usize::from(found);
        found
    }

    fn base(&mut self) -> Base {
        self.qualifiers();
        if self.next() == "struct" || self.next() == "union" {
            let is_union = self.next() == "union";
            self.at += 1;
            self.name();
            if !self.accept("{") {
                return Base::Target;
            }
            let mut members = Vec::new();
            while !self.accept("}") {
                self.member(&mut members);
            }
            self.qualifiers();
            return Base::Known(if is_union {
                Written::Union(members)
            } else {
                Written::Struct(members)
            });
        }
        if self.accept("void") || self.name() {
            self.qualifiers();
            return Base::Target;
        }
        let mut words = Vec::new();
        while RESERVED.contains(&self.next()) {
            if !["const", "volatile"].contains(&self.next()) {
                words.push(self.next().to_string());
            }
            self.at += 1;
        }
        Base::Known(Written::Basic(basic_code(&words, self.model)))
    }

    fn pointers(&mut self) -> bool {
        let found = self.accept("*");
        self.pass(&["*", "const", "volatile", "restrict"]);
        found
    }

    /// A pointer to a function, where one stands next.
    fn called(&mut self) -> bool {
        if self.next() != "(" {
            return false;
        }
        for _ in 0..2 {
            self.expect("(");
            let mut open = 1;
            while open > 0 {
                open += usize::from(self.next() == "(");
                open -= usize::from(self.next() == ")");
                self.at += 1;
            }
        }
        true
    }

    /// "sizes are counts of an array member, the outermost first"
    fn sizes(&mut self, element: Written) -> Written {
        let mut counts = Vec::new();
        while self.accept("[") {
            counts.push(self.next().parse().unwrap_or(LARGEST_COUNT).min(LARGEST_COUNT));
            self.at += 1;
            self.expect("]");
        }
        counts.into_iter().rev().fold(element, |inner, n| Written::Array(Box::new(inner), n))
    }

    fn field(&mut self, base: &Base) -> Written {
        let pointer = self.pointers();
        if self.called() {
            return POINTER;
        }
        let own = match base {
            Base::Known(known) if !pointer => known.clone(),
            _ => POINTER,
        };
        self.name();
        self.sizes(own)
    }

    fn member(&mut self, members: &mut Vec<Written>) {
        let base = self.base();
        members.push(self.field(&base));
        while self.accept(",") {
            members.push(self.field(&base));
        }
        self.expect(";");
    }

    /// "A parameter that is an array is a pointer, and so is a callback."
    fn parameter(&mut self) -> Written {
        let base = self.base();
        let pointer = self.pointers();
        self.name();
        let mut pointed = pointer || self.called();
        while self.accept("[") {
            pointed = true;
            self.at += usize::from(self.next() != "]");
            self.expect("]");
        }
        pointed = self.called() || pointed;
        match base {
            Base::Known(known) if !pointed => known,
            _ => POINTER,
        }
    }

    fn parameters(&mut self) -> (Vec<Written>, bool) {
        let mut parameters = Vec::new();
        if self.next() == "void" && self.tokens.get(self.at + 1).is_some_and(|next| next == b")") {
            self.at += 1;
        }
        while self.at < self.tokens.len() && self.next() != ")" {
            if self.accept("...") {
                return (parameters, true);
            }
            parameters.push(self.parameter());
            self.accept(",");
        }
        (parameters, false)
    }

    fn prototype(&mut self) -> Prototype {
        self.accept("extern");
        let base = self.base();
        let returned = match (self.pointers(), base) {
            (true, _) => Some(POINTER),
            (false, Base::Known(known)) => Some(known),
            (false, Base::Target) => None,
        };
        self.name();
        self.expect("(");
        let (parameters, variadic) = self.parameters();
        Prototype { returned, parameters, variadic }
    }
}

/// The table of words.
fn basic_code(words: &[String], model: Model) -> u8 {
    let has = |word: &str| words.iter().any(|one| one == word);
    let longs = words.iter().filter(|word| *word == "long").count();
    let long = if model == Model::Lp64 { code::LONG } else { code::INT };
    let complex = if has("_Complex") { code::COMPLEX_FLOAT - code::FLOAT } else { 0 };
    let one_of = |names: &[&str]| names.iter().any(|name| has(name));
    match () {
        () if one_of(&["_Bool", "bool"]) => code::BOOL,
        () if one_of(&["char", "int8_t", "uint8_t"]) => code::CHAR,
        () if one_of(&["short", "int16_t", "uint16_t"]) => code::SHORT,
        () if one_of(&["int64_t", "uint64_t"]) => code::LONG,
        () if one_of(&["size_t", "ptrdiff_t", "intptr_t", "uintptr_t"]) => long,
        () if has("__int128") => code::INT128,
        () if has("__float128") => code::FLOAT128,
        () if has("__m64") => code::M64,
        () if has("__m128") => code::M128,
        () if has("__m256") => code::M256,
        () if has("float") => code::FLOAT + complex,
        () if has("double") => code::DOUBLE + complex + longs as u8,
        () if longs == 1 => long,
        () if longs == 2 => code::LONG,
        () => code::INT,
    }
}

/// A description's types in the making, equal ones once, numbered as each is first
/// completed.
#[derive(Default)]
struct Table {
    records: Vec<(u8, usize, Vec<usize>)>,
}

impl Table {
    fn complete(&mut self, written: &Written) -> usize {
        let record = match written {
            Written::Basic(basic) => (BASIC, *basic as usize, Vec::new()),
            Written::Array(element, count) => (ARRAY, *count, vec![self.complete(element)]),
            Written::Struct(members) => (STRUCT, 0, self.complete_all(members)),
            Written::Union(members) => (UNION, 0, self.complete_all(members)),
        };
        let found = self.records.iter().position(|known| *known == record);
        found.unwrap_or_else(|| {
            self.records.push(record);
            self.records.len() - 1
        })
    }

    fn complete_all(&mut self, all: &[Written]) -> Vec<usize> {
        all.iter().map(|one| self.complete(one)).collect()
    }

    fn members(&self) -> usize {
        let groups = self.records.iter().filter(|(kind, ..)| *kind == STRUCT || *kind == UNION);
        groups.map(|(_, _, parts)| parts.len()).sum()
    }
}

/// "a tidy KCB description with A = N": 4 for what no description has room for.
fn description_of(prototype: &Prototype, model: Model) -> Result<Vec<u8>, Refusal> {
    let mut table = Table::default();
    let returned = prototype.returned.as_ref().map(|written| table.complete(written));
    let arguments = table.complete_all(&prototype.parameters);
    if table.records.len() > 64 || arguments.len() > 64 || table.members() > 255 {
        return Err(Refusal::CountsAgainstRules);
    }
    let mut flags = 0;
    flags |= if prototype.variadic { VARIADIC } else { 0 };
    flags |= if model == Model::Ilp32 { ILP32 } else { 0 };
    let count = arguments.len() as u8;
    let number = returned.map_or(VOID, |number| number as u8);
    let types = table.records.len() as u8;
    let mut bytes = b"KCB\x01\x00".to_vec();
    bytes.extend([types, flags, count, count, number, table.members() as u8]);
    let mut run = Vec::new();
    for (kind, value, parts) in &table.records {
        let (a, count) = match *kind {
            BASIC => (*value, 0),
            ARRAY => (parts[0], *value),
            _ => (run.len(), parts.len()),
        };
        bytes.extend([*kind, a as u8, (count % 256) as u8, (count / 256) as u8]);
        if *kind == STRUCT || *kind == UNION {
            run.extend(parts.iter().map(|&part| part as u8));
        }
    }
    bytes.extend(run);
    bytes.extend(arguments.iter().map(|&argument| argument as u8));
    accepted(&bytes)?;
    Ok(bytes)
}

/// What a prototype says.
pub fn prototype(text: &[u8], model: Model) -> Result<Prototype, Unread> {
    if text.len() > LONGEST_TEXT {
        return Err(Unread::TooLong);
    }
    in_grammar(text, Start::Prototype).map_err(Unread::NotInGrammar)?;
    let tokens = tokens_of(text);
    Ok(Reading { tokens: &tokens, at: 0, model }.prototype())
}

/// The description of a prototype: 25, 26, 4, then document 01's own.
pub fn read(text: &[u8], model: Model) -> Result<Vec<u8>, Unread> {
    let said = prototype(text, model)?;
    description_of(&said, model).map_err(Unread::Refused)
}

// ---- the text of a description's named part

/// One way to write each code; "the writer writes code 4 as long long".
const WORDS: [&str; 17] = [
    "_Bool ",
    "char ",
    "short ",
    "int ",
    "long long ",
    "__int128 ",
    "float ",
    "double ",
    "long double ",
    "__float128 ",
    "__m64 ",
    "__m128 ",
    "float _Complex ",
    "double _Complex ",
    "long double _Complex ",
    "void * ",
    "__m256 ",
];

/// A type before the name, and its sizes behind it, as long as the text may be.
fn type_text(d: Description, number: u8) -> Option<(String, String)> {
    let record = d.record(number);
    let text = match record.kind {
        BASIC => (WORDS[record.a as usize].to_string(), String::new()),
        ARRAY => {
            let (words, inner) = type_text(d, record.a)?;
            (words, format!("[ {} ] {inner}", record.count))
        }
        kind => {
            let mut text = if kind == STRUCT { "struct { " } else { "union { " }.to_string();
            for (place, &member) in d.run(record).iter().enumerate() {
                let (words, sizes) = type_text(d, member)?;
                text += &format!("{words}m{place} {sizes}; ");
                if text.len() > LONGEST_TEXT {
                    return None;
                }
            }
            (text + "} ", String::new())
        }
    };
    (text.0.len() + text.1.len() <= LONGEST_TEXT).then_some(text)
}

/// The declaration of an accepted description's named part; `None` where it has over
/// 4,096 bytes (25).
pub fn declaration(d: Description) -> Option<String> {
    let returned = match d.return_number() {
        VOID => "void ".to_string(),
        number => type_text(d, number)?.0,
    };
    let mut parts = Vec::new();
    for position in 0..d.named() {
        parts.push(type_text(d, d.argument(position))?.0);
    }
    match (parts.is_empty(), d.is_variadic()) {
        (true, false) => parts.push("void ".to_string()),
        (_, true) => parts.push("... ".to_string()),
        (false, false) => {}
    }
    let text = format!("{returned}f ( {}) ; ", parts.join(", "));
    (text.len() <= LONGEST_TEXT).then_some(text)
}

/// The named part alone, tidy: what reading its declaration must give.
pub fn named_part(bytes: &[u8]) -> Result<Vec<u8>, Refusal> {
    let given = accepted(bytes)?;
    let d = given.types.description();
    let mut part = bytes[..bytes.len() - (d.arguments() - d.named())].to_vec();
    part[8] = part[7];
    tidy(&part)
}
