//! Random calls of the bindings' Builder. A draft of the independent layout takes the same calls: its bytes are the description, and
//! what its check says of them is the refusal, where no limit was passed on the way. Each build is a line in the notation of
//! builds.txt, for builder.c to repeat with the builder of the header.

use crate::comparison::Comparison;
use callbridge::{Basic, Builder, VOID};
use independent::description::{ARRAY, BASIC, MOST_ARGUMENTS, MOST_TYPES, STRUCT, UNION};
use independent::draft::Draft;
use independent::places::check;
use independent::random::Random;
use independent::refusal::Told;

const MOST_MEMBERS: usize = 255;
const MOST_ELEMENTS: usize = 4096;

const BASICS: [Basic; 17] = [
    Basic::Bool,
    Basic::Char,
    Basic::Short,
    Basic::Int,
    Basic::Long,
    Basic::Int128,
    Basic::Float,
    Basic::Double,
    Basic::LongDouble,
    Basic::Float128,
    Basic::M64,
    Basic::M128,
    Basic::ComplexFloat,
    Basic::ComplexDouble,
    Basic::ComplexLongDouble,
    Basic::Pointer,
    Basic::M256,
];

/// A type as it was asked for.
#[derive(Clone, PartialEq, Eq)]
enum Shape {
    Basic(u8),
    Array(u8, usize),
    Aggregate(u8, Vec<u8>),
}

/// The same calls, for the builder and for the draft.
struct Build {
    builder: Builder,
    draft: Draft,
    shapes: Vec<Shape>,
    mistake: Option<Told>,
    calls: Vec<String>,
    answers: Vec<u8>,
    expected: Vec<u8>,
}

impl Build {
    fn new() -> Build {
        Build {
            builder: Builder::new(),
            draft: Draft::new(),
            shapes: Vec::new(),
            mistake: None,
            calls: Vec::new(),
            answers: Vec::new(),
            expected: Vec::new(),
        }
    }

    fn mistaken(&mut self, number: u8, type_number: u8) -> u8 {
        self.mistake.get_or_insert(Told { number, type_number });
        VOID
    }

    fn is_there(&self, number: u8) -> bool {
        (number as usize) < self.shapes.len()
    }

    fn is_right(&self, shape: &Shape) -> bool {
        match shape {
            Shape::Basic(code) => *code < 17,
            Shape::Array(element, count) => {
                self.is_there(*element) && (1..=MOST_ELEMENTS).contains(count)
            }
            Shape::Aggregate(_, members) => {
                !members.is_empty() && members.iter().all(|number| self.is_there(*number))
            }
        }
    }

    /// What a call for this type must answer. The draft has it then, where it is right.
    fn asked(&mut self, shape: Shape) -> u8 {
        let more = if let Shape::Aggregate(_, members) = &shape { members.len() } else { 0 };
        if more > MOST_MEMBERS {
            return self.mistaken(4, 0);
        }
        if !self.is_right(&shape) {
            return self.mistaken(6, self.shapes.len() as u8);
        }
        if let Some(number) = self.shapes.iter().position(|known| *known == shape) {
            return number as u8;
        }
        if self.shapes.len() == MOST_TYPES || self.draft.members.len() + more > MOST_MEMBERS {
            return self.mistaken(4, 0);
        }
        self.shapes.push(shape.clone());
        match shape {
            Shape::Basic(code) => self.draft.record(BASIC, code, 0),
            Shape::Array(element, count) => self.draft.record(ARRAY, element, count),
            Shape::Aggregate(UNION, members) => self.draft.union(&members),
            Shape::Aggregate(_, members) => self.draft.structure(&members),
        }
    }

    fn type_call(&mut self, shape: Shape) {
        let (call, answer) = match &shape {
            Shape::Basic(code) => (format!("b{code}"), self.builder.basic(BASICS[*code as usize])),
            Shape::Array(element, count) => {
                (format!("a{element}*{count}"), self.builder.array(*element, *count))
            }
            Shape::Aggregate(kind, members) => {
                let numbers: Vec<String> = members.iter().map(u8::to_string).collect();
                let letter = if *kind == UNION { 'u' } else { 's' };
                let answer = match *kind {
                    UNION => self.builder.union(members),
                    _ => self.builder.structure(members),
                };
                (format!("{letter}{}", numbers.join(",")), answer)
            }
        };
        self.calls.push(call);
        self.answers.push(answer);
        let expected = self.asked(shape);
        self.expected.push(expected);
    }

    fn returns(&mut self, number: u8) {
        self.calls.push(format!("r{number}"));
        self.builder.returns(number);
        if number == VOID || self.is_there(number) {
            self.draft.returned = number;
        } else {
            self.mistaken(8, 0);
        }
    }

    fn argument(&mut self, number: u8) {
        self.calls.push(format!("p{number}"));
        self.builder.argument(number);
        if !self.is_there(number) {
            self.mistaken(8, 0);
        } else if self.draft.arguments.len() == MOST_ARGUMENTS {
            self.mistaken(4, 0);
        } else {
            self.draft.argument(number);
        }
    }

    fn ellipsis(&mut self) {
        self.calls.push("e".to_string());
        self.builder.ellipsis();
        if self.draft.is_variadic() {
            self.mistaken(4, 0);
        } else {
            self.draft.ellipsis();
        }
    }

    /// Compares, and answers the line.
    fn finished(self, comparison: &mut Comparison) -> String {
        let bytes = self.draft.bytes();
        let told = self.mistake.unwrap_or_else(|| check(&bytes));
        comparison.same("the numbers of types", &bytes, &self.answers, &self.expected);
        let (found, result) = match self.builder.finish() {
            Ok(made) => {
                let hex = made.iter().map(|byte| format!("{byte:02x}")).collect();
                comparison.same("Builder::finish", &bytes, &made, &bytes);
                (Told::default(), hex)
            }
            Err(refusal) => {
                let number = refusal.type_number();
                let text = number.map_or(String::new(), |number| format!(" type {number}"));
                let found = Told { number: refusal.number(), type_number: number.unwrap_or(0) };
                (found, format!("refused {}{text}", refusal.number()))
            }
        };
        comparison.same("the refusal of Builder::finish", &bytes, found, told);
        let answers: Vec<String> = self.answers.iter().map(u8::to_string).collect();
        format!("{} = {} = {result}", self.calls.join(" "), answers.join(" "))
    }
}

/// A number that a type has, and at times one that none has.
fn number(random: &mut Random, build: &Build) -> u8 {
    if build.shapes.is_empty() || random.one_in(300) {
        return random.byte();
    }
    random.below(build.shapes.len()) as u8
}

/// A number to pass: an array only at times, and what C would not pass unnamed only at times.
fn passed(random: &mut Random, build: &Build) -> u8 {
    for _ in 0..100 {
        let found = number(random, build);
        let is_fit = match build.shapes.get(found as usize) {
            Some(Shape::Array(..)) => false,
            Some(Shape::Basic(0 | 1 | 2 | 6)) => !build.draft.is_variadic(),
            _ => true,
        };
        if is_fit || random.one_in(100) {
            return found;
        }
    }
    0
}

fn type_call(random: &mut Random, build: &mut Build) {
    let shape = match random.below(if build.shapes.is_empty() { 1 } else { 6 }) {
        0 | 1 => Shape::Basic(random.below(17) as u8),
        2 => {
            let count = if random.one_in(20) { random.below(5000) } else { random.between(1, 6) };
            Shape::Array(number(random, build), count)
        }
        which => {
            let most = if random.one_in(20) { 130 } else { 5 };
            let few = usize::from(!random.one_in(100));
            let count = random.between(few, most);
            let members = (0..count).map(|_| number(random, build)).collect();
            Shape::Aggregate(if which == 3 { UNION } else { STRUCT }, members)
        }
    };
    build.type_call(shape);
}

/// One random build: some types first, then types and arguments as they come.
pub fn compare(random: &mut Random, comparison: &mut Comparison) -> String {
    let mut build = Build::new();
    let first = if random.one_in(8) { random.between(0, 90) } else { random.between(1, 12) };
    let then = if random.one_in(8) { random.between(0, 90) } else { random.between(0, 12) };
    for _ in 0..first {
        type_call(random, &mut build);
    }
    for _ in 0..then {
        match random.below(12) {
            0 => type_call(random, &mut build),
            1 if random.one_in(2) => build.ellipsis(),
            2 => {
                let returned = passed(random, &build);
                build.returns(if random.one_in(4) { VOID } else { returned });
            }
            _ => {
                let next = passed(random, &build);
                build.argument(next);
            }
        }
    }
    build.finished(comparison)
}
