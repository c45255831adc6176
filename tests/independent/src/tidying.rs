//! Document 02, request 2026-03, "Tidy type tables".

use crate::description::{Description, ARRAY, BASIC, HEAD, STRUCT, UNION, VOID};
use crate::places::accepted;
use crate::refusal::Refusal;

/// "29 where the separate runs need over 255 members"
pub const MOST_MEMBERS: usize = 255;

/// A type of the tidy form; its parts are tidy numbers, so that two types are equal
/// exactly where these are.
#[derive(Clone, Debug, PartialEq, Eq)]
enum Completed {
    Basic(u8),
    Array { element: u8, count: usize },
    Struct(Vec<u8>),
    Union(Vec<u8>),
}

impl Completed {
    fn run(&self) -> &[u8] {
        match self {
            Completed::Struct(run) | Completed::Union(run) => run,
            Completed::Basic(_) | Completed::Array { .. } => &[],
        }
    }

    /// "A type record is kind, a, count (16 bits, little-endian)", for a run that
    /// starts there.
    fn record(&self, start: usize) -> [u8; 4] {
        let (kind, a, count) = match self {
            Completed::Basic(code) => (BASIC, *code, 0),
            Completed::Array { element, count } => (ARRAY, *element, *count),
            Completed::Struct(run) => (STRUCT, start as u8, run.len()),
            Completed::Union(run) => (UNION, start as u8, run.len()),
        };
        [kind, a, (count % 256) as u8, (count / 256) as u8]
    }
}

/// The types that are completed, in the order of their numbers, and the tidy number of
/// each type of the description that was reached.
struct Table<'a> {
    description: Description<'a>,
    types: Vec<Completed>,
    numbers: Vec<Option<u8>>,
}

impl<'a> Table<'a> {
    /// "only types reached from return and arguments .. going depth-first through
    /// return, then arguments"
    fn new(description: Description<'a>) -> Table<'a> {
        let numbers = vec![None; description.types()];
        let mut table = Table { description, types: Vec::new(), numbers };
        if description.return_number() != VOID {
            table.complete(description.return_number());
        }
        for position in 0..description.arguments() {
            table.complete(description.argument(position));
        }
        table
    }

    /// "equal ones once, numbered as each is first completed": its parts come first.
    fn complete(&mut self, type_number: u8) -> u8 {
        if let Some(number) = self.numbers[type_number as usize] {
            return number;
        }
        let record = self.description.record(type_number);
        let completed = match record.kind {
            BASIC => Completed::Basic(record.a),
            ARRAY => Completed::Array { element: self.complete(record.a), count: record.count },
            STRUCT => Completed::Struct(self.complete_all(self.description.run(record))),
            _ => Completed::Union(self.complete_all(self.description.run(record))),
        };
        let found = self.types.iter().position(|known| *known == completed);
        let number = found.unwrap_or(self.types.len()) as u8;
        if found.is_none() {
            self.types.push(completed);
        }
        self.numbers[type_number as usize] = Some(number);
        number
    }

    fn complete_all(&mut self, run: &[u8]) -> Vec<u8> {
        run.iter().map(|&member| self.complete(member)).collect()
    }

    fn number(&self, type_number: u8) -> u8 {
        self.numbers[type_number as usize].expect("reached")
    }

    /// The members of all types, each with a run of its own.
    fn members(&self) -> usize {
        self.types.iter().map(|completed| completed.run().len()).sum()
    }

    /// "member runs in that order, without overlap or gaps"
    fn bytes(&self) -> Vec<u8> {
        let given = self.description;
        let mut bytes = given.bytes()[..HEAD].to_vec();
        bytes[5] = self.types.len() as u8;
        if given.return_number() != VOID {
            bytes[9] = self.number(given.return_number());
        }
        bytes[10] = self.members() as u8;
        let mut start = 0;
        for completed in &self.types {
            bytes.extend(completed.record(start));
            start += completed.run().len();
        }
        for completed in &self.types {
            bytes.extend(completed.run());
        }
        let arguments = 0..given.arguments();
        bytes.extend(arguments.map(|position| self.number(given.argument(position))));
        bytes
    }
}

/// The tidy form: "after 10, 29".
pub fn tidy(bytes: &[u8]) -> Result<Vec<u8>, Refusal> {
    let accepted = accepted(bytes)?;
    let table = Table::new(accepted.types.description());
    if table.members() > MOST_MEMBERS {
        return Err(Refusal::TooManyMembers);
    }
    Ok(table.bytes())
}

/// "then 11 where the lent out buffer is not of the tidy length"
pub fn tidying(bytes: &[u8], out: &mut [u8]) -> Result<(), Refusal> {
    let tidy = tidy(bytes)?;
    if out.len() != tidy.len() {
        return Err(Refusal::WrongLength);
    }
    out.copy_from_slice(&tidy);
    Ok(())
}

/// Which types of one description are written out as which of the other, from number 0
/// upward: the definition of the request's "same written-out types", without numbers.
fn same_types(one: Description, other: Description) -> Vec<Vec<bool>> {
    let mut same = vec![vec![false; other.types()]; one.types()];
    for j in 0..one.types() {
        for k in 0..other.types() {
            let (a, b) = (one.record(j as u8), other.record(k as u8));
            same[j][k] = a.kind == b.kind
                && match a.kind {
                    BASIC => a.a == b.a,
                    ARRAY => a.count == b.count && same[a.a as usize][b.a as usize],
                    _ => {
                        let (these, those) = (one.run(a), other.run(b));
                        let mut pairs = these.iter().zip(those);
                        a.count == b.count
                            && pairs.all(|(&this, &that)| same[this as usize][that as usize])
                    }
                };
        }
    }
    same
}

/// "equal flags, N, A and the same written-out types", of two accepted descriptions.
pub fn is_same_call(one: Description, other: Description) -> bool {
    let same = same_types(one, other);
    let same_type = |this: u8, that: u8| same[this as usize][that as usize];
    let same_return = match (one.return_number(), other.return_number()) {
        (VOID, that) => that == VOID,
        (_, VOID) => false,
        (this, that) => same_type(this, that),
    };
    one.flags() == other.flags()
        && one.named() == other.named()
        && one.arguments() == other.arguments()
        && same_return
        && (0..one.arguments())
            .all(|position| same_type(one.argument(position), other.argument(position)))
}
