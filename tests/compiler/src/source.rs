//! Writes the C functions that are judged: one caller, one callee and, where no
//! argument is named, one walk for each description.

use crate::subject::{Kind, Subject};
use independent::description::{Model, ARRAY, BASIC, VOID};
use independent::types::{code, Types};
use std::fmt::Write;

const BASIC_NAMES: [&str; 17] = [
    "_Bool",
    "signed char",
    "short",
    "int",
    "long",
    "__int128",
    "float",
    "double",
    "long double",
    "__float128",
    "__m64",
    "__m128",
    "float _Complex",
    "double _Complex",
    "long double _Complex",
    "void *",
    "__m256",
];

/// How C writes a basic type. Under ILP32 "long is described by code 3 and long
/// long by code 4": int and long take turns there.
fn basic_name(index: usize, model: Model, basic: u8) -> &'static str {
    match (model, basic) {
        (Model::Ilp32, code::LONG) => "long long",
        (Model::Ilp32, code::INT) if index % 2 == 1 => "long",
        _ => BASIC_NAMES[basic as usize],
    }
}

/// The C file for a batch of subjects of one kind.
pub fn source(kind: Kind, subjects: &[Subject]) -> String {
    let mut text = String::from("#include \"harness.h\"\n");
    for (index, subject) in subjects.iter().enumerate() {
        let types = &subject.accepted.types;
        text.push_str(&type_definitions(index, types));
        text.push_str(&caller(index, types));
        text.push_str(&callee(index, subject));
        if subject.walks_by_hand() {
            text.push_str(&walk(index, subject));
        }
        text.push_str(&measures(index, types));
    }
    text.push_str(&table(subjects));
    writeln!(text, "const unsigned judged_wide = {};", u8::from(kind.wide)).expect("text");
    text
}

/// A program that prints sizeof, _Alignof and each member's offsetof of every type
/// of a batch, and does nothing that depends on the machine's calls.
pub fn sizes_source(subjects: &[Subject]) -> String {
    let mut text = String::from("#include \"sizes.h\"\n");
    let mut all = Vec::new();
    for (index, subject) in subjects.iter().enumerate() {
        let types = &subject.accepted.types;
        text.push_str(&type_definitions(index, types));
        all.push(measure_list(index, types));
    }
    // A description may have no types at all.
    all.retain(|list| !list.is_empty());
    write!(text, "static const unsigned numbers[] = {{ {} }};\n", all.join(",\n")).expect("text");
    text.push_str("int main(void)\n{ return print_numbers(numbers, sizeof numbers / 4); }\n");
    text
}

fn type_name(index: usize, type_number: u8) -> String {
    format!("f{index}_t{type_number}")
}

/// One typedef for each type of the description.
pub fn type_definitions(index: usize, types: &Types) -> String {
    let mut text = String::new();
    let model = types.description().model();
    for number in 0..types.description().types() as u8 {
        let name = type_name(index, number);
        let record = types.record(number);
        let line = match record.kind {
            BASIC => format!("typedef {} {name};", basic_name(index, model, record.a)),
            ARRAY => {
                format!("typedef {} {name}[{}];", type_name(index, record.a), record.count)
            }
            _ => aggregate(index, types, number),
        };
        writeln!(text, "{line}").expect("text");
    }
    text
}

fn aggregate(index: usize, types: &Types, number: u8) -> String {
    let record = types.record(number);
    let word = if record.kind == independent::description::STRUCT { "struct" } else { "union" };
    let members: String = types
        .description()
        .run(record)
        .iter()
        .enumerate()
        .map(|(place, &member)| format!("{} m{place}; ", type_name(index, member)))
        .collect();
    format!("typedef {word} {{ {members}}} {};", type_name(index, number))
}

fn return_type(index: usize, types: &Types) -> String {
    match types.description().return_number() {
        VOID => "void".to_string(),
        number => type_name(index, number),
    }
}

/// The parameter list, with names for a definition. C has no way to write
/// `(...)` alone: such a call is made without a prototype, which passes al too.
fn parameters(index: usize, types: &Types, with_names: bool) -> String {
    let description = types.description();
    let mut all: Vec<String> = (0..description.named())
        .map(|position| {
            let name = type_name(index, description.argument(position));
            if with_names {
                format!("{name} a{position}")
            } else {
                name
            }
        })
        .collect();
    if description.is_variadic() && description.named() > 0 {
        all.push("...".to_string());
    }
    if description.is_variadic() && description.named() == 0 {
        return String::new();
    }
    if all.is_empty() {
        return "void".to_string();
    }
    all.join(", ")
}

/// The declaration, for reports.
pub fn declaration(types: &Types) -> String {
    let returned = return_type(0, types);
    format!("{}{returned} f({});\n", type_definitions(0, types), parameters(0, types, false))
}

/// Where each argument lies in the spaced values: each at a multiple of 32, so
/// that every type may be read in place.
pub fn spaced_offsets(sizes: &[usize]) -> (Vec<usize>, usize) {
    let mut offsets = Vec::new();
    let mut end = 0;
    for size in sizes {
        offsets.push(end);
        end += size.div_ceil(32) * 32;
    }
    (offsets, end)
}

fn argument_offsets(types: &Types) -> Vec<(String, usize)> {
    let description = types.description();
    let numbers: Vec<u8> =
        (0..description.arguments()).map(|position| description.argument(position)).collect();
    let sizes: Vec<usize> = numbers.iter().map(|&number| types.size(number).0).collect();
    let (offsets, _) = spaced_offsets(&sizes);
    numbers.iter().map(|number| format!("t{number}")).zip(offsets).collect()
}

fn caller(index: usize, types: &Types) -> String {
    let returned = return_type(index, types);
    let keep = if returned == "void" { String::new() } else { format!("*({returned} *)sink = ") };
    let values: Vec<String> = argument_offsets(types)
        .iter()
        .map(|(name, offset)| format!("*(f{index}_{name} *)(v + {offset})"))
        .collect();
    let parameters = parameters(index, types, false);
    let call = format!("(({returned} (*)({parameters}))probe_at)({})", values.join(", "));
    format!("static void f{index}_call(const unsigned char *v)\n{{ {keep}{call}; }}\n")
}

/// Reads all named parameters, then the others by va_arg, then returns.
fn callee(index: usize, subject: &Subject) -> String {
    let types = &subject.accepted.types;
    let description = types.description();
    let returned = return_type(index, types);
    let mut body = String::new();
    for (position, (name, offset)) in argument_offsets(types).iter().enumerate() {
        if position < description.named() {
            write!(body, " *(f{index}_{name} *)(sink + {offset}) = a{position};").expect("text");
        }
    }
    if description.is_variadic() && description.named() > 0 {
        let last = description.named() - 1;
        write!(body, " va_list l; va_start(l, a{last});").expect("text");
        body.push_str(&fetches(index, types, "l"));
        body.push_str(" va_end(l);");
    }
    if returned != "void" {
        write!(body, " return *({returned} *)source;").expect("text");
    }
    let parameters = match parameters(index, types, true) {
        none if none.is_empty() => "void".to_string(),
        some => some,
    };
    format!("static {returned} f{index}_callee({parameters})\n{{{body} }}\n")
}

/// va_arg for each unnamed argument, with a note of the offsets before the
/// first and after each.
fn fetches(index: usize, types: &Types, list: &str) -> String {
    let named = types.description().named();
    let mut text = format!(" note({list});");
    for (name, offset) in argument_offsets(types).iter().skip(named) {
        let full = format!("f{index}_{name}");
        write!(text, " *({full} *)(sink + {offset}) = va_arg({list}, {full}); note({list});")
            .expect("text");
    }
    text
}

/// va_arg over a list that the harness makes from the images.
fn walk(index: usize, subject: &Subject) -> String {
    let body = fetches(index, &subject.accepted.types, "*l");
    format!("static void f{index}_walk(va_list *l)\n{{{body} }}\n")
}

fn measures(index: usize, types: &Types) -> String {
    let list = measure_list(index, types);
    format!("static const unsigned f{index}_measures[] = {{ {list} }};\n")
}

fn measure_list(index: usize, types: &Types) -> String {
    let each: Vec<String> = (0..types.description().types() as u8)
        .map(|number| {
            let name = type_name(index, number);
            let members = 0..types.member_offsets(number).len();
            let offsets: String =
                members.map(|place| format!(", offsetof({name}, m{place})")).collect();
            format!("sizeof({name}), _Alignof({name}){offsets}")
        })
        .collect();
    each.join(", ")
}

fn table(subjects: &[Subject]) -> String {
    let mut text = String::from("const struct judged judged[] = {\n");
    for (index, subject) in subjects.iter().enumerate() {
        let walk = match subject.walks_by_hand() {
            true => format!("f{index}_walk"),
            false => "0".to_string(),
        };
        let numbers: usize = subject.measures().iter().map(Vec::len).sum();
        writeln!(
            text,
            "{{ f{index}_call, (void (*)())f{index}_callee, {walk}, f{index}_measures, {numbers} }},"
        )
        .expect("text");
    }
    write!(text, "}};\nconst unsigned judged_count = {};\n", subjects.len()).expect("text");
    text.push_str("const unsigned judged_pointer = sizeof(void *);\n");
    text
}
