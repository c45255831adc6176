//! gcc -m32 judges the independent layout of the 386 kind (02, request 2026-12): sizes and offsets when it compiles, then the stack that a
//! caller leaves, and what a called function finds there, pops and returns. It needs no C library for 32 bits.
//!
//!     compiler386 DIRECTORY GCC FUNCTIONS SEED [RUNNER]

use independent::description::{BASIC, STRUCT, UNION, VOID};
use independent::draft::Draft;
use independent::old386::{judged, Old386, Result386};
use independent::random::Random;
use independent::types::code;
use std::fmt::Write;
use std::path::Path;
use std::process::{Command, ExitCode};

const CODES: [(u8, &str); 9] = [
    (code::BOOL, "_Bool"),
    (code::CHAR, "char"),
    (code::SHORT, "short"),
    (code::INT, "long"),
    (code::LONG, "long long"),
    (code::FLOAT, "float"),
    (code::DOUBLE, "double"),
    (code::LONG_DOUBLE, "long double"),
    (code::POINTER, "void *"),
];

const BATCH: usize = 200;

// ---- what is judged

/// A call with up to twelve arguments; types are made of lower ones, arrays among them.
fn drawn(random: &mut Random) -> Draft {
    let mut draft = Draft::new();
    let mut all: Vec<u8> = CODES.iter().map(|(basic, _)| draft.basic(*basic)).collect();
    let mut passed = all.clone();
    for _ in 0..random.below(7) {
        let run: Vec<u8> = (0..random.between(1, 4)).map(|_| random.choose(&all)).collect();
        let made = match random.below(4) {
            0 => draft.array(run[0], random.between(1, 5)),
            1 => draft.union(&run),
            _ => draft.structure(&run),
        };
        all.push(made);
        if draft.records[made as usize][0] != 1 {
            passed.push(made);
        }
    }
    for _ in 0..random.below(13) {
        let argument = random.choose(&passed);
        draft.argument(argument);
    }
    if random.one_in(3) {
        draft.ellipsis();
        draft.named = random.below(draft.arguments.len() + 1) as u8;
    }
    draft.returned = if random.one_in(4) { VOID } else { random.choose(&passed) };
    draft
}

/// The bytes that carry a value: no padding, and of a long double the first ten.
fn carrying(old: &Old386, type_number: u8) -> Vec<bool> {
    let mut carries = vec![false; old.measure(type_number).size.0];
    let record = old.description().record(type_number);
    match record.kind {
        BASIC => {
            let used = if record.a == code::LONG_DOUBLE { 10 } else { carries.len() };
            carries[..used].fill(true);
        }
        STRUCT | UNION => {
            let run = old.description().run(record);
            for (&member, offset) in run.iter().zip(old.member_offsets(type_number)) {
                mark(&mut carries, offset.0, &carrying(old, member));
            }
        }
        _ => {
            let element = carrying(old, record.a);
            for index in 0..record.count {
                mark(&mut carries, index * element.len(), &element);
            }
        }
    }
    carries
}

fn mark(carries: &mut [bool], offset: usize, part: &[bool]) {
    for (index, &used) in part.iter().enumerate() {
        carries[offset + index] |= used;
    }
}

fn is_basic(old: &Old386, type_number: u8, basic: u8) -> bool {
    let record = old.description().record(type_number);
    record.kind == BASIC && record.a == basic
}

/// Bytes of a value: none makes a float or a double that is no number.
fn value(random: &mut Random, old: &Old386, type_number: u8) -> Vec<u8> {
    let size = old.measure(type_number).size.0;
    if is_basic(old, type_number, code::BOOL) {
        return vec![random.below(2) as u8];
    }
    (0..size).map(|_| random.between(1, 111) as u8).collect()
}

// ---- the C text

struct Text<'a> {
    out: String,
    old: &'a Old386<'a>,
    number: usize,
}

fn listed(bytes: &[u8]) -> String {
    let numbers: Vec<String> = bytes.iter().map(u8::to_string).collect();
    format!("{{{}0}}", numbers.iter().map(|number| format!("{number},")).collect::<String>())
}

fn marks(carries: &[bool]) -> String {
    carries.iter().map(|&used| if used { '1' } else { '0' }).collect()
}

impl Text<'_> {
    fn line(&mut self, line: &str) {
        self.out.push_str(line);
        self.out.push('\n');
    }

    fn name(&self, type_number: u8) -> String {
        format!("t{}_{}", self.number, type_number)
    }

    fn result_name(&self) -> String {
        match self.old.description().return_number() {
            VOID => "void".to_string(),
            returned => self.name(returned),
        }
    }

    /// Each type, and what gcc must say of it.
    fn types(&mut self) {
        for type_number in 0..self.old.description().types() as u8 {
            let record = self.old.description().record(type_number);
            let name = self.name(type_number);
            let declared = match record.kind {
                BASIC => {
                    let (_, word) = CODES.iter().find(|(basic, _)| *basic == record.a).unwrap();
                    format!("typedef {word} {name};")
                }
                STRUCT | UNION => self.aggregate(type_number),
                _ => format!("typedef {} {name}[{}];", self.name(record.a), record.count),
            };
            self.line(&declared);
            let measure = self.old.measure(type_number);
            self.line(&format!("_Static_assert(sizeof({name}) == {}, \"\");", measure.size.0));
            let within = format!("struct {{ char first; {name} x; }}");
            let alignment = measure.alignment.0;
            self.line(&format!(
                "_Static_assert(__builtin_offsetof({within}, x) == {alignment}, \"\");"
            ));
            for (index, offset) in self.old.member_offsets(type_number).iter().enumerate() {
                let found = format!("__builtin_offsetof({name}, m{index})");
                self.line(&format!("_Static_assert({found} == {}, \"\");", offset.0));
            }
        }
    }

    fn aggregate(&self, type_number: u8) -> String {
        let record = self.old.description().record(type_number);
        let word = if record.kind == STRUCT { "struct" } else { "union" };
        let mut members = String::new();
        for (index, &member) in self.old.description().run(record).iter().enumerate() {
            let _ = write!(members, "{} m{index}; ", self.name(member));
        }
        format!("typedef {word} {{ {members}}} {};", self.name(type_number))
    }

    fn argument_name(&self, position: usize) -> String {
        self.name(self.old.description().argument(position))
    }

    /// The parameters in a declaration, named or not.
    fn parameters(&self, named: bool) -> String {
        let description = self.old.description();
        let mut words: Vec<String> = (0..description.named())
            .map(|at| {
                let name = if named { format!(" a{at}") } else { String::new() };
                format!("{}{name}", self.argument_name(at))
            })
            .collect();
        if description.is_variadic() {
            words.push("...".to_string());
        }
        if words.is_empty() {
            "void".to_string()
        } else {
            words.join(", ")
        }
    }

    /// A function that keeps its arguments and returns what stands in `back`.
    fn callee(&mut self, back: &[u8]) {
        let (number, description) = (self.number, self.old.description());
        self.line(&format!("static const unsigned char back{number}[] = {};", listed(back)));
        let head = format!("{} callee{number}({})", self.result_name(), self.parameters(true));
        self.line(&format!("{head} {{"));
        self.line("    unsigned at = 0;");
        for position in 0..description.named() {
            let name = format!("a{position}");
            self.line(&format!(
                "    memcpy(taken + at, &{name}, sizeof {name}); at += sizeof {name};"
            ));
        }
        if description.named() < description.arguments() {
            let last = description.named().saturating_sub(1);
            self.line(&format!("    walk_list list; __builtin_va_start(list, a{last});"));
            for position in description.named()..description.arguments() {
                let name = self.argument_name(position);
                self.line(&format!("    {{ {name} x = __builtin_va_arg(list, {name}); memcpy(taken + at, &x, sizeof x); at += sizeof x; }}"));
            }
            self.line("    __builtin_va_end(list);");
        }
        self.line("    (void)at;");
        if description.return_number() != VOID {
            let name = self.result_name();
            self.line(&format!("    {name} r; memcpy(&r, back{number}, sizeof r); return r;"));
        }
        self.line("}");
    }

    /// The call, and what the probe must have seen of it.
    fn caller(&mut self, values: &[Vec<u8>]) {
        let (number, description) = (self.number, self.old.description());
        let mut call = Vec::new();
        for (position, value) in values.iter().enumerate() {
            let (name, carries) = (self.argument_name(position), self.carries_of(position));
            self.line(&format!(
                "    static const unsigned char v{position}[] = {};",
                listed(value)
            ));
            self.line(&format!("    static const char c{position}[] = \"{carries}\";"));
            self.line(&format!(
                "    {name} x{position}; memcpy(&x{position}, v{position}, sizeof x{position});"
            ));
            call.push(format!("x{position}"));
        }
        self.line(&format!("    seen_length = {};", self.old.area.0));
        let probe = if self.old.result == Result386::Memory { "probe_pop" } else { "probe" };
        let cast = format!("{} (*)({})", self.result_name(), self.parameters(false));
        self.line(&format!("    (({cast})(void *){probe})({});", call.join(", ")));
        for position in 0..description.arguments() {
            let at = self.old.offsets[position].0;
            self.line(&format!("    compare({number}, seen + {at}, v{position}, c{position});"));
        }
    }

    fn carries_of(&self, position: usize) -> String {
        marks(&carrying(self.old, self.old.description().argument(position)))
    }

    /// The judged function, called with an image of its stack.
    fn called(&mut self) {
        let (number, description) = (self.number, self.old.description());
        self.line("    memset(image, 238, sizeof image);");
        self.line("    memset(taken, 0, sizeof taken);");
        if self.old.popped().0 == 4 {
            self.line("    *(void **)image = room;");
        }
        for position in 0..description.arguments() {
            let at = self.old.offsets[position].0;
            self.line(&format!("    memcpy(image + {at}, v{position}, sizeof(v{position}) - 1);"));
        }
        let floating = (self.old.result == Result386::St0) as u8;
        self.line(&format!("    invoke((void *)callee{number}, {}, {floating});", self.old.area.0));
        let mut at = 0;
        for position in 0..description.arguments() {
            self.line(&format!("    compare({number}, taken + {at}, v{position}, c{position});"));
            at += self.old.measure(description.argument(position)).size.0;
        }
        self.line(&format!("    same({number}, seen_popped, {});", self.old.popped().0));
        self.result();
    }

    /// Where the result must be found.
    fn result(&mut self) {
        let number = self.number;
        let returned = self.old.description().return_number();
        if returned == VOID {
            return;
        }
        let carries = marks(&carrying(self.old, returned));
        let name = self.result_name();
        let line = match self.old.result {
            Result386::Void => return,
            Result386::Memory => format!("same({number}, seen_eax, (unsigned)room); compare({number}, room, back{number}, \"{carries}\");"),
            Result386::Eax => format!("same({number}, sizeof({name}) <= 4, 1); compare({number}, (unsigned char *)&seen_eax, back{number}, \"{carries}\");"),
            Result386::EdxAndEax => format!("unsigned pair[2] = {{seen_eax, seen_edx}}; compare({number}, (unsigned char *)pair, back{number}, \"{carries}\");"),
            Result386::St0 => format!("{name} r = ({name})*(long double *)seen_st0; compare({number}, (unsigned char *)&r, back{number}, \"{carries}\");"),
        };
        self.line(&format!("    {line}"));
    }
}

/// Whether gcc 12 can say it: a variadic function needs a named argument.
fn can_be_said(old: &Old386) -> bool {
    !old.description().is_variadic() || old.description().named() > 0
}

fn text(old: &Old386, number: usize, random: &mut Random) -> String {
    let mut text = Text { out: String::new(), old, number };
    let description = old.description();
    let values: Vec<Vec<u8>> = (0..description.arguments())
        .map(|position| value(random, old, description.argument(position)))
        .collect();
    let back = match description.return_number() {
        VOID => Vec::new(),
        returned => value(random, old, returned),
    };
    text.types();
    text.callee(&back);
    text.line(&format!("static void judge{number}(void) {{"));
    text.caller(&values);
    text.called();
    text.line("}");
    text.out
}

// ---- gcc

/// Judges the functions of one file; answers how many bytes were compared.
fn judged_by_gcc(
    place: &Path,
    gcc: &str,
    runner: Option<&str>,
    body: &str,
    functions: usize,
) -> Option<usize> {
    let mut source = String::from("#include \"old386.h\"\n");
    source.push_str(body);
    source.push_str("void _start(void) {\n");
    for number in 0..functions {
        let _ = writeln!(source, "    judge{number}();");
    }
    source.push_str("    say_number(comparisons); leave(0);\n}\n");
    let (file, program) = (place.join("old386.c"), place.join("old386"));
    std::fs::write(&file, source).ok()?;
    let harness = concat!(env!("CARGO_MANIFEST_DIR"), "/harness");
    let compiled = Command::new(gcc)
        .args(["-m32", "-O0", "-w", "-std=gnu11", "-ffreestanding", "-fno-pie", "-no-pie"])
        .args(["-fno-stack-protector", "-mno-sse", "-nostdlib", "-static", "-I", harness, "-o"])
        .arg(&program)
        .arg(&file)
        .status();
    if !compiled.ok()?.success() {
        println!(
            "gcc -m32 says otherwise of a size, an alignment or an offset: {}",
            file.display()
        );
        return None;
    }
    let mut command = match runner {
        Some(runner) => {
            let mut command = Command::new(runner);
            command.arg(&program);
            command
        }
        None => Command::new(&program),
    };
    let output = command.output().ok()?;
    let said = String::from_utf8_lossy(&output.stdout).trim().to_string();
    if !output.status.success() {
        println!("function {said} of {} is otherwise with gcc -m32", file.display());
        return None;
    }
    said.parse().ok()
}

fn main() -> ExitCode {
    let words: Vec<String> = std::env::args().skip(1).collect();
    let [directory, gcc, functions, seed, runner @ ..] = &words[..] else {
        eprintln!("compiler386 DIRECTORY GCC FUNCTIONS SEED [RUNNER]");
        return ExitCode::from(2);
    };
    let (Ok(functions), Ok(seed)) = (functions.parse::<usize>(), seed.parse::<u64>()) else {
        return ExitCode::from(2);
    };
    let place = Path::new(directory);
    std::fs::create_dir_all(place).expect("a directory for the C files");
    let mut random = Random::new(seed);
    let (mut done, mut compared) = (0, 0);
    while done < functions {
        let mut body = String::new();
        let mut count = 0;
        while count < BATCH.min(functions - done) {
            let bytes = drawn(&mut random).bytes();
            if let Some(old) = judged(&bytes).ok().filter(can_be_said) {
                body.push_str(&text(&old, count, &mut random));
                count += 1;
            }
        }
        match judged_by_gcc(place, gcc, runner.first().map(String::as_str), &body, count) {
            Some(found) => compared += found,
            None => return ExitCode::FAILURE,
        }
        done += count;
    }
    println!("gcc -m32: {done} functions, {compared} comparisons, none different");
    ExitCode::SUCCESS
}
