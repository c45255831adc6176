//! Builds and runs the C program for a batch: jobs in, answers out.

use crate::source::{sizes_source, source};
use crate::subject::{Kind, Subject};
use independent::description::Model;
use independent::moving::{REGISTER_IMAGE, UPPER_IMAGE};
use std::path::{Path, PathBuf};
use std::process::{Command, Output};

const HARNESS: [(&str, &str); 5] = [
    ("types.h", include_str!("../harness/types.h")),
    ("sizes.h", include_str!("../harness/sizes.h")),
    ("harness.h", include_str!("../harness/harness.h")),
    ("harness.c", include_str!("../harness/harness.c")),
    ("probe.s", include_str!("../harness/probe.s")),
];

/// How gcc is called, and how its programs are run.
#[derive(Clone, Debug)]
pub struct Tools {
    pub gcc: String,
    /// A program that runs x86-64 programs, where the machine itself does not.
    pub runner: Option<String>,
    pub optimisation: String,
    /// Sizes and alignments only: for a gcc that makes code for another machine.
    pub sizes_only: bool,
}

impl Tools {
    /// The machine that this gcc makes code for.
    pub fn target(&self) -> Result<String, String> {
        let output = Command::new(&self.gcc)
            .arg("-dumpmachine")
            .output()
            .map_err(|error| format!("{}: {error}", self.gcc))?;
        Ok(String::from_utf8_lossy(&output.stdout).trim().to_string())
    }
}

/// Where the harness's own files and each batch are built.
pub struct Workshop {
    directory: PathBuf,
    tools: Tools,
}

/// What gcc's functions did for one subject.
#[derive(Clone, Debug, Default)]
pub struct Answer {
    /// The caller's side, as the probe found it, and at which address the stack
    /// began.
    pub registers: Vec<u8>,
    pub upper: Vec<u8>,
    pub rax: u64,
    pub start: u64,
    pub stack: Vec<u8>,
    /// The value that the caller took from the return places.
    pub taken: Vec<u8>,
    /// The callee's side: what it read, each argument at a multiple of 32.
    pub read: Vec<u8>,
    /// gp_offset, fp_offset and overflow offset at va_start and after each
    /// va_arg.
    pub notes: Vec<[u32; 3]>,
    /// rax, rdx, xmm0, xmm1, the x87 state and the upper half of ymm0 after the callee
    /// returned.
    pub after: Vec<u8>,
    pub hidden_room: Vec<u8>,
    /// sizeof and _Alignof of each type, and offsetof of its members.
    pub measures: Vec<Vec<u32>>,
}

impl Workshop {
    pub fn new(directory: &Path, tools: &Tools) -> Result<Workshop, String> {
        let text = |error| format!("{}: {error}", directory.display());
        std::fs::create_dir_all(directory).map_err(text)?;
        for (name, content) in HARNESS {
            std::fs::write(directory.join(name), content).map_err(text)?;
        }
        let workshop = Workshop { directory: directory.to_path_buf(), tools: tools.clone() };
        if !tools.sizes_only {
            workshop.gcc(&["-c", "harness.c", "-o", "harness.o"])?;
            workshop.gcc(&["-c", "probe.s", "-o", "probe.o"])?;
        }
        Ok(workshop)
    }

    fn gcc(&self, words: &[&str]) -> Result<(), String> {
        let status = Command::new(&self.tools.gcc)
            .current_dir(&self.directory)
            // No notes on what gcc 4.4 changed: later gccs are the judge.
            .args([self.tools.optimisation.as_str(), "-w", "-Wno-psabi", "-g0"])
            .arg("-fno-strict-aliasing")
            .args(["-no-pie", "-fno-pie", "-fno-stack-protector"])
            .arg("-fno-asynchronous-unwind-tables")
            // A runner has no libraries of the other machine at hand.
            .args(self.tools.runner.as_ref().map(|_| "-static"))
            .args(words)
            .status()
            .map_err(|error| format!("{}: {error}", self.tools.gcc))?;
        if status.success() {
            Ok(())
        } else {
            Err(format!("gcc failed on {words:?} in {}", self.directory.display()))
        }
    }

    /// Runs a program of the workshop, by the runner where there is one.
    fn execute(&self, program: &str, words: &[&str]) -> Result<Output, String> {
        let mut command = match &self.tools.runner {
            Some(runner) => Command::new(runner),
            None => Command::new(program),
        };
        if self.tools.runner.is_some() {
            command.arg(program);
        }
        command.current_dir(&self.directory).args(words);
        command.output().map_err(|error| format!("{program}: {error}"))
    }

    /// What of a batch is linked. gcc compiles ILP32 to assembly, and that is
    /// assembled as 64-bit code, beside the 64-bit harness: so neither a C library
    /// nor a kernel for ILP32 is needed.
    fn compiled(&self, kind: Kind) -> Result<&'static str, String> {
        match kind.model {
            Model::Lp64 => Ok("batch.c"),
            Model::Ilp32 => {
                let narrow = ["-mx32", "-fcf-protection=none", "-S", "batch.c", "-o", "batch.s"];
                self.gcc(&[&narrow, vector_options(kind)].concat())?;
                Ok("batch.s")
            }
        }
    }

    /// Compiles and runs a batch of one kind. A program that ends too early
    /// answers for the subjects before the one that it fell over.
    pub fn run(&self, kind: Kind, subjects: &[Subject]) -> Result<Vec<Answer>, String> {
        let path = |name: &str| self.directory.join(name);
        let text = |error: std::io::Error| error.to_string();
        std::fs::write(path("batch.c"), source(kind, subjects)).map_err(text)?;
        std::fs::write(path("jobs.bin"), jobs(subjects)).map_err(text)?;
        let linked = [self.compiled(kind)?, "harness.o", "probe.o", "-o", "batch"];
        self.gcc(&[&linked, vector_options(kind)].concat())?;
        let output = self.execute("./batch", &["jobs.bin", "answers.bin"])?;
        let answers = std::fs::read(path("answers.bin")).map_err(text)?;
        if !output.status.success() {
            println!("the program of this batch ended with {}", output.status);
        }
        Ok(answers_of(subjects, &answers))
    }

    /// Whether gcc accepts the C text of the whole judgement, on any machine.
    pub fn check_syntax(&self, kind: Kind, subjects: &[Subject]) -> Result<(), String> {
        let path = self.directory.join("batch.c");
        std::fs::write(path, source(kind, subjects)).map_err(|error| error.to_string())?;
        self.gcc(&["-fsyntax-only", "batch.c"])
    }

    /// sizeof and _Alignof of each type of a batch, and offsetof of its members,
    /// subject after subject.
    pub fn run_sizes(&self, subjects: &[Subject]) -> Result<Vec<Answer>, String> {
        let path = self.directory.join("sizes.c");
        std::fs::write(path, sizes_source(subjects)).map_err(|error| error.to_string())?;
        self.gcc(&["sizes.c", "-o", "sizes"])?;
        let output = self.execute("./sizes", &[])?;
        let text = String::from_utf8_lossy(&output.stdout);
        let mut numbers = text.lines().filter_map(|line| line.parse::<u32>().ok());
        let mut answers = Vec::new();
        for subject in subjects {
            let mut answer = Answer::default();
            for layout in subject.measures() {
                let measures: Vec<u32> = numbers.by_ref().take(layout.len()).collect();
                if measures.len() < layout.len() {
                    return Err("the sizes end too early".to_string());
                }
                answer.measures.push(measures);
            }
            answers.push(answer);
        }
        Ok(answers)
    }
}

/// Vectors of 32 bytes are passed in registers only where the machine is said to have
/// them. `vzeroupper` is kept away: with it gcc's function loses bytes 16 to 31 of a
/// union that it returns, once it optimises.
fn vector_options(kind: Kind) -> &'static [&'static str] {
    match kind.wide {
        true => &["-mavx", "-mno-vzeroupper"],
        false => &[],
    }
}

fn jobs(subjects: &[Subject]) -> Vec<u8> {
    let mut bytes = Vec::new();
    for subject in subjects {
        let number = |number: usize| (number as u32).to_le_bytes();
        let spaced = subject.spaced(&subject.values);
        bytes.extend(number(spaced.len()));
        bytes.extend(spaced);
        bytes.extend(&subject.entered_registers);
        bytes.extend(&subject.entered_upper);
        bytes.extend(number(subject.accepted.layout.area_alignment.0));
        bytes.extend(number(subject.entered_stack.len()));
        bytes.extend(&subject.entered_stack);
        bytes.extend(number(subject.accepted.layout.vector_count().0));
        let start = subject.start();
        bytes.extend(number(start.gp_offset.0));
        bytes.extend(number(start.fp_offset.0));
        bytes.extend(number(start.overflow.0));
        bytes.extend(subject.return_kind().to_le_bytes());
        bytes.extend(number(subject.returned.len()));
        bytes.extend(&subject.returned);
        bytes.extend(subject.return_images());
    }
    bytes
}

/// Reads parts off the answers; nothing where they end too early.
struct Cursor<'a> {
    rest: &'a [u8],
}

impl Cursor<'_> {
    fn bytes(&mut self, length: usize) -> Option<Vec<u8>> {
        let (part, rest) = self.rest.split_at_checked(length)?;
        self.rest = rest;
        Some(part.to_vec())
    }

    fn number(&mut self) -> Option<u32> {
        Some(u32::from_le_bytes(self.bytes(4)?.try_into().ok()?))
    }

    fn answer(&mut self, subject: &Subject) -> Option<Answer> {
        let mut answer = Answer { registers: self.bytes(REGISTER_IMAGE)?, ..Answer::default() };
        answer.upper = self.bytes(UPPER_IMAGE)?;
        answer.rax = u64::from_le_bytes(self.bytes(8)?.try_into().ok()?);
        answer.start = u64::from_le_bytes(self.bytes(8)?.try_into().ok()?);
        answer.stack = self.bytes(subject.stack.len())?;
        answer.taken = self.bytes(subject.returned.len())?;
        answer.read = self.bytes(subject.spaced(&subject.values).len())?;
        for _ in 0..self.number()? {
            answer.notes.push([self.number()?, self.number()?, self.number()?]);
        }
        answer.after = self.bytes(48 + 108 + 16)?;
        answer.hidden_room = self.bytes(subject.returned.len())?;
        let layouts = subject.measures();
        if self.number()? as usize != layouts.iter().map(Vec::len).sum() {
            return None;
        }
        for layout in layouts {
            answer.measures.push(layout.iter().map(|_| self.number()).collect::<Option<_>>()?);
        }
        Some(answer)
    }
}

fn answers_of(subjects: &[Subject], bytes: &[u8]) -> Vec<Answer> {
    let mut cursor = Cursor { rest: bytes };
    subjects.iter().map_while(|subject| cursor.answer(subject)).collect()
}
