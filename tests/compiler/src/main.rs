//! gcc judges the independent layout; `compiler --help` lists the options.

mod judging;
#[cfg(test)]
mod judging_tests;
mod program;
mod significant;
mod small;
mod source;
mod subject;

use independent::cases::{bytes_of_hex, CASES, LISTER};
use independent::description::Model;
use independent::draft::in_both_models;
use independent::generator::{
    limits, random_description, LARGE, MIDDLE, NARROW, SMALL, THOUGHT, WIDE,
};
use independent::notation::description;
use independent::places::check;
use independent::random::Random;
use program::{Tools, Workshop};
use std::path::Path;
use std::process::ExitCode;
use std::time::{Duration, Instant};
use subject::{is_within_gcc, kind_of, Kind, Subject, KINDS};

const HELP: &str = "\
compiler DIRECTORY [options]   (C files and programs are made in DIRECTORY)
  --seed N        seed of the random functions and values (default 1)
  --functions N   random functions (default 1000)
  --seconds N     random functions for so long, whatever their number
  --stride N      of the aggregates of three members, judge each N-th (default 1)
  --no-small      no small aggregates, and none beside vectors of 32 bytes
  --no-wide       none that has vectors of 32 bytes: where neither the machine nor the
                  runner has registers for them
  --batch N       functions in one C file (default 400)
  --optimise O    gcc's option (default -O0)
  --gcc NAME      the gcc to judge by (default gcc); it must make x86-64 code
  --runner NAME   runs x86-64 programs where the machine itself does not
  --sizes-only    judge sizes and alignments of the LP64 model alone; any gcc for it can.
                  The C text of the whole judgement is read by gcc, but not run
";

struct Options {
    directory: String,
    seed: u64,
    functions: usize,
    seconds: Option<u64>,
    stride: usize,
    small: bool,
    wide: bool,
    batch: usize,
    tools: Tools,
}

fn default_tools() -> Tools {
    Tools {
        gcc: "gcc".to_string(),
        runner: None,
        optimisation: "-O0".to_string(),
        sizes_only: false,
    }
}

fn options() -> Option<Options> {
    let mut words = std::env::args().skip(1);
    let mut options = Options {
        directory: words.next().filter(|word| !word.starts_with("--"))?,
        seed: 1,
        functions: 1000,
        seconds: None,
        stride: 1,
        small: true,
        wide: true,
        batch: 400,
        tools: default_tools(),
    };
    while let Some(word) = words.next() {
        match word.as_str() {
            "--seed" => options.seed = words.next()?.parse().ok()?,
            "--functions" => options.functions = words.next()?.parse().ok()?,
            "--seconds" => options.seconds = Some(words.next()?.parse().ok()?),
            "--stride" => options.stride = words.next()?.parse().ok()?,
            "--no-small" => options.small = false,
            "--no-wide" => options.wide = false,
            "--batch" => options.batch = words.next()?.parse().ok()?,
            "--optimise" => options.tools.optimisation = words.next()?,
            "--gcc" => options.tools.gcc = words.next()?,
            "--runner" => options.tools.runner = Some(words.next()?),
            "--sizes-only" => options.tools.sizes_only = true,
            _ => return None,
        }
    }
    Some(options)
}

/// What has been judged so far.
struct Court {
    workshop: Workshop,
    sizes_only: bool,
    random: Random,
    batch: usize,
    started: Instant,
    /// The kinds that are judged, and how many functions of each have been.
    kinds: Vec<(Kind, usize)>,
    /// Functions that gcc departs from the papers in.
    left_out: usize,
    comparisons: usize,
    mismatches: usize,
}

impl Court {
    fn judge_all(&mut self, name: &str, descriptions: &[Vec<u8>]) -> Result<(), String> {
        for index in 0..self.kinds.len() {
            self.judge_kind(index, name, descriptions)?;
        }
        Ok(())
    }

    /// Those of one kind: gcc compiles a file for one.
    fn judge_kind(
        &mut self,
        index: usize,
        name: &str,
        descriptions: &[Vec<u8>],
    ) -> Result<(), String> {
        let (kind, _) = self.kinds[index];
        let all = descriptions.iter().map(Vec::as_slice).filter(|bytes| kind_of(bytes) == kind);
        let (all, left_out): (Vec<&[u8]>, Vec<&[u8]>) = all.partition(|bytes| is_within_gcc(bytes));
        self.left_out += left_out.len();
        for batch in all.chunks(self.batch) {
            self.judge_batch(index, batch)?;
            println!(
                "{name}: {}, {} comparisons, {} mismatches, {:.1} s",
                self.functions_text(),
                self.comparisons,
                self.mismatches,
                self.started.elapsed().as_secs_f64()
            );
        }
        Ok(())
    }

    /// How many functions of each model, and how many of them have vectors of 32 bytes.
    fn functions_text(&self) -> String {
        let sum = |wanted: &dyn Fn(Kind) -> bool| -> usize {
            self.kinds.iter().filter(|(kind, _)| wanted(*kind)).map(|(_, count)| count).sum()
        };
        let of = |model: Model| sum(&|kind| kind.model == model);
        let (long, narrow, wide) = (of(Model::Lp64), of(Model::Ilp32), sum(&|kind| kind.wide));
        format!(
            "{long} functions of LP64, {narrow} of ILP32, {wide} of them with vectors of 32 bytes"
        )
    }

    fn judge_batch(&mut self, index: usize, descriptions: &[&[u8]]) -> Result<(), String> {
        let (kind, _) = self.kinds[index];
        let random = &mut self.random;
        let subjects: Vec<Subject> =
            descriptions.iter().map(|bytes| Subject::new(random, bytes)).collect();
        let answers = match self.sizes_only {
            true => {
                self.workshop.check_syntax(kind, &subjects)?;
                self.workshop.run_sizes(&subjects)?
            }
            false => self.workshop.run(kind, &subjects)?,
        };
        for (subject, answer) in subjects.iter().zip(&answers) {
            let judgement = match self.sizes_only {
                true => judging::judge_sizes(subject, answer),
                false => judging::judge(subject, answer),
            };
            self.kinds[index].1 += 1;
            self.comparisons += judgement.comparisons;
            if !judgement.differences.is_empty() {
                self.mismatches += 1;
                self.print(&judging::report(subject, &judgement));
            }
        }
        if let Some(subject) = subjects.get(answers.len()) {
            self.mismatches += 1;
            let nothing = judging::Judgement::default();
            self.print(&format!("fell over:\n{}", judging::report(subject, &nothing)));
        }
        Ok(())
    }

    /// The first few mismatches; the rest are counted.
    fn print(&self, report: &str) {
        if self.mismatches <= 5 {
            println!("{report}");
        }
    }
}

/// The cases of document 01, the aggregates that need thought, vectors of 32 bytes
/// and the drafts near the limits, in both models, as far as they are accepted.
fn printed_functions() -> Vec<Vec<u8>> {
    let texts = CASES.iter().map(|case| case.function).chain(THOUGHT).chain(WIDE);
    let mut all: Vec<Vec<u8>> = texts.map(description).collect();
    all.push(bytes_of_hex(LISTER));
    all.extend(limits().into_iter().map(|(_, bytes)| bytes));
    let mut all = in_both_models(all);
    all.extend(NARROW.iter().map(|text| description(text)));
    all.retain(|bytes| check(bytes).number == 0);
    all
}

fn random_functions(random: &mut Random, count: usize) -> Vec<Vec<u8>> {
    let shape = |index: usize| match index % 40 {
        0 => LARGE,
        1..=12 => MIDDLE,
        _ => SMALL,
    };
    (0..count).map(|index| random_description(random, shape(index))).collect()
}

/// A gcc for another machine knows no ILP32 of x86-64, and may align vectors of 32
/// bytes to less.
fn judged_kinds(options: &Options) -> Vec<(Kind, usize)> {
    let is_everywhere = |kind: &Kind| kind.model == Model::Lp64 && !kind.wide;
    let is_judged = |kind: &Kind| match options.tools.sizes_only {
        true => is_everywhere(kind),
        false => options.wide || !kind.wide,
    };
    KINDS.into_iter().filter(is_judged).map(|kind| (kind, 0)).collect()
}

fn judge(options: &Options) -> Result<Court, String> {
    let target = options.tools.target()?;
    if !options.tools.sizes_only && !target.starts_with("x86_64") {
        return Err(format!(
            "{} makes code for {target}, so it cannot judge the calls of x86-64; \
             give --gcc (and --runner), or --sizes-only",
            options.tools.gcc
        ));
    }
    let workshop = Workshop::new(Path::new(&options.directory), &options.tools)?;
    let mut court = Court {
        workshop,
        sizes_only: options.tools.sizes_only,
        random: Random::new(options.seed),
        batch: options.batch,
        started: Instant::now(),
        kinds: judged_kinds(options),
        left_out: 0,
        comparisons: 0,
        mismatches: 0,
    };
    court.judge_all("printed cases and limits", &printed_functions())?;
    if options.small {
        let all = small::small_aggregates(options.stride, options.seed as usize);
        court.judge_all("small aggregates", &all)?;
        court.judge_all("aggregates beside vectors", &small::vector_nests())?;
    }
    let mut random = Random::new(options.seed ^ 0x5EED);
    if let Some(seconds) = options.seconds {
        while court.started.elapsed() < Duration::from_secs(seconds) {
            let functions = random_functions(&mut random, options.batch);
            court.judge_all("random functions", &functions)?;
        }
    } else {
        let functions = random_functions(&mut random, options.functions);
        court.judge_all("random functions", &functions)?;
    }
    Ok(court)
}

fn main() -> ExitCode {
    let Some(options) = options() else {
        eprint!("{HELP}");
        return ExitCode::FAILURE;
    };
    let tools = &options.tools;
    let what = if tools.sizes_only { "sizes and alignments only" } else { "everything" };
    println!("compiler: seed {}, {} {}, {what}", options.seed, tools.gcc, tools.optimisation);
    match judge(&options) {
        Ok(court) if court.mismatches == 0 => {
            println!(
                "compiler: gcc agrees on {what} of {}, {} comparisons; left out, {} with an unnamed \
                 union that it passes in ymm",
                court.functions_text(),
                court.comparisons,
                court.left_out
            );
            ExitCode::SUCCESS
        }
        Ok(court) => {
            println!("compiler: FAILED, {} of {}", court.mismatches, court.functions_text());
            ExitCode::FAILURE
        }
        Err(error) => {
            println!("compiler: FAILED, {error}");
            ExitCode::FAILURE
        }
    }
}
