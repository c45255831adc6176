//! The C library against the independent layout. `library help` lists the commands.

mod batch;
mod comparison;
mod descriptions;
mod driver;
mod histories;
mod records;

use batch::Batch;
use comparison::Comparison;
use independent::mixture::Mixture;
use independent::random::Random;
use std::process::ExitCode;

const HELP: &str = "\
library descriptions COUNT [options] -- DRIVER   every call about COUNT random descriptions
library histories COUNT [options] -- DRIVER      COUNT random histories of some 40 calls
  DRIVER       the program made of driver.c; or a program that runs x86-64 programs, and then it
  --seed N     seed of the random numbers (default 1)
  --canary N   bytes before and behind everything that is lent, a multiple of 16 (default 32)
";

fn main() -> ExitCode {
    let arguments: Vec<String> = std::env::args().skip(1).collect();
    let words: Vec<&str> = arguments.iter().map(String::as_str).collect();
    let mut halves = words.splitn(2, |&word| word == "--");
    let (asked, driver) = (halves.next().unwrap_or(&[]), halves.next().unwrap_or(&[]));
    match asked {
        ["descriptions", count, options @ ..] if !driver.is_empty() => {
            Run::new(count, options, driver).descriptions()
        }
        ["histories", count, options @ ..] if !driver.is_empty() => {
            Run::new(count, options, driver).histories()
        }
        ["help"] | ["--help"] => {
            print!("{HELP}");
            ExitCode::SUCCESS
        }
        _ => {
            eprint!("{HELP}");
            ExitCode::FAILURE
        }
    }
}

fn number(word: &str) -> u64 {
    word.parse().expect("a number")
}

/// The number behind a word such as `--seed`.
fn number_of(options: &[&str], word: &str) -> Option<u64> {
    let position = options.iter().position(|&option| option == word)?;
    Some(number(options[position + 1]))
}

struct Run {
    count: u64,
    seed: u64,
    random: Random,
    batch: Batch,
    comparison: Comparison,
    /// The library's version, and what runs it where that is not the machine.
    library: String,
}

impl Run {
    fn new(count: &str, options: &[&str], driver: &[&str]) -> Run {
        let seed = number_of(options, "--seed").unwrap_or(1);
        let canary = number_of(options, "--canary").unwrap_or(32) as usize;
        let mut comparison = Comparison::new(driver, canary);
        let version = comparison.version();
        Run {
            count: number(count),
            seed,
            random: Random::new(seed),
            batch: Batch::new(canary),
            comparison,
            library: match driver {
                [_] => format!("library {version}"),
                _ => format!("library {version}, run by {}", driver[0]),
            },
        }
    }

    fn descriptions(self) -> ExitCode {
        let mixture = Mixture::new();
        self.play("descriptions", "comparisons", |random, batch| {
            let bytes = mixture.draw(random);
            descriptions::ask(random, &bytes, batch);
        })
    }

    fn histories(self) -> ExitCode {
        self.play("histories", "commands compared", |random, batch| {
            histories::ask(random, 40, batch);
        })
    }

    fn play(mut self, what: &str, made: &str, ask: impl Fn(&mut Random, &mut Batch)) -> ExitCode {
        for index in 1..=self.count {
            ask(&mut self.random, &mut self.batch);
            self.comparison.play(&mut self.batch);
            self.progress(what, index);
        }
        self.comparison.finish();
        self.verdict(what, made)
    }

    fn progress(&self, what: &str, index: u64) {
        if index % 10_000 == 0 && index < self.count {
            let different = self.comparison.different;
            eprintln!("library: {index} of {} {what}, {different} different", self.count);
        }
    }

    fn verdict(self, what: &str, made: &str) -> ExitCode {
        let Run { count, seed, comparison, library, .. } = self;
        println!(
            "{library}: {count} {what}, seed {seed}, {} {made}, {} different",
            comparison.made, comparison.different
        );
        if comparison.ends_well() {
            ExitCode::SUCCESS
        } else {
            ExitCode::FAILURE
        }
    }
}
