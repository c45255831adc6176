//! Random builds of descriptions: `builds COUNT FILE [--seed N]` makes COUNT of them by the bindings' Builder, compares them with the
//! independent layout, and writes them to FILE for library/builder.c.

mod builds;
mod comparison;

use comparison::Comparison;
use independent::random::Random;
use std::process::ExitCode;

fn main() -> ExitCode {
    let arguments: Vec<String> = std::env::args().skip(1).collect();
    let words: Vec<&str> = arguments.iter().map(String::as_str).collect();
    match words.as_slice() {
        [count, file] => run(number(count), file, 1),
        [count, file, "--seed", seed] => run(number(count), file, number(seed)),
        _ => {
            eprintln!("builds COUNT FILE [--seed N]");
            ExitCode::FAILURE
        }
    }
}

fn number(word: &str) -> u64 {
    word.parse().expect("a number")
}

fn run(count: u64, file: &str, seed: u64) -> ExitCode {
    let mut random = Random::new(seed);
    let mut comparison = Comparison::default();
    let lines: Vec<String> =
        (0..count).map(|_| builds::compare(&mut random, &mut comparison)).collect();
    let refused = lines.iter().filter(|line| line.contains("refused")).count();
    std::fs::write(file, lines.join("\n") + "\n").expect("the file of builds");
    println!(
        "{count} builds, seed {seed}, {refused} refused, {} comparisons, {} different",
        comparison.made, comparison.different
    );
    match comparison.different {
        0 => ExitCode::SUCCESS,
        _ => ExitCode::FAILURE,
    }
}
