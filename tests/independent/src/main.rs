//! Commands over the independent layout; `independent help` lists them.

use independent::cases;
use independent::lister;
use independent::listing::listing;
use independent::reader;
use independent::vectors::all_pairs;
use std::io::{Read, Write};
use std::path::Path;
use std::process::ExitCode;

const HELP: &str = "\
independent list                    description on standard input, the lister's text
independent cases                   the lister's case, P1 to P11 and V1 to V3, as the papers print them
independent lister PROGRAM [--count N] [--seed N]
                                    runs PROGRAM on the cases, on each refusal and on N random inputs
independent texts PROGRAM [--count N] [--seed N]
                                    runs PROGRAM, which answers texts as text_vectors does, on N random ones
independent vectors write DIRECTORY [--seed N]
independent vectors check DIRECTORY [--seed N]
";

/// The seed of the committed vectors.
const SEED: u64 = 1;

fn main() -> ExitCode {
    let arguments: Vec<String> = std::env::args().skip(1).collect();
    let words: Vec<&str> = arguments.iter().map(String::as_str).collect();
    match words.as_slice() {
        ["list"] => print_and_succeed(&listing(&standard_input())),
        ["cases"] => print_cases(),
        ["lister", program, options @ ..] => compare_lister(program, options),
        ["texts", program, options @ ..] => compare_texts(program, options),
        ["vectors", "write", directory, options @ ..] => write_vectors(directory, options),
        ["vectors", "check", directory, options @ ..] => check_vectors(directory, options),
        ["help"] | ["--help"] => print_and_succeed(HELP),
        _ => {
            eprint!("{HELP}");
            ExitCode::FAILURE
        }
    }
}

fn standard_input() -> Vec<u8> {
    let mut bytes = Vec::new();
    std::io::stdin().read_to_end(&mut bytes).expect("standard input");
    bytes
}

fn print_and_succeed(text: &str) -> ExitCode {
    std::io::stdout().write_all(text.as_bytes()).expect("standard output");
    ExitCode::SUCCESS
}

fn print_cases() -> ExitCode {
    let (text, all_hold) = cases::report();
    print!("{text}");
    if all_hold {
        println!("cases: all 15 as the papers print them");
        ExitCode::SUCCESS
    } else {
        println!("cases: FAILED");
        ExitCode::FAILURE
    }
}

/// The number behind a word such as `--seed`, or `default`.
fn number_of(options: &[&str], word: &str, default: u64) -> u64 {
    let position = options.iter().position(|&option| option == word);
    position.map_or(default, |at| options[at + 1].parse().expect("a number"))
}

fn seed_of(options: &[&str]) -> u64 {
    number_of(options, "--seed", SEED)
}

fn compare_lister(program: &str, options: &[&str]) -> ExitCode {
    let seed = seed_of(options);
    let count = number_of(options, "--count", 1000) as usize;
    let outcome = lister::compare(program, count, seed);
    println!(
        "lister: seed {seed}, {} inputs, {} of them refused, {} different",
        outcome.compared, outcome.refused, outcome.different
    );
    if outcome.different == 0 {
        ExitCode::SUCCESS
    } else {
        ExitCode::FAILURE
    }
}

fn compare_texts(program: &str, options: &[&str]) -> ExitCode {
    let seed = seed_of(options);
    let count = number_of(options, "--count", 1000) as usize;
    let outcome = reader::compare(program, count, seed);
    println!(
        "texts: seed {seed}, {} texts, {} of them accepted, {} different",
        outcome.compared, outcome.accepted, outcome.different
    );
    if outcome.different == 0 {
        ExitCode::SUCCESS
    } else {
        ExitCode::FAILURE
    }
}

fn write_vectors(directory: &str, options: &[&str]) -> ExitCode {
    let seed = seed_of(options);
    let pairs = all_pairs(seed);
    for pair in &pairs {
        let path = |ending: &str| Path::new(directory).join(format!("{}.{ending}", pair.name));
        std::fs::write(path("in"), &pair.input).expect("write");
        std::fs::write(path("out"), &pair.output).expect("write");
        let (input, output) = (pair.input.len(), pair.output.len());
        println!("{}: {} records, {input} bytes in, {output} bytes out", pair.name, pair.records);
    }
    ExitCode::SUCCESS
}

fn check_vectors(directory: &str, options: &[&str]) -> ExitCode {
    let seed = seed_of(options);
    let pairs = all_pairs(seed);
    let mut all_equal = true;
    for pair in &pairs {
        let read = |ending: &str| {
            std::fs::read(Path::new(directory).join(format!("{}.{ending}", pair.name)))
        };
        let input_equal = read("in").is_ok_and(|bytes| bytes == pair.input);
        let output_equal = read("out").is_ok_and(|bytes| bytes == pair.output.as_bytes());
        let equal = input_equal && output_equal;
        all_equal = all_equal && equal;
        let verdict = if equal { "equal" } else { "DIFFERENT" };
        println!("{}: {} records, {verdict}", pair.name, pair.records);
    }
    println!("vectors: seed {seed}");
    if all_equal {
        ExitCode::SUCCESS
    } else {
        println!("vectors: FAILED");
        ExitCode::FAILURE
    }
}
