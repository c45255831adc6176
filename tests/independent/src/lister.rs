//! The lister, run as a user runs it: bytes on standard input, text on standard
//! output, compared with the text of this layout.

use crate::broken::broken;
use crate::cases::{bytes_of_hex, CASES, LISTER};
use crate::damage::{damaged, refusals_and_pairs};
use crate::draft::in_both_models;
use crate::generator::{limits, NARROW, THOUGHT, WIDE};
use crate::listing::listing;
use crate::mixture::Mixture;
use crate::notation::description;
use crate::random::Random;
use std::io::Write;
use std::process::{Command, Stdio};

/// What came of a run.
#[derive(Default)]
pub struct Outcome {
    pub compared: usize,
    pub refused: usize,
    pub different: usize,
}

/// Runs the program on what document 01 prints, on the limits, on broken types,
/// on each refusal and pair of them, and on `count` random inputs.
pub fn compare(program: &str, count: usize, seed: u64) -> Outcome {
    let mut random = Random::new(seed);
    let mixture = Mixture::new();
    let mut outcome = Outcome::default();
    for bytes in by_hand(&mut random) {
        compare_one(program, &bytes, &mut outcome);
    }
    for index in 0..count {
        let bytes = mixture.draw(&mut random);
        compare_one(program, &bytes, &mut outcome);
        if (index + 1) % 5000 == 0 {
            eprintln!("lister: {} of {count}, {} different", index + 1, outcome.different);
        }
    }
    outcome
}

fn by_hand(random: &mut Random) -> Vec<Vec<u8>> {
    let lister = bytes_of_hex(LISTER);
    let mut all = vec![Vec::new(), lister.clone()];
    all.push([&lister[..], b"\n"].concat());
    all.extend(CASES.iter().map(|case| description(case.function)));
    all.extend(THOUGHT.iter().chain(&NARROW).chain(&WIDE).map(|text| description(text)));
    all.extend(limits().into_iter().map(|(_, bytes)| bytes));
    all.extend(broken().into_iter().map(|one| one.bytes));
    let mut all = in_both_models(all);
    for refusals in refusals_and_pairs() {
        all.push(damaged(random, &refusals));
    }
    all
}

fn compare_one(program: &str, bytes: &[u8], outcome: &mut Outcome) {
    let expected = listing(bytes);
    let printed = print_of(program, bytes);
    outcome.compared += 1;
    outcome.refused += usize::from(expected.starts_with("refused"));
    if printed != expected {
        outcome.different += 1;
        let hex: String = bytes.iter().map(|byte| format!("{byte:02x}")).collect();
        println!("DIFFERENT of {hex}\nexpected:\n{expected}printed:\n{printed}");
    }
}

/// What the program prints. It may stop reading before the end: it needs 587 bytes.
fn print_of(program: &str, bytes: &[u8]) -> String {
    let mut child = Command::new(program)
        .stdin(Stdio::piped())
        .stdout(Stdio::piped())
        .spawn()
        .expect("the program starts");
    let mut input = child.stdin.take().expect("standard input");
    // In two pieces, so that a read comes back short.
    let (first, second) = bytes.split_at(bytes.len() / 2);
    let _ = input.write_all(first).and_then(|()| input.write_all(second));
    drop(input);
    let output = child.wait_with_output().expect("the program ends");
    assert!(output.status.success(), "the lister's exit status");
    String::from_utf8_lossy(&output.stdout).into_owned()
}
