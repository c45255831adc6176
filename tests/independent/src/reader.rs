//! The program `text_vectors` on many more texts than the vectors have: grown, damaged
//! and jumbled ones, in one run, compared line by line with this reading.

use crate::declaration::Start;
use crate::random::Random;
use crate::texts::{damaged, grown, jumbled};
use crate::vectors::{text_answer, text_part};
use std::io::Write;
use std::process::{Command, Stdio};

/// What came of a run.
#[derive(Default)]
pub struct Outcome {
    pub compared: usize,
    pub accepted: usize,
    pub different: usize,
}

fn drawn(random: &mut Random) -> (Vec<u8>, Start) {
    let start = random.choose(&[Start::Prototype, Start::Prototype, Start::Types]);
    let text = match random.below(4) {
        0 => grown(start, random),
        1 => jumbled(random),
        2 => damaged(&grown(start, random), random),
        _ => damaged(&damaged(&grown(start, random), random), random),
    };
    (text, start)
}

/// Runs the program once on `count` texts.
pub fn compare(program: &str, count: usize, seed: u64) -> Outcome {
    let mut random = Random::new(seed);
    let texts: Vec<_> = (0..count).map(|_| drawn(&mut random)).collect();
    let input: Vec<u8> = texts.iter().flat_map(|(text, start)| text_part(text, *start)).collect();
    let printed = print_of(program, input);
    let mut lines = printed.lines();
    let mut outcome = Outcome::default();
    for (text, start) in &texts {
        let (expected, line) = (text_answer(text, *start), lines.next().unwrap_or("nothing"));
        outcome.compared += 1;
        outcome.accepted += usize::from(expected == "accepted");
        if line != expected {
            outcome.different += 1;
            println!("DIFFERENT of {text:?}\nexpected: {expected}, printed: {line}");
        }
    }
    outcome
}

/// What the program prints, which is read while the input is still being written.
fn print_of(program: &str, input: Vec<u8>) -> String {
    let mut child = Command::new(program)
        .stdin(Stdio::piped())
        .stdout(Stdio::piped())
        .spawn()
        .expect("the program starts");
    let mut pipe = child.stdin.take().expect("standard input");
    let writing = std::thread::spawn(move || pipe.write_all(&input));
    let output = child.wait_with_output().expect("the program ends");
    writing.join().expect("the writer ends").expect("the program reads all");
    String::from_utf8_lossy(&output.stdout).into_owned()
}
