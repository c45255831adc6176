//! Has batches played, counts what is compared, and says what differs.

use crate::batch::{Batch, Call, Code, Piece};
use crate::driver::Driver;
use std::mem::{swap, take};

pub struct Comparison {
    driver: Driver,
    /// What the driver plays while the next batch is made.
    playing: Batch,
    answers: Vec<u8>,
    pub made: usize,
    pub different: usize,
}

impl Comparison {
    /// By a driver, with a canary of so many bytes.
    pub fn new(driver: &[&str], canary: usize) -> Comparison {
        Comparison {
            driver: Driver::start(driver, canary),
            playing: Batch::new(canary),
            answers: Vec::new(),
            made: 0,
            different: 0,
        }
    }

    /// The version that the library tells.
    pub fn version(&mut self) -> u64 {
        let asked = self.driver.ask(&[Code::Version as u8]);
        asked.and_then(|()| self.driver.read(&mut self.answers)).expect("the driver answers");
        u64::from_le_bytes(self.answers[..].try_into().expect("one number"))
    }

    /// Has the batch played, and leaves an empty one. What came of the batch before it is compared meanwhile.
    pub fn play(&mut self, batch: &mut Batch) {
        self.read();
        self.driver.ask(&batch.commands).expect("the driver takes commands");
        swap(batch, &mut self.playing);
        self.compare(batch);
        batch.clear();
    }

    /// Compares what came of the last batch.
    pub fn finish(&mut self) {
        self.read();
        let last = take(&mut self.playing);
        self.compare(&last);
    }

    /// Whether nothing differed, and the driver ended as it should.
    pub fn ends_well(self) -> bool {
        let ended = self.driver.ends_well();
        if !ended {
            println!("the driver did not end well");
        }
        ended && self.different == 0
    }

    fn read(&mut self) {
        if !self.playing.commands.is_empty() {
            if let Err(error) = self.driver.read(&mut self.answers) {
                panic!("the driver broke off, {error}, in calls of {}", self.playing.about.whole());
            }
            let (found, expected) = (self.answers.len(), self.playing.expected.len());
            assert_eq!(found, expected, "bytes of the driver's answers");
        }
    }

    fn compare(&mut self, batch: &Batch) {
        let mut start = 0;
        for (index, call) in batch.calls.iter().enumerate() {
            self.made += 1;
            if self.answers[start..call.end] != batch.expected[start..call.end] {
                self.different += 1;
                if self.different <= 20 {
                    print_differences(batch, index, &self.answers);
                }
            }
            start = call.end;
        }
    }
}

pub fn hex(bytes: &[u8]) -> String {
    bytes.iter().map(|byte| format!("{byte:02x}")).collect()
}

fn shown(piece: &Piece, bytes: &[u8]) -> String {
    match bytes.try_into() {
        Ok(word) if piece.is_number => u64::from_le_bytes(word).to_string(),
        _ => hex(bytes),
    }
}

/// The call, its command, and the pieces of its answer that differ. Buffers are shown with their canaries.
fn print_differences(batch: &Batch, index: usize, answers: &[u8]) {
    let none = Call::default();
    let before = index.checked_sub(1).map_or(&none, |before| &batch.calls[before]);
    let call = &batch.calls[index];
    println!("DIFFERENT: {} of {}", call.name, batch.about.text(index));
    println!("  command {}", hex(&batch.commands[before.commands_end..call.commands_end]));
    let mut start = before.end;
    for piece in &batch.pieces[before.pieces_end..call.pieces_end] {
        let (found, expected) = (&answers[start..piece.end], &batch.expected[start..piece.end]);
        if let Some(first) = found.iter().zip(expected).position(|(one, other)| one != other) {
            match piece.entry {
                Some(entry) => println!("  {} of entry {entry}", piece.name),
                None if piece.is_number => println!("  {}", piece.name),
                None => println!("  {}, from byte {first} on", piece.name),
            }
            println!("    library     {}", shown(piece, found));
            println!("    independent {}", shown(piece, expected));
        }
        start = piece.end;
    }
}
