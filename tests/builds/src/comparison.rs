//! Counts comparisons, and keeps what differed.

use std::fmt::Debug;

#[derive(Default)]
pub struct Comparison {
    pub made: usize,
    pub different: usize,
}

impl Comparison {
    /// Compares what the builder gave with what the independent layout says, and says where they differ.
    pub fn same<Thing: PartialEq + Debug>(
        &mut self,
        call: &str,
        input: &[u8],
        found: Thing,
        expected: Thing,
    ) {
        self.made += 1;
        if found == expected {
            return;
        }
        self.different += 1;
        if self.different <= 20 {
            let hex: String = input.iter().map(|byte| format!("{byte:02x}")).collect();
            println!(
                "DIFFERENT: {call} of {hex}\n  builder     {found:?}\n  independent {expected:?}"
            );
        }
    }
}
