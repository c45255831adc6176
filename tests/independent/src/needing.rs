//! Document 02, request 2026-10, "Does it need the stack at all?".

use crate::places::{laid_out, usable, Place};
use crate::refusal::Refusal;

#[derive(Clone, Copy, Debug, PartialEq, Eq)]
pub struct StackNeed {
    pub needed: bool,
    /// "The count of arguments looked at"
    pub looked: usize,
}

/// "that yes or no at the first argument that goes to the stack .. The count .. equals
/// that argument's position plus one, or A where there is none. Refusals: 1..9 as
/// before; 10 is not given here."
pub fn needs_stack(bytes: &[u8]) -> Result<StackNeed, Refusal> {
    let placements = laid_out(&usable(bytes)?).placements;
    let first = placements.iter().position(|argument| matches!(argument.place, Place::Stack(_)));
    Ok(match first {
        Some(position) => StackNeed { needed: true, looked: position + 1 },
        None => StackNeed { needed: false, looked: placements.len() },
    })
}
