//! The looks of a check at bytes of its text: how many the paper allows, and what
//! the check's program prints.

use std::ops::RangeInclusive;

use crate::plan::{check, refusal, Refusal};
use crate::report::{accepted_line, refusal_line};

/// The fewest and the most looks of a check that gives this answer. An accepted text
/// is looked at whole, one that is too long not at all; else the last look is in the
/// refused line or before it. A line feed is the end of its line.
pub fn bounds(text: &[u8], answer: Result<(), Refusal>) -> RangeInclusive<u64> {
    let all = text.len() as u64;
    match answer {
        Ok(()) => all..=all,
        Err(refused) if refused.number == refusal::TEXT_SIZE => 0..=0,
        Err(refused) => {
            let lines = text.split_inclusive(|&byte| byte == b'\n');
            let mut sizes = lines.map(|line| line.len() as u64);
            let before: u64 = sizes.by_ref().take(refused.line as usize - 1).sum();
            // an empty text has no line 1
            before..=before + sizes.next().unwrap_or(0)
        }
    }
}

/// What the program prints: `A` and the looks, or the line of the refusal.
pub fn answer_bytes(text: &[u8]) -> Vec<u8> {
    match check(text) {
        Ok(_) => accepted_line(text.len()),
        Err(refusal) => refusal_line(refusal),
    }
}
