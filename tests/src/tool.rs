//! What all tools share: each makes bytes of a text and puts them into an output.

use crate::plan::{callers, refusal, Refusal};
use crate::report::refusal_line;

/// From a text and an output to the length of the result in it.
pub type Tool = fn(&[u8], &mut [u8]) -> Result<usize, Refusal>;

/// Where a result of this length goes, if the output has room for it.
pub fn room(output: &mut [u8], length: usize) -> Result<&mut [u8], Refusal> {
    output
        .get_mut(..length)
        .ok_or(callers(refusal::OUTPUT_SIZE))
}

/// Puts a result into an output, if it has room for it; its length.
pub fn write(result: &[u8], output: &mut [u8]) -> Result<usize, Refusal> {
    room(output, result.len())?.copy_from_slice(result);
    Ok(result.len())
}

/// What a tool's program prints: the result, of at most so many bytes, or the line of
/// the refusal.
pub fn answer_bytes(tool: Tool, text: &[u8], longest: usize) -> Vec<u8> {
    let mut output = vec![0; longest];
    match tool(text, &mut output) {
        Ok(length) => {
            output.truncate(length);
            output
        }
        Err(refusal) => refusal_line(refusal),
    }
}
