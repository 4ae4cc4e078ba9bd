//! The longest chain, with an answer in the second implementation's types.

use crate::convert::written;
use crate::declared::chain_c::salfunye_chain;
use second::plan::Refusal;

/// Any arguments; the length of the line, or a refusal with number and line.
pub fn longest_chain(text: &[u8], output: &mut [u8]) -> Result<usize, Refusal> {
    let (room, length) = (output.as_mut_ptr(), output.len());
    written(unsafe { salfunye_chain(text.as_ptr(), text.len(), room, length) })
}
