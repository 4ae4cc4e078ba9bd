//! The two converters, with answers in the second implementation's types.

use crate::bench::refusal;
use crate::declared::convert_c::{salfunye_to_first, salfunye_to_second, AnswerC};
use second::plan::Refusal;

/// Any arguments; the length of the result, or a refusal with number and line.
pub fn to_second(text: &[u8], output: &mut [u8]) -> Result<usize, Refusal> {
    let (room, length) = (output.as_mut_ptr(), output.len());
    written(unsafe { salfunye_to_second(text.as_ptr(), text.len(), room, length) })
}

/// The way back, alike.
pub fn to_first(text: &[u8], output: &mut [u8]) -> Result<usize, Refusal> {
    let (room, length) = (output.as_mut_ptr(), output.len());
    written(unsafe { salfunye_to_first(text.as_ptr(), text.len(), room, length) })
}

pub(crate) fn written(answer: AnswerC) -> Result<usize, Refusal> {
    if answer.number == 0 {
        assert_eq!(answer.line, 0, "a result has no line");
        return Ok(usize::try_from(answer.length).expect("a length fits"));
    }
    assert_eq!(answer.length, 0, "a refusal has no length");
    Err(refusal(answer.number, answer.line))
}
