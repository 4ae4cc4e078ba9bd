//! Stores and outputs that were in use before, and what a tool leaves of an output: for tests.

use crate::plan::Refusal;
use crate::tool::Tool;

/// The number and the line of a refusal.
pub type Refused = (u8, u64);

/// So many numbers as an earlier use may have left.
pub fn used_store(length: usize, word: u64) -> Vec<u64> {
    (0..length as u64)
        .map(|place| word.rotate_left(place as u32).wrapping_add(place))
        .collect()
}

/// So many bytes, alike.
pub fn used_output(length: usize, byte: u8) -> Vec<u8> {
    (0..length).map(|place| byte ^ place as u8).collect()
}

/// The result in a used output of this length, of which a result changes its own bytes
/// alone and a refusal none.
pub fn answered(tool: Tool, text: &[u8], room: usize) -> Result<Vec<u8>, Refused> {
    let used = used_output(room, b'#');
    let mut output = used.clone();
    match tool(text, &mut output) {
        Ok(length) => {
            assert_eq!(output[length..], used[length..]);
            output.truncate(length);
            Ok(output)
        }
        Err(Refusal { number, line }) => {
            assert_eq!(output, used);
            Err((number, line))
        }
    }
}

/// Asserts that this result fits into an output of its length, and so many lengths on,
/// and that every shorter one is refused with 8.
pub fn assert_fits(
    result: &[u8],
    lengths: usize,
    answered: impl Fn(usize) -> Result<Vec<u8>, Refused>,
) {
    let needed = result.len();
    for room in 0..needed {
        assert_eq!(answered(room), Err((8, 0)), "output of {room}");
    }
    for room in needed..needed + lengths {
        assert_eq!(answered(room).as_deref(), Ok(result), "output of {room}");
    }
}
