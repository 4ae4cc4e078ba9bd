//! The converters between the two forms of a plan. A result is the plan's own
//! bytes behind its W line, and that line written anew where the form changes.

use crate::plan::{callers, check, refusal, Form, Refusal, CAPACITY, SLOTS, TEXT_LIMIT};
use crate::tool::{self, room, Tool};

/// Puts a plan into the second form, the sizes of the first spelled out.
pub fn to_second(text: &[u8], output: &mut [u8]) -> Result<usize, Refusal> {
    let plan = check(text)?;
    let moved = match plan.form {
        Form::First => {
            let first = format!("W\t{}\t{SLOTS}\t{CAPACITY}\n", plan.workers);
            Moved::with_first_line(first, text)
        }
        Form::Second { .. } => Moved::unchanged(text),
    };
    moved.write(output)
}

/// Puts a plan into the first form; its sizes must be those of that form.
pub fn to_first(text: &[u8], output: &mut [u8]) -> Result<usize, Refusal> {
    let plan = check(text)?;
    let moved = match plan.form {
        Form::First => Moved::unchanged(text),
        Form::Second {
            slots: SLOTS,
            capacity: CAPACITY,
        } => Moved::with_first_line(format!("W\t{}\n", plan.workers), text),
        Form::Second { .. } => {
            return Err(Refusal {
                number: refusal::OTHER_SIZES,
                line: 1,
            })
        }
    };
    moved.write(output)
}

/// What a converter's program prints: the result, or the line of the refusal.
pub fn answer_bytes(convert: Tool, text: &[u8]) -> Vec<u8> {
    tool::answer_bytes(convert, text, TEXT_LIMIT)
}

/// A result in two parts: a new first line, or none, and bytes of the text.
struct Moved<'t> {
    first: String,
    kept: &'t [u8],
}

impl<'t> Moved<'t> {
    fn unchanged(text: &'t [u8]) -> Moved<'t> {
        Moved {
            first: String::new(),
            kept: text,
        }
    }

    fn with_first_line(first: String, text: &'t [u8]) -> Moved<'t> {
        let end = text.iter().position(|&byte| byte == b'\n');
        let kept = &text[end.expect("an accepted text has a line") + 1..];
        Moved { first, kept }
    }

    fn write(self, output: &mut [u8]) -> Result<usize, Refusal> {
        let length = self.first.len() + self.kept.len();
        if length > TEXT_LIMIT {
            return Err(callers(refusal::TEXT_SIZE));
        }
        let (first, kept) = room(output, length)?.split_at_mut(self.first.len());
        first.copy_from_slice(self.first.as_bytes());
        kept.copy_from_slice(self.kept);
        Ok(length)
    }
}
