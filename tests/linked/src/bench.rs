//! The bench's two functions, with answers in the second implementation's types.

use crate::declared::bench_c::{salfunye_check, salfunye_run};
use second::plan::Refusal;
use second::run::Reported;

/// No report is longer: `SALFUNYE_REPORT_SIZE` of the header.
pub const REPORT_SIZE: usize = 14_439;

pub(crate) fn refusal(number: u64, line: u64) -> Refusal {
    match u8::try_from(number) {
        Ok(number @ 1..=11) => Refusal { number, line },
        _ => panic!("{number} is no refusal"),
    }
}

/// What a check says of a text, and its looks at bytes of it.
#[derive(Clone, Copy, Debug, PartialEq, Eq)]
pub struct Checked {
    pub verdict: Result<(), Refusal>,
    pub looks: u64,
}

/// Any text; a refusal has its number and line.
pub fn check(text: &[u8]) -> Checked {
    let answer = unsafe { salfunye_check(text.as_ptr(), text.len()) };
    let verdict = if answer.number == 0 {
        assert_eq!(answer.line, 0, "an accepted text has no line");
        Ok(())
    } else {
        Err(refusal(answer.number, answer.line))
    };
    let looks = answer.looks;
    Checked { verdict, looks }
}

/// Any arguments; a refusal has its number and line, and no picks or length.
pub fn run(
    text: &[u8],
    limit: u64,
    store: &mut [u64],
    output: &mut [u8],
) -> Result<Reported, Refusal> {
    let answer = unsafe {
        salfunye_run(
            text.as_ptr(),
            text.len(),
            limit,
            store.as_mut_ptr(),
            store.len(),
            output.as_mut_ptr(),
            output.len(),
        )
    };
    if answer.number == 0 {
        assert_eq!(answer.line, 0, "a report has no line");
        let length = usize::try_from(answer.length).expect("a length fits");
        return Ok(Reported {
            picks: answer.picks,
            length,
        });
    }
    assert_eq!((answer.picks, answer.length), (0, 0), "a refusal has none");
    Err(refusal(answer.number, answer.line))
}
