//! The proved converters beside the second implementation's: what is asked of every
//! tool, the old bytes on the way back, and the same report of a moved plan.

use crate::bench::{run, REPORT_SIZE};
use crate::beside::{self, around, Answer, Comparison};
use crate::check;
use crate::convert;
use crate::seen::Seen;
use second::convert::{to_first, to_second};
use second::plan::{Form, Refusal, CAPACITY, SLOTS, TEXT_LIMIT};
use second::random::{first_form, has_masks, plan_of_size, with_sizes, Rng};
use second::run::STORE_SIZE;
use second::tool::Tool;
use second::used::{used_output, used_store};

/// A converter: the proved one, and the second implementation's.
pub struct Way {
    pub name: &'static str,
    proved: Tool,
    second: Tool,
}

pub const TO_SECOND: Way = Way {
    name: "to-second",
    proved: convert::to_second,
    second: to_second,
};
pub const TO_FIRST: Way = Way {
    name: "to-first",
    proved: convert::to_first,
    second: to_first,
};

/// Bytes that a W line has more in the second form: `64` and `8`, with their tabs.
const LONGER: usize = 5;
/// Picks of the runs whose reports are compared, and one in so many moved plans is run.
const PICKS: u64 = 3_000;
const RUN_ONE_IN: u64 = 4;

pub const CONVERTERS: Comparison = Comparison {
    name: "converters",
    nothing_seen,
    random_text,
    compare_text,
};

/// The answer to one call, or else what differs.
pub fn compare(way: &Way, text: &[u8], output: &[u8]) -> Result<Answer, String> {
    let second = |output: &mut [u8]| (way.second)(text, output);
    let compared = beside::compare(way.proved, second, text, output);
    compared.map_err(|what| format!("{}, {what}", way.name))
}

const LONG_RESULT: &str = "to-second: refused with 6 by its result";
const JUST_TOO_LONG: &str = "to-second: refused with 6 by a result of 65537";
const LATER_FAULT: &str = "other sizes and a fault in a later line";
const BACK: &str = "moved, and back to the old bytes";
const REPORTED: &str = "moved, without M lines, with the same report";
const TIED: &str = "moved, with M lines";
const TIED_REPORTED: &str = "moved, with M lines and the same report";

fn kind(way: &Way, what: &str) -> String {
    format!("{}: {what}", way.name)
}

fn refused(way: &Way, number: u8) -> String {
    kind(way, &format!("refused with {number}"))
}

fn nothing_seen() -> Seen {
    let mut kinds = Vec::new();
    for way in [TO_SECOND, TO_FIRST] {
        let results = [
            "moved",
            "unchanged",
            "a result of 65535",
            "a result of 65536",
        ];
        kinds.extend(results.map(|what| kind(&way, what)));
        kinds.extend([1, 2, 3, 4, 5, 6, 8, 9, 11].map(|number| refused(&way, number)));
    }
    kinds.push(refused(&TO_FIRST, 10));
    let others = [LONG_RESULT, JUST_TOO_LONG, LATER_FAULT];
    kinds.extend(others.map(String::from));
    kinds.extend([BACK, REPORTED, TIED, TIED_REPORTED].map(String::from));
    Seen::none_of(kinds)
}

fn add_answer(seen: &mut Seen, way: &Way, text: &[u8], answer: &Answer) {
    match answer {
        Ok(result) => {
            let changed = if result == text { "unchanged" } else { "moved" };
            seen.add(&kind(way, changed));
            if result.len() >= TEXT_LIMIT - 1 {
                seen.add(&kind(way, &format!("a result of {}", result.len())));
            }
        }
        Err(Refusal { number: 6, .. }) if text.len() <= TEXT_LIMIT => {
            seen.add(LONG_RESULT);
            if text.len() + LONGER == TEXT_LIMIT + 1 {
                seen.add(JUST_TOO_LONG);
            }
        }
        Err(refusal) => seen.add(&refused(way, refusal.number)),
    }
}

/// A text of either form, sound or damaged, often with sizes of 64 and 8 or nearly
/// so, and at times so long that its result is or is not too long.
fn random_text(rng: &mut Rng) -> Vec<u8> {
    let text = match rng.below(24) {
        0 => {
            let size = TEXT_LIMIT - LONGER - 1 + rng.choose(&[0, 1, 2, LONGER, LONGER + 1]);
            first_form(rng, |rng| plan_of_size(rng, size))
        }
        1..=16 => first_form(rng, check::random_text),
        _ => return check::random_text(rng),
    };
    let (slots, capacity) = match rng.below(12) {
        0..=4 => return text,
        5..=8 => (SLOTS, CAPACITY),
        9 => (SLOTS, rng.choose(&[1, 7, 9, 16])),
        10 => (rng.choose(&[8, 32, 63]), CAPACITY),
        _ => (rng.between(32, 63), rng.between(1, 16)),
    };
    with_sizes(&text, slots, capacity)
}

/// Compares both converters on a text, with outputs of all lengths around that of
/// the result, and what can be done with a result.
fn compare_text(text: &[u8], rng: &mut Rng, seen: &mut Seen) -> Result<(), String> {
    for (way, back) in [(TO_SECOND, TO_FIRST), (TO_FIRST, TO_SECOND)] {
        let room = text.len() + LONGER + rng.index(400);
        let result = compare(&way, text, &used_output(room, rng.byte()))?;
        let length = result.as_ref().map_or(text.len(), Vec::len);
        for room in (0..2).chain(around(length)) {
            let answer = compare(&way, text, &used_output(room, rng.byte()))?;
            add_answer(seen, &way, text, &answer);
        }
        match result {
            Ok(moved) if moved != text => compare_moved(text, &moved, &back, rng, seen)?,
            Err(refusal) if refusal.line > 1 && names_other_sizes(text) => seen.add(LATER_FAULT),
            _ => {}
        }
    }
    Ok(())
}

/// Whether the first line is sound and has other sizes than 64 and 8.
fn names_other_sizes(text: &[u8]) -> bool {
    let first = text.split_inclusive(|&byte| byte == b'\n').next();
    let plan = second::plan::check(first.unwrap_or_default());
    plan.is_ok_and(|plan| match plan.form {
        Form::First => false,
        Form::Second { slots, capacity } => (slots, capacity) != (SLOTS, CAPACITY),
    })
}

/// A text and the other one that it was moved to: the way back, and the reports.
fn compare_moved(
    text: &[u8],
    moved: &[u8],
    back: &Way,
    rng: &mut Rng,
    seen: &mut Seen,
) -> Result<(), String> {
    let room = used_output(text.len(), rng.byte());
    if compare(back, moved, &room)?.as_deref() != Ok(text) {
        return Err(format!("{} of its result: other bytes", back.name));
    }
    let tied = has_masks(text);
    seen.add(BACK);
    if tied {
        seen.add(TIED);
    }
    if rng.one_in(RUN_ONE_IN) {
        if report(text) != report(moved) {
            return Err("the reports of both forms".to_string());
        }
        seen.add(if tied { TIED_REPORTED } else { REPORTED });
    }
    Ok(())
}

/// The picks and the report of an accepted plan.
fn report(text: &[u8]) -> (u64, Vec<u8>) {
    let (mut store, mut output) = (used_store(STORE_SIZE, 3), used_output(REPORT_SIZE, 3));
    let reported = run(text, PICKS, &mut store, &mut output).expect("a report");
    output.truncate(reported.length);
    (reported.picks, output)
}
