//! The proved longest chain beside the second implementation's.

use crate::beside::{self, around, Answer, Comparison};
use crate::chain::longest_chain;
use crate::check;
use crate::seen::Seen;
use second::chain::{line, LONGEST_LINE, SEARCHED};
use second::chosen::Chosen;
use second::plan::{check, Form, Plan, TASK_LIMIT};
use second::random::{chained, damaged_chained, Rng};
use second::tool::write;
use second::used::used_output;

pub const CHAINS: Comparison = Comparison {
    name: "chains",
    nothing_seen,
    random_text,
    compare_text,
};

/// The answer to one call, or else what differs. The line is what the second
/// implementation makes of the text, whatever the output.
pub fn compare(text: &[u8], line: &Answer, output: &[u8]) -> Result<Answer, String> {
    let second = |output: &mut [u8]| write(line.as_ref().map_err(|&refusal| refusal)?, output);
    beside::compare(longest_chain, second, text, output)
}

const NO_TASKS: &str = "no tasks";
const ONE_TASK: &str = "one task";
const ALL_TASKS: &str = "128 tasks";
const TIED: &str = "with M lines";
const SECOND_FORM: &str = "of the second form";
const NO_COST: &str = "a sum of 0";
const LONGEST: &str = "a line of 409";
const TOO_SHORT: &str = "output: too short";
const ONE_SHORT: &str = "output: one byte too short";
const EXACT: &str = "output: as long as the line";
const LONGER: &str = "output: longer";

/// By which way the second implementation finds the chain.
fn way(tasks: usize) -> &'static str {
    if tasks <= SEARCHED {
        "all chains searched"
    } else {
        "by the programme"
    }
}

const WAYS: [usize; 2] = [SEARCHED, TASK_LIMIT];

/// What can tell in a choice, and whether it did.
fn told(chosen: Chosen) -> [(&'static str, bool); 5] {
    [
        ("among equal sums", chosen.among_equals),
        ("an extension by 0 left off", chosen.left_off),
        ("begins with 0", chosen.begins_with_0),
        ("joined by 0", chosen.joined_by_0),
        ("by readers that don't conflict", chosen.by_readers),
    ]
}

fn refused(number: u8) -> String {
    format!("refused with {number}")
}

fn nothing_seen() -> Seen {
    let mut kinds = Vec::new();
    for way in WAYS.map(way) {
        kinds.push(way.to_string());
        kinds.extend(told(Chosen::default()).map(|(what, _)| format!("{way}: {what}")));
    }
    let plans = [
        NO_TASKS,
        ONE_TASK,
        ALL_TASKS,
        TIED,
        SECOND_FORM,
        NO_COST,
        LONGEST,
    ];
    kinds.extend(plans.map(String::from));
    kinds.extend([1, 2, 3, 4, 5, 6, 9, 11].map(refused));
    kinds.extend([TOO_SHORT, ONE_SHORT, EXACT, LONGER].map(String::from));
    Seen::none_of(kinds)
}

fn add_text(seen: &mut Seen, text: &[u8], line: &Answer) {
    match (check(text), line) {
        (Ok(plan), Ok(line)) => add_plan(seen, &plan, line),
        (_, Err(refusal)) => seen.add(&refused(refusal.number)),
        (Err(_), Ok(_)) => panic!("a line of a text that is refused"),
    }
}

fn add_plan(seen: &mut Seen, plan: &Plan, line: &[u8]) {
    let tasks = plan.tasks.len();
    let way = way(tasks);
    seen.add(way);
    for (what, told) in told(Chosen::of(&plan.tasks)) {
        if told {
            seen.add(&format!("{way}: {what}"));
        }
    }
    for (kind, met) in [
        (NO_TASKS, tasks == 0),
        (ONE_TASK, tasks == 1),
        (ALL_TASKS, tasks == TASK_LIMIT),
        (TIED, plan.has_masks()),
        (SECOND_FORM, plan.form != Form::First),
        (NO_COST, tasks > 0 && line.starts_with(b"0\t")),
        (LONGEST, line.len() == LONGEST_LINE),
    ] {
        if met {
            seen.add(kind);
        }
    }
}

fn add_call(seen: &mut Seen, line: &[u8], room: usize) {
    if room + 1 == line.len() {
        seen.add(ONE_SHORT);
    }
    seen.add(match room {
        room if room < line.len() => TOO_SHORT,
        room if room == line.len() => EXACT,
        _ => LONGER,
    });
}

/// A text with few tasks, many or all, with conflicts and costs of all kinds; or any
/// text, mostly a damaged one.
fn random_text(rng: &mut Rng) -> Vec<u8> {
    let count = match rng.below(16) {
        0..=7 => rng.between(0, SEARCHED as u64),
        8..=11 => rng.between(SEARCHED as u64 + 1, 40),
        12..=14 => rng.between(41, 127),
        _ => 128,
    };
    match rng.below(400) {
        0 => longest_plan(rng),
        1..=69 => check::random_text(rng),
        70..=99 => damaged_chained(rng, count),
        _ => chained(rng, count),
    }
}

/// 128 tasks of the highest cost that all write one address.
pub fn longest_plan(rng: &mut Rng) -> Vec<u8> {
    let task = format!("T\tx\t1000\tw{}\n", rng.below(65_536));
    [b"W\t1\n", task.repeat(TASK_LIMIT).as_bytes()].concat()
}

/// Compares the calls on a text with outputs of all lengths around that of its line.
fn compare_text(text: &[u8], rng: &mut Rng, seen: &mut Seen) -> Result<(), String> {
    let line = line(text);
    add_text(seen, text, &line);
    let length = line.as_ref().map_or(4, Vec::len);
    let any = [0, 1, rng.index(length), length + rng.index(400)];
    for room in around(length).chain(any) {
        compare(text, &line, &used_output(room, rng.byte()))?.ok();
        if let Ok(line) = &line {
            add_call(seen, line, room);
        }
    }
    Ok(())
}
