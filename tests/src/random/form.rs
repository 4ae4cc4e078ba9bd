//! Forms of a plan, with ring slots and queue capacities that matter.

use super::draft::{line, Line};
use super::Rng;
use crate::plan::Form;

/// As often the first form as the second.
pub fn form(rng: &mut Rng, workers: u64) -> Form {
    if rng.one_in(2) {
        Form::First
    } else {
        second_form(rng, workers)
    }
}

pub fn second_form(rng: &mut Rng, workers: u64) -> Form {
    Form::Second {
        slots: slots(rng, workers),
        capacity: capacity(rng),
    }
}

/// From the number of workers up, often with no slot or one to spare.
fn slots(rng: &mut Rng, workers: u64) -> u64 {
    match rng.below(8) {
        0..=2 => workers,
        3 => workers + 1,
        4 => workers + rng.below(5),
        5 => rng.choose(&[63, 64]),
        _ => rng.between(workers, 64),
    }
}

/// Often one of the ends.
fn capacity(rng: &mut Rng) -> u64 {
    match rng.below(8) {
        0 | 1 => 1,
        2 | 3 => 16,
        4 => rng.between(2, 4),
        5 => rng.between(7, 9),
        6 => rng.between(10, 15),
        _ => rng.between(1, 16),
    }
}

pub fn workers_line(workers: u64, form: Form) -> Line {
    match form {
        Form::First => line(&[&"W", &workers]),
        Form::Second { slots, capacity } => line(&[&"W", &workers, &slots, &capacity]),
    }
}

/// Slots and capacity behind the last field of the first line, whatever that has; a
/// text without a line feed stays as it is.
pub fn with_sizes(text: &[u8], slots: u64, capacity: u64) -> Vec<u8> {
    match text.iter().position(|&byte| byte == b'\n') {
        Some(end) => {
            let sizes = format!("\t{slots}\t{capacity}");
            [&text[..end], sizes.as_bytes(), &text[end..]].concat()
        }
        None => text.to_vec(),
    }
}

/// Draws until no line is a W line with slots and capacity. Such texts mean the
/// same, and are refused alike, where the second form is unknown.
pub fn first_form(rng: &mut Rng, draw: impl Fn(&mut Rng) -> Vec<u8>) -> Vec<u8> {
    loop {
        let text = draw(rng);
        if is_first_form(&text) {
            return text;
        }
    }
}

/// Whether no line is a W line with slots and capacity.
pub fn is_first_form(text: &[u8]) -> bool {
    text.split(|&byte| byte == b'\n').all(|line| {
        let mut fields = line.split(|&byte| byte == b'\t');
        fields.next() != Some(b"W") || fields.count() != 3
    })
}
