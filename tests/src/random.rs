//! Random plan texts of both forms, with M lines and without, accepted and damaged ones.

mod chains;
mod damage;
mod draft;
mod form;
mod masks;
mod rng;
mod sample;

pub use chains::{chain_sample, chained, damaged_chained};
pub use damage::damaged;
pub use form::{first_form, is_first_form, with_sizes};
pub use masks::{has_masks, with_everybody, with_masks, without_masks};
pub use rng::Rng;
pub use sample::sample;

use crate::plan::TEXT_LIMIT;
use draft::{addresses, join, line, order_line, Line, OrderSize, Pattern, Tasks};
use form::{form, workers_line};
use masks::tied;

/// Of nine plans of a shape, so many have M lines if they have tasks.
const TIED: u64 = 5;

#[derive(Clone, Copy, Debug, PartialEq, Eq)]
pub enum Shape {
    /// 1 to 4 workers and up to 6 tasks; up to 22 where a queue is to be full.
    Small,
    /// Up to 12 workers and 40 tasks.
    Medium,
    /// 32 workers and 128 tasks.
    Large,
    /// A text of 65,536 bytes or a few less.
    Full,
}

/// A text that is accepted.
pub fn plan(rng: &mut Rng, shape: Shape) -> Vec<u8> {
    match shape {
        Shape::Small => join(&small(rng)),
        Shape::Medium => join(&medium(rng)),
        Shape::Large => join(&large(rng)),
        Shape::Full => full(rng),
    }
}

fn small(rng: &mut Rng) -> Vec<Line> {
    let workers = rng.between(1, 4);
    let form = form(rng, workers);
    let capacity = form.capacity();
    let (pattern, count) = match rng.below(14) {
        0..=2 => (Pattern::Fan, rng.between(capacity + 2, capacity + 6)),
        3..=5 => (Pattern::Burst, rng.between(capacity + 1, capacity + 6)),
        6 => (Pattern::Chain, rng.between(1, 6)),
        _ => (Pattern::Mixed, rng.between(0, 6)),
    };
    let pool = rng.between(1, 3) as usize;
    let tasks = Tasks {
        count,
        pattern,
        addresses: &addresses(rng, pool),
        max_cost: rng.choose(&[0, 1, 3]),
        max_label: 4,
    };
    let mut lines = vec![workers_line(workers, form)];
    let tasks = tasks.lines(rng);
    lines.extend(tied(rng, TIED, workers, tasks));
    if matches!(pattern, Pattern::Fan | Pattern::Burst) || rng.one_in(4) {
        lines.extend(opening(rng, workers, capacity));
    }
    let size = OrderSize {
        repeat: 12,
        rounds: 8,
        seeded: 40,
    };
    add_orders(rng, &mut lines, workers, size, 8, 300);
    lines
}

/// Order lines, up to `most`, and perhaps a last one of up to `rounds` rounds.
fn add_orders(
    rng: &mut Rng,
    lines: &mut Vec<Line>,
    workers: u64,
    size: OrderSize,
    most: u64,
    rounds: u64,
) {
    for _ in 0..rng.below(most + 1) {
        lines.push(order_line(rng, workers, size));
    }
    if rng.one_in(2) {
        lines.push(line(&[&"R", &rng.between(1, rounds)]));
    }
}

/// Worker 0 creates alone for a while, perhaps with the last one in its way: so a
/// queue of this capacity gets full, and the try of the lock wins or fails.
fn opening(rng: &mut Rng, workers: u64, capacity: u64) -> Vec<Line> {
    let mut lines = Vec::new();
    if rng.one_in(2) {
        lines.push(line(&[&"P", &(workers - 1), &rng.between(1, 3)]));
    }
    let times = rng.between(2 * capacity + 4, 4 * capacity + 28);
    lines.push(line(&[&"P", &0, &times]));
    // Then the last one alone: after a fan's writer the readers are its to add.
    if rng.one_in(2) {
        let times = rng.between(3 * capacity + 6, 3 * capacity + 56);
        lines.push(line(&[&"P", &(workers - 1), &times]));
    }
    lines
}

fn medium(rng: &mut Rng) -> Vec<Line> {
    let workers = rng.between(1, 12);
    let form = form(rng, workers);
    let pattern = rng.choose(&[
        Pattern::Mixed,
        Pattern::Mixed,
        Pattern::Mixed,
        Pattern::Fan,
        Pattern::Burst,
    ]);
    let pool = rng.between(1, 8) as usize;
    let tasks = Tasks {
        count: rng.between(0, 40),
        pattern,
        addresses: &addresses(rng, pool),
        max_cost: rng.choose(&[0, 3, 20, 100]),
        max_label: 16,
    };
    let mut lines = vec![workers_line(workers, form)];
    let tasks = tasks.lines(rng);
    lines.extend(tied(rng, TIED, workers, tasks));
    if matches!(pattern, Pattern::Fan | Pattern::Burst) || rng.one_in(3) {
        lines.extend(opening(rng, workers, form.capacity()));
    }
    let size = OrderSize {
        repeat: 60,
        rounds: 40,
        seeded: 600,
    };
    add_orders(rng, &mut lines, workers, size, 24, 4_000);
    lines
}

fn large(rng: &mut Rng) -> Vec<Line> {
    let mut lines = large_tasks(rng, 32);
    let size = OrderSize {
        repeat: 4_096,
        rounds: 500,
        seeded: 20_000,
    };
    for _ in 0..rng.between(10, 60) {
        lines.push(order_line(rng, 32, size));
    }
    if rng.one_in(2) {
        lines.push(longest_line(rng));
    }
    lines
}

/// The W line and 128 tasks.
fn large_tasks(rng: &mut Rng, workers: u64) -> Vec<Line> {
    let pool = rng.choose(&[1, 4, 20, 200]);
    let pattern = rng.choose(&[
        Pattern::Mixed,
        Pattern::Mixed,
        Pattern::Mixed,
        Pattern::Fan,
        Pattern::Burst,
    ]);
    let tasks = Tasks {
        count: 128,
        pattern,
        addresses: &addresses(rng, pool),
        max_cost: rng.choose(&[0, 10, 100, 1_000]),
        max_label: 16,
    };
    let mut lines = vec![workers_line(workers, form(rng, workers))];
    let tasks = tasks.lines(rng);
    lines.extend(tied(rng, TIED, workers, tasks));
    lines
}

/// A line with the largest count; a run all but surely finishes within it.
fn longest_line(rng: &mut Rng) -> Line {
    if rng.one_in(2) {
        line(&[&"R", &1_000_000])
    } else {
        line(&[&"S", &draft::seed(rng), &1_000_000])
    }
}

fn full(rng: &mut Rng) -> Vec<u8> {
    let size = TEXT_LIMIT - rng.choose(&[0, 0, 0, 1, 2, 3]);
    plan_of_size(rng, size)
}

/// A text of exactly so many bytes, 10,000 at least, that is accepted if it isn't too long.
pub fn plan_of_size(rng: &mut Rng, size: usize) -> Vec<u8> {
    let workers = rng.between(1, 32);
    let mut text = join(&large_tasks(rng, workers));
    fill(rng, &mut text, workers, size);
    text
}

/// Order lines up to exactly `size` bytes, where at least 4 bytes are left.
fn fill(rng: &mut Rng, text: &mut Vec<u8>, workers: u64, size: usize) {
    let style = rng.below(4);
    while text.len() + 40 < size {
        let order = match style {
            0 => line(&[&"R", &1]),
            1 => line(&[&"S", &u64::MAX, &rng.between(1, 100)]),
            2 => line(&[&"P", &(workers - 1), &rng.between(1, 4_096)]),
            _ => order_line(
                rng,
                workers,
                OrderSize {
                    repeat: 4_096,
                    rounds: 9,
                    seeded: 99,
                },
            ),
        };
        text.extend(join(&[order]));
    }
    while text.len() + 8 <= size {
        text.extend(b"R\t1\n");
    }
    let last = ["R\t1\n", "R\t10\n", "R\t100\n", "R\t1000\n"];
    if let Some(line) = last.iter().find(|line| text.len() + line.len() == size) {
        text.extend(line.bytes());
    }
}
