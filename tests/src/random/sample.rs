//! Small texts that a slow interpreter can compute too.

use super::damage::{damage_bytes, faults, mask_faults, workers_faults};
use super::draft::{join, line, seed, Line, Pattern, Tasks};
use super::form::{form, workers_line};
use super::masks::tied;
use super::Rng;
use crate::plan::check;

/// The largest sample: bytes, picks of the order lines, workers, tasks, cost.
const BYTES: usize = 400;
const PICKS: u64 = 300;
const WORKERS: u64 = 6;
const TASKS: usize = 20;
const COST: u64 = 3;
/// Of nine samples so many have M lines: few can be computed, and they should show much.
const TIED: u64 = 7;

/// The sample of a seed; about one in four is damaged.
pub fn sample(seed: u64) -> Vec<u8> {
    let rng = &mut Rng::new(seed);
    let spoil = rng.one_in(4);
    loop {
        let mut lines = sound(rng);
        if spoil {
            match rng.below(10) {
                0 => {}
                1 => workers_faults(rng, &mut lines),
                2 | 3 => mask_faults(rng, &mut lines, 0, false),
                _ => faults(rng, &mut lines, false),
            }
        }
        let mut text = join(&lines);
        if spoil && rng.one_in(8) {
            damage_bytes(rng, &mut text);
        }
        // Few harmless changes are wanted.
        let harmless = spoil && check(&text).is_ok() && !rng.one_in(6);
        if text.len() <= BYTES && quick(&text) && !harmless {
            return text;
        }
    }
}

/// Refused, or soon computed: a change may have raised a number.
fn quick(text: &[u8]) -> bool {
    check(text).map_or(true, |plan| {
        let picks: u64 = plan
            .orders
            .iter()
            .map(|order| order.picks(plan.workers))
            .sum();
        picks <= PICKS
            && plan.workers <= WORKERS
            && plan.tasks.len() <= TASKS
            && plan.tasks.iter().all(|task| task.cost <= COST)
    })
}

fn sound(rng: &mut Rng) -> Vec<Line> {
    let kind = rng.below(9);
    let workers = match kind {
        0..=2 => rng.between(2, 3),
        3 => rng.between(1, 4),
        4 => rng.between(1, 3),
        _ => rng.between(1, 6),
    };
    let form = form(rng, workers);
    let capacity = form.capacity();
    let (pattern, count) = match kind {
        0..=2 => (Pattern::Burst, rng.between(capacity + 1, capacity + 4)),
        3 => (Pattern::Fan, rng.between(2, 8)),
        4 => (Pattern::Chain, rng.between(1, 5)),
        5 => (Pattern::Burst, rng.between(0, 8)),
        _ => (Pattern::Mixed, rng.between(0, 8)),
    };
    let pool: &[u64] = if rng.one_in(2) {
        &[5, 7]
    } else {
        &[5, 65_535, 0]
    };
    let tasks = Tasks {
        count,
        pattern,
        addresses: pool,
        max_cost: rng.between(0, COST),
        max_label: 3,
    };
    let mut lines = vec![workers_line(workers, form)];
    let tasks = tasks.lines(rng);
    lines.extend(tied(rng, TIED, workers, tasks));
    lines.extend(orders(rng, workers, (kind < 3).then_some(capacity)));
    lines
}

/// Order lines within the budget of picks. Where a queue of some capacity is to be
/// full worker 0 comes first.
fn orders(rng: &mut Rng, workers: u64, full: Option<u64>) -> Vec<Line> {
    let mut left = if rng.one_in(3) {
        rng.between(0, 80)
    } else {
        PICKS
    };
    let mut lines = Vec::new();
    let mut spend = |lines: &mut Vec<Line>, line: Line, picks: u64| {
        if picks <= left {
            left -= picks;
            lines.push(line);
        }
    };
    if let Some(capacity) = full {
        if rng.one_in(2) {
            let times = rng.between(1, 3);
            spend(&mut lines, line(&[&"P", &(workers - 1), &times]), times);
        }
        let times = 3 * capacity + rng.between(3, 21);
        spend(&mut lines, line(&[&"P", &0, &times]), times);
    }
    for _ in 0..rng.below(6) {
        match rng.below(3) {
            0 => {
                let times = rng.between(1, 20);
                spend(
                    &mut lines,
                    line(&[&"P", &rng.below(workers), &times]),
                    times,
                );
            }
            1 => {
                let rounds = rng.between(1, 15);
                spend(&mut lines, line(&[&"R", &rounds]), rounds * workers);
            }
            _ => {
                let times = rng.between(1, 60);
                spend(&mut lines, line(&[&"S", &seed(rng), &times]), times);
            }
        }
    }
    let rounds = rng.between(1, 60);
    spend(&mut lines, line(&[&"R", &rounds]), rounds * workers);
    lines
}
