//! Plans whose chains matter: conflicts of many kinds, and costs with many equal sums.

use super::damage::{damage_bytes, faults};
use super::draft::{access, join, label, line, order_line, Field, Line, OrderSize};
use super::form::{form, workers_line};
use super::masks::tied;
use super::{Rng, TIED};
use crate::plan::{check, ACCESS_LIMIT};

/// The largest sample: bytes and tasks. All chains of so many can be listed.
const BYTES: usize = 300;
const TASKS: usize = 8;

/// A text that is accepted, with so many tasks.
pub fn chained(rng: &mut Rng, count: u64) -> Vec<u8> {
    join(&lines(rng, count))
}

/// Such a text with faults. Most are refused.
pub fn damaged_chained(rng: &mut Rng, count: u64) -> Vec<u8> {
    let mut lines = lines(rng, count);
    faults(rng, &mut lines, false);
    let mut text = join(&lines);
    if rng.one_in(4) {
        damage_bytes(rng, &mut text);
    }
    text
}

/// The small text of a seed; about one in six is damaged.
pub fn chain_sample(seed: u64) -> Vec<u8> {
    let rng = &mut Rng::new(seed);
    let draw = if rng.one_in(6) {
        damaged_chained
    } else {
        chained
    };
    let count = match rng.below(12) {
        few @ 0..2 => few,
        _ => rng.between(3, TASKS as u64),
    };
    loop {
        let text = draw(rng, count);
        let few = check(&text).map_or(true, |plan| plan.tasks.len() <= TASKS);
        if text.len() <= BYTES && few {
            return text;
        }
    }
}

fn lines(rng: &mut Rng, count: u64) -> Vec<Line> {
    let workers = rng.between(1, 8);
    let form = form(rng, workers);
    let (web, costs) = (Web::draw(rng, count), Costs::draw(rng));
    let addresses = rng.choose(&ADDRESSES);
    let tasks = (0..count).map(|number| {
        let cost = costs.draw_one(rng);
        let mut task = line(&[&"T", &label(rng, 3), &cost]);
        task.extend(web.accesses(rng, addresses, number));
        task
    });
    let tasks = tasks.collect();
    let mut lines = vec![workers_line(workers, form)];
    lines.extend(tied(rng, TIED, workers, tasks));
    let size = OrderSize {
        repeat: 4_096,
        rounds: 1_000,
        seeded: 1_000,
    };
    for _ in 0..rng.below(3) {
        lines.push(order_line(rng, workers, size));
    }
    lines
}

/// The first of 512 addresses, and the step to the next.
#[derive(Clone, Copy)]
struct Addresses {
    first: u64,
    step: u64,
}

/// Both ends of the range, and addresses that differ in their high bits alone.
const ADDRESSES: [Addresses; 4] = [
    Addresses { first: 0, step: 1 },
    Addresses {
        first: 65_024,
        step: 1,
    },
    Addresses {
        first: 0,
        step: 128,
    },
    Addresses {
        first: 127,
        step: 128,
    },
];

impl Addresses {
    fn access(self, writes: bool, place: u64) -> Field {
        access(writes, self.first + place * self.step)
    }
}

/// How the tasks of one plan come to conflict.
#[derive(Clone, Copy)]
enum Web {
    /// Any of so many addresses, read or one in so many times written.
    Shared { addresses: u64, writes: u64 },
    /// Layers of so many tasks, each of which reads what most of the layer before wrote.
    Layers { width: u64 },
    /// So many groups, each with an address that its tasks write and now and then read.
    Groups { groups: u64 },
}

impl Web {
    fn draw(rng: &mut Rng, count: u64) -> Web {
        let many = count.max(4);
        let (addresses, writes) = match rng.below(10) {
            0 => (rng.between(1, 2), rng.between(1, 2)),
            1 | 2 => (rng.between(2, 4), rng.between(1, 3)),
            3 => (rng.between(1, 4), rng.between(5, 20)),
            4 => (rng.between(3, 12), rng.between(2, 3)),
            5 => (rng.between(many, 4 * many), rng.between(1, 3)),
            6..=8 => {
                let width = rng.between(1, many.min(20) / 4);
                return Web::Layers { width };
            }
            _ => {
                let groups = rng.between(1, many);
                return Web::Groups { groups };
            }
        };
        Web::Shared { addresses, writes }
    }

    fn accesses(self, rng: &mut Rng, addresses: Addresses, number: u64) -> Vec<Field> {
        match self {
            Web::Shared {
                addresses: shared,
                writes,
            } => {
                let mut places: Vec<u64> = (0..shared).collect();
                rng.shuffle(&mut places);
                places.truncate(rng.index(ACCESS_LIMIT + 1));
                let uses = places.iter();
                uses.map(|&place| addresses.access(rng.one_in(writes), place))
                    .collect()
            }
            Web::Layers { width } => {
                let layer = number / width;
                let before = layer.saturating_sub(1) * width..layer * width;
                let mut read: Vec<u64> = before.filter(|_| !rng.one_in(4)).collect();
                read.truncate(ACCESS_LIMIT - 1);
                let reads = read.iter().map(|&place| addresses.access(false, place));
                let own = addresses.access(true, number);
                reads.chain([own]).collect()
            }
            Web::Groups { groups } => {
                let writes = !rng.one_in(4);
                vec![addresses.access(writes, rng.below(groups))]
            }
        }
    }
}

/// The costs of one plan.
#[derive(Clone, Copy)]
enum Costs {
    Same(u64),
    /// One in so many has this cost, the others have none.
    Some {
        one_in: u64,
        cost: u64,
    },
    UpTo(u64),
}

impl Costs {
    fn draw(rng: &mut Rng) -> Costs {
        let cost = rng.choose(&[1, 9, 10, 500, 1_000]);
        match rng.below(20) {
            0 => Costs::Same(0),
            1 | 2 => Costs::Same(cost),
            3..=6 => Costs::Some { one_in: 2, cost },
            7..=9 => Costs::Some { one_in: 3, cost },
            10 => Costs::Some { one_in: 8, cost },
            11..=14 => Costs::UpTo(2),
            15 | 16 => Costs::UpTo(9),
            _ => Costs::UpTo(1_000),
        }
    }

    fn draw_one(self, rng: &mut Rng) -> u64 {
        match self {
            Costs::Same(cost) => cost,
            Costs::Some { one_in, cost } => cost * u64::from(rng.one_in(one_in)),
            Costs::UpTo(most) => rng.between(0, most),
        }
    }
}
