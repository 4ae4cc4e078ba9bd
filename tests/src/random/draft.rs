//! A plan under construction: lines of fields, so that faults can be put into
//! single fields before the text is joined.

use std::fmt::Display;

use super::rng::Rng;

pub type Field = Vec<u8>;
pub type Line = Vec<Field>;

/// A line of its fields.
pub fn line(fields: &[&dyn Display]) -> Line {
    fields
        .iter()
        .map(|field| field.to_string().into_bytes())
        .collect()
}

pub fn join(lines: &[Line]) -> Vec<u8> {
    let mut text = Vec::new();
    for line in lines {
        text.extend(line.join(&b'\t'));
        text.push(b'\n');
    }
    text
}

pub fn is_task(line: &Line) -> bool {
    line.first().is_some_and(|field| field == b"T")
}

/// How the tasks of a plan hang together.
#[derive(Clone, Copy)]
pub enum Pattern {
    /// Random accesses over a few shared addresses.
    Mixed,
    /// Every task writes the same address.
    Chain,
    /// A writer and then readers, which become ready together at one worker.
    Fan,
    /// No accesses: worker 0 fills its own queue.
    Burst,
}

pub struct Tasks<'a> {
    pub count: u64,
    pub pattern: Pattern,
    pub addresses: &'a [u64],
    pub max_cost: u64,
    pub max_label: u64,
}

impl Tasks<'_> {
    pub fn lines(&self, rng: &mut Rng) -> Vec<Line> {
        (0..self.count)
            .map(|number| self.line(rng, number))
            .collect()
    }

    fn line(&self, rng: &mut Rng, number: u64) -> Line {
        let label = label(rng, self.max_label);
        let mut fields = line(&[&"T", &label, &rng.between(0, self.max_cost)]);
        fields.extend(self.accesses(rng, number));
        fields
    }

    fn accesses(&self, rng: &mut Rng, number: u64) -> Vec<Field> {
        let shared = self.addresses[0];
        match self.pattern {
            Pattern::Burst => Vec::new(),
            Pattern::Chain => vec![access(true, shared)],
            Pattern::Fan => vec![access(number == 0, shared)],
            Pattern::Mixed => {
                let mut addresses = self.addresses.to_vec();
                rng.shuffle(&mut addresses);
                let most = addresses.len().min(4) as u64;
                let count = rng.between(0, most) as usize;
                addresses[..count]
                    .iter()
                    .map(|&address| access(rng.one_in(2), address))
                    .collect()
            }
        }
    }
}

pub fn access(writes: bool, address: u64) -> Field {
    format!("{}{address}", if writes { 'w' } else { 'r' }).into_bytes()
}

pub fn label(rng: &mut Rng, max: u64) -> String {
    const LETTERS: &[u8] = b"abcdefghijklmnopqrstuvwxyzABCDEFGHIJKLMNOPQRSTUVWXYZ0123456789-";
    let length = rng.between(1, max);
    (0..length)
        .map(|_| char::from(rng.choose(LETTERS)))
        .collect()
}

/// Distinct addresses, the two ends of the range among them at times.
pub fn addresses(rng: &mut Rng, count: usize) -> Vec<u64> {
    let mut found: Vec<u64> = Vec::new();
    while found.len() < count {
        let address = match rng.below(8) {
            0 => 0,
            1 => 65_535,
            2 | 3 => rng.below(65_536),
            _ => rng.below(10),
        };
        if !found.contains(&address) {
            found.push(address);
        }
    }
    found
}

pub fn seed(rng: &mut Rng) -> u64 {
    match rng.below(6) {
        0 => 0,
        1 => u64::MAX,
        2 => rng.below(100),
        3 => 1 << rng.below(64),
        _ => rng.word(),
    }
}

/// The largest counts that a random order line uses.
#[derive(Clone, Copy)]
pub struct OrderSize {
    pub repeat: u64,
    pub rounds: u64,
    pub seeded: u64,
}

pub fn order_line(rng: &mut Rng, workers: u64, size: OrderSize) -> Line {
    match rng.below(3) {
        0 => line(&[&"P", &rng.below(workers), &rng.between(1, size.repeat)]),
        1 => line(&[&"R", &rng.between(1, size.rounds)]),
        _ => line(&[&"S", &seed(rng), &rng.between(1, size.seeded)]),
    }
}
