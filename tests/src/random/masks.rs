//! M lines: which workers may run the tasks of a random plan.

use super::draft::{join, line, Line};
use super::Rng;

/// How the tasks of one plan are tied to workers.
#[derive(Clone, Copy)]
enum Ties {
    /// Every task has one worker, each its own.
    OneEach,
    /// Every task has the same worker.
    SameOne(u64),
    /// One task in four has one worker, the others have no M line.
    FewTasks,
    /// Every task has two workers or three.
    FewWorkers,
    /// Every task names all workers, which ties it to none.
    Everybody,
    /// Anything, and now and then no M line.
    Mixed,
}

impl Ties {
    fn draw(rng: &mut Rng, workers: u64) -> Ties {
        match rng.below(10) {
            0..=2 => Ties::OneEach,
            3 => Ties::SameOne(rng.below(workers)),
            4 | 5 => Ties::FewTasks,
            6 => Ties::FewWorkers,
            7 => Ties::Everybody,
            _ => Ties::Mixed,
        }
    }

    /// The mask of the next task, if it has one.
    fn mask(self, rng: &mut Rng, workers: u64) -> Option<u64> {
        match self {
            Ties::OneEach => Some(one(rng, workers)),
            Ties::SameOne(worker) => Some(1 << worker),
            Ties::FewTasks => rng.one_in(4).then(|| one(rng, workers)),
            Ties::FewWorkers => Some(few(rng, workers)),
            Ties::Everybody => Some(everybody(workers)),
            Ties::Mixed => (!rng.one_in(4)).then(|| mask(rng, workers)),
        }
    }
}

/// The T lines, with M lines behind them in so many of nine cases.
pub fn tied(rng: &mut Rng, of_nine: u64, workers: u64, tasks: Vec<Line>) -> Vec<Line> {
    if rng.below(9) >= of_nine {
        return tasks;
    }
    let ties = Ties::draw(rng, workers);
    let mut lines = Vec::with_capacity(2 * tasks.len());
    for task in tasks {
        lines.push(task);
        lines.extend(ties.mask(rng, workers).map(mask_line));
    }
    lines
}

pub fn mask_line(mask: u64) -> Line {
    line(&[&"M", &mask])
}

/// Any mask that names a worker, and no worker that there is not.
pub fn mask(rng: &mut Rng, workers: u64) -> u64 {
    match rng.below(6) {
        0 | 1 => one(rng, workers),
        2 => few(rng, workers),
        3 => everybody(workers),
        4 => everybody(workers) & !one(rng, workers) | 1,
        _ => rng.between(1, everybody(workers)),
    }
}

fn one(rng: &mut Rng, workers: u64) -> u64 {
    1 << rng.below(workers)
}

/// Two draws or three; some may be the same worker.
fn few(rng: &mut Rng, workers: u64) -> u64 {
    (0..rng.between(2, 3)).fold(0, |mask, _| mask | one(rng, workers))
}

pub fn everybody(workers: u64) -> u64 {
    (1 << workers) - 1
}

/// Draws until no line is an M line. Such texts mean the same, and are refused
/// alike, where M lines are unknown.
pub fn without_masks(rng: &mut Rng, draw: impl Fn(&mut Rng) -> Vec<u8>) -> Vec<u8> {
    loop {
        let text = draw(rng);
        if !has_masks(&text) {
            return text;
        }
    }
}

/// Draws until a line is an M line.
pub fn with_masks(rng: &mut Rng, draw: impl Fn(&mut Rng) -> Vec<u8>) -> Vec<u8> {
    loop {
        let text = draw(rng);
        if has_masks(&text) {
            return text;
        }
    }
}

/// Whether the first field of some line is `M`.
pub fn has_masks(text: &[u8]) -> bool {
    let mut lines = text.split(|&byte| byte == b'\n');
    lines.any(|line| line == b"M" || line.starts_with(b"M\t"))
}

/// The text with an M line of all workers behind each T line, which changes nothing of
/// what an accepted plan without M lines means.
pub fn with_everybody(text: &[u8], workers: u64) -> Vec<u8> {
    let mut tied = Vec::with_capacity(2 * text.len());
    for line in text.split_inclusive(|&byte| byte == b'\n') {
        tied.extend(line);
        if line.starts_with(b"T\t") {
            tied.extend(join(&[mask_line(everybody(workers))]));
        }
    }
    tied
}
