//! The random plans are what they are said to be, and hit what matters.

use std::collections::BTreeMap;

use second::machine::{Counters, Machine, Place};
use second::order::Picks;
use second::plan::{check, Form, Order, Plan};
use second::random::{
    damaged, first_form, has_masks, is_first_form, plan, sample, with_masks, without_masks, Rng,
    Shape,
};
use second::run::play;

fn texts(shape: Shape, count: usize, seed: u64) -> Vec<Vec<u8>> {
    let rng = &mut Rng::new(seed);
    (0..count).map(|_| plan(rng, shape)).collect()
}

fn played(plan: &Plan) -> Machine {
    play(plan, u64::MAX)
}

/// What a run came through, which its last state may not show.
#[derive(Default)]
struct Passed {
    /// A worker other than 0 tried the lock.
    other_tried: bool,
    /// The lock was spoken for; of that, for a worker that had not registered; for one whose
    /// cell was filled for an earlier ticket; beside a served one that had not looked.
    spoken_for: bool,
    unregistered: bool,
    old_cell: bool,
    beside_served: bool,
    /// It was free, and a served worker had not looked.
    served_free: bool,
}

impl Passed {
    fn add(&mut self, machine: &Machine) {
        let served = machine.served_to_look();
        if let Some(due) = machine.due() {
            let place = machine.workers[due].place;
            self.spoken_for = true;
            self.unregistered |= matches!(place, Place::Register(_));
            self.old_cell |= machine.lock.cells[due].0 > 0;
            self.beside_served |= served;
        }
        self.served_free |= served && machine.lock.free();
    }
}

/// Plays step by step, and tells what the run came through.
fn watched(plan: &Plan) -> (Machine, Passed) {
    let mut machine = Machine::new(plan);
    let mut passed = Passed::default();
    for worker in Picks::new(plan) {
        if machine.finished() {
            break;
        }
        passed.other_tried |= worker > 0 && machine.workers[worker].place == Place::TryLock;
        machine.step(worker);
        passed.add(&machine);
    }
    (machine, passed)
}

/// Whether the run got as far as a seeded line.
fn reached_seeded(plan: &Plan, picks: u64) -> bool {
    let mut before = 0;
    plan.orders.iter().any(|order| {
        let reached = matches!(order, Order::Seeded { .. }) && picks > before;
        before += order.picks(plan.workers);
        reached
    })
}

/// In how many runs each thing happened.
#[derive(Default, Debug)]
struct Seen(BTreeMap<&'static str, usize>);

impl Seen {
    fn add(&mut self, name: &'static str, happened: bool) {
        *self.0.entry(name).or_default() += usize::from(happened);
    }

    fn add_run(&mut self, plan: &Plan, machine: &Machine) {
        let Counters {
            full_queue,
            tries_won,
            tries_failed,
            passes,
            notices,
            served,
            own_receipts,
            cell_receipts,
            served_past,
            taken_past,
            stopped_serving,
            left_ready,
        } = machine.counters;
        self.add("full queue", full_queue > 0);
        self.add("try won", tries_won > 0);
        self.add("try failed", tries_failed > 0);
        self.add("pass message", passes > 0);
        self.add("notice", notices > 0);
        self.add("served", served > 0);
        self.add("receipt by the owner", own_receipts > 0);
        self.add("receipt from a cell", cell_receipts > 0);
        self.add("served past the first ready task", served_past > 0);
        self.add("taken past the first ready task", taken_past > 0);
        self.add("stopped serving", stopped_serving > 0);
        self.add("left with tasks ready", left_ready > 0);
        self.add("seeded pick", reached_seeded(plan, machine.picks));
        self.add(
            "finished with tasks",
            machine.finished() && !plan.tasks.is_empty(),
        );
        self.add("open", !machine.finished());
    }

    /// How the lock stood on the way, and whether it is spoken for in the report.
    fn add_lock(&mut self, machine: &Machine, passed: &Passed) {
        self.add("spoken for", passed.spoken_for);
        self.add("spoken for before registering", passed.unregistered);
        self.add("spoken for with an old cell", passed.old_cell);
        self.add("spoken for beside a served one", passed.beside_served);
        self.add("free beside a served one", passed.served_free);
        self.add("reported as spoken for", machine.due().is_some());
    }

    /// What a plan of the second form has, and does with it.
    fn add_sizes(&mut self, plan: &Plan, machine: &Machine) {
        let Form::Second { slots, capacity } = plan.form else {
            return;
        };
        let (full, lap) = (
            machine.counters.full_queue > 0,
            machine.lock.tail > 2 * slots,
        );
        let tight = slots == plan.workers;
        self.add("as many slots as workers", tight);
        self.add("one slot more", slots == plan.workers + 1);
        self.add("no power of two", !slots.is_power_of_two());
        self.add("a second lap", lap);
        self.add("a second lap with no slot to spare", lap && tight);
        self.add("capacity 1", capacity == 1);
        self.add("capacity 16", capacity == 16);
        self.add("a full queue of 1", full && capacity == 1);
        self.add("a full queue of 2 to 7", full && (2..8).contains(&capacity));
        self.add("a full queue of more than 8", full && capacity > 8);
    }

    /// Which masks a plan has.
    fn add_masks(&mut self, plan: &Plan) {
        let masks = plan.tasks.iter().filter_map(|task| task.mask);
        let ones: Vec<u64> = masks.map(|mask| u64::from(mask.count_ones())).collect();
        let (tied, all) = (ones.len(), plan.tasks.len());
        let several = plan.workers > 1;
        self.add("tasks and no M line", tied == 0 && all > 0);
        self.add("an M line for some tasks", (1..all).contains(&tied));
        self.add("an M line for each task", tied == all && all > 0);
        self.add("one worker of several", several && ones.contains(&1));
        let few = |&ones: &u64| ones > 1 && ones < plan.workers;
        self.add("some workers", ones.iter().any(few));
        self.add("all workers", several && ones.contains(&plan.workers));
        let same = plan.tasks.iter().all(|task| {
            task.mask.is_some_and(u64::is_power_of_two) && task.mask == plan.tasks[0].mask
        });
        self.add("the same worker for each task", several && all > 1 && same);
    }

    fn each_at_least(&self, count: usize) {
        for (name, &runs) in &self.0 {
            assert!(runs >= count, "{name}: {runs} runs; {self:?}");
        }
    }
}

#[test]
fn same_seed_same_text() {
    for shape in [Shape::Small, Shape::Medium, Shape::Large, Shape::Full] {
        assert_eq!(texts(shape, 3, 9), texts(shape, 3, 9));
    }
    assert_eq!(damaged(&mut Rng::new(4)), damaged(&mut Rng::new(4)));
    assert_eq!(sample(4), sample(4));
}

#[test]
fn shapes_are_accepted() {
    for (shape, count) in [
        (Shape::Small, 2_000),
        (Shape::Medium, 1_000),
        (Shape::Large, 60),
        (Shape::Full, 60),
    ] {
        for text in texts(shape, count, 3) {
            let plan = check(&text).unwrap_or_else(|refusal| panic!("{shape:?}: {refusal:?}"));
            match shape {
                Shape::Small => assert!(plan.workers <= 4 && plan.tasks.len() <= 22),
                Shape::Medium => assert!(plan.workers <= 12 && plan.tasks.len() <= 40),
                Shape::Large => assert!(plan.workers == 32 && plan.tasks.len() == 128),
                Shape::Full => assert!(text.len() >= 65_533),
            }
        }
    }
    assert!(texts(Shape::Full, 60, 3)
        .iter()
        .any(|text| text.len() == 65_536));
}

#[test]
fn small_and_medium_runs_hit_what_matters() {
    for (shape, seed) in [(Shape::Small, 5), (Shape::Medium, 6)] {
        let mut seen = Seen::default();
        for text in texts(shape, 1_000, seed) {
            let plan = check(&text).unwrap();
            let (machine, passed) = watched(&plan);
            seen.add_run(&plan, &machine);
            seen.add_lock(&machine, &passed);
            seen.add("try by another than worker 0", passed.other_tried);
            seen.add("first form", plan.form == Form::First);
            seen.add_sizes(&plan, &machine);
            seen.add_masks(&plan);
            let waited = machine.counters.left_ready > 0 && machine.finished();
            seen.add("left with tasks ready, and finished", waited);
        }
        seen.each_at_least(20);
    }
}

/// Two plans in five have an M line, those of every shape; they can be drawn with M
/// lines and without.
#[test]
fn plans_with_masks_and_without() {
    for (shape, count) in [
        (Shape::Small, 1_000),
        (Shape::Medium, 1_000),
        (Shape::Large, 60),
        (Shape::Full, 60),
    ] {
        let texts = texts(shape, count, 12);
        let tied = texts.iter().filter(|text| has_masks(text)).count();
        assert!(
            (2 * count / 5..=3 * count / 5).contains(&tied),
            "{shape:?}: {tied}"
        );
        let rng = &mut Rng::new(13);
        for _ in 0..20 {
            let tied = with_masks(rng, |rng| plan(rng, shape));
            assert!(check(&tied).unwrap().has_masks());
            let free = without_masks(rng, |rng| plan(rng, shape));
            assert!(!check(&free).unwrap().has_masks());
        }
    }
    assert!(has_masks(b"M") && has_masks(b"M\t1\n") && has_masks(b"W\t1\nM\t\t\n"));
    assert!(!has_masks(b"W\t1\nT\tM\t0\nm\t1\nMM\t1\n\tM\t1\n"));
}

/// Texts drawn without M lines: none at any place, damaged or not, and every refusal
/// but 11 is met.
#[test]
fn without_masks_alone() {
    let rng = &mut Rng::new(14);
    let mut counts = [0usize; 12];
    for _ in 0..3_000 {
        let text = without_masks(rng, |rng| match rng.below(3) {
            0 => plan(rng, Shape::Small),
            _ => damaged(rng),
        });
        assert!(!text
            .split(|&byte| byte == b'\n')
            .any(|line| line.starts_with(b"M\t")));
        if let Err(refusal) = check(&text) {
            counts[usize::from(refusal.number)] += 1;
        }
    }
    let often = |&number: &usize| counts[number] >= 50;
    assert!([1, 2, 3, 4, 5, 6, 9].iter().all(often), "{counts:?}");
    assert_eq!(counts[11], 0);
}

/// A text drawn as one of the first form has no W line with sizes, whether it is
/// refused or not; every refusal of the reader but 9 is met.
#[test]
fn first_form_alone() {
    let rng = &mut Rng::new(11);
    let mut counts = [0usize; 12];
    for _ in 0..2_000 {
        let text = first_form(rng, |rng| match rng.below(3) {
            0 => plan(rng, Shape::Small),
            _ => damaged(rng),
        });
        assert!(is_first_form(&text));
        match check(&text) {
            Ok(plan) => assert_eq!(plan.form, Form::First),
            Err(refusal) => counts[usize::from(refusal.number)] += 1,
        }
    }
    let often = |&number: &usize| counts[number] >= 50;
    assert!([1, 2, 3, 4, 5, 6, 11].iter().all(often), "{counts:?}");
    assert_eq!(counts[9], 0);
    assert!(!is_first_form(b"W\t1\t1\t1\n"));
    assert!(!is_first_form(b"W\t1\nR\t1\nW\tx\t\t1\n"));
    assert!(is_first_form(b"W\t1\nW\t1\t1\nW\t1\t1\t1\t1\nP\t0\t1\t1\n"));
}

#[test]
fn large_runs() {
    let mut finished = 0;
    for text in texts(Shape::Large, 12, 7) {
        finished += usize::from(played(&check(&text).unwrap()).finished());
    }
    assert!(finished >= 3, "{finished}");
}

#[test]
fn damaged_texts_give_each_refusal_often() {
    let rng = &mut Rng::new(8);
    let mut counts = [0usize; 12];
    for _ in 0..4_000 {
        let number = check(&damaged(rng)).map_or_else(|refusal| refusal.number, |_| 0);
        counts[usize::from(number)] += 1;
    }
    let often = |&number: &usize| counts[number] >= 200;
    assert!([1, 2, 3, 4, 5, 6, 9, 11].iter().all(often), "{counts:?}");
    assert!(counts[0] <= 1_500, "{counts:?}");
}

/// Damaged W lines of three numbers: each refusal that one can have, and 9 for
/// one slot too few.
#[test]
fn damaged_sizes() {
    let rng = &mut Rng::new(9);
    let mut counts = [0usize; 12];
    let mut one_too_few = 0;
    for _ in 0..4_000 {
        let text = damaged(rng);
        let line = text.split(|&byte| byte == b'\n').next().unwrap_or_default();
        let fields: Vec<&[u8]> = line.split(|&byte| byte == b'\t').collect();
        if fields[0] != b"W" || fields.len() < 3 {
            continue;
        }
        let number = match check(&text) {
            Err(refusal) if refusal.line == 1 => refusal.number,
            _ => 0,
        };
        counts[usize::from(number)] += 1;
        let value = |field: &[u8]| std::str::from_utf8(field).map_or(0, |f| f.parse().unwrap_or(0));
        one_too_few += u64::from(number == 9 && value(fields[1]) == value(fields[2]) + 1);
    }
    let often = |&number: &usize| counts[number] >= 100;
    assert!([1, 2, 9].iter().all(often), "{counts:?}");
    assert!(one_too_few >= 100, "{one_too_few}");
}

/// The fault of the refused line, if that is an M line, as its text shows it.
fn mask_fault(text: &[u8], number: u8, line: u64) -> Option<&'static str> {
    let lines: Vec<&[u8]> = text.split(|&byte| byte == b'\n').collect();
    let at = line.checked_sub(1)? as usize;
    let fields: Vec<&[u8]> = lines[at].split(|&byte| byte == b'\t').collect();
    if fields[0] != b"M" {
        return None;
    }
    let field = fields.get(1).copied().unwrap_or_default();
    let digits = std::str::from_utf8(field).unwrap_or_default();
    Some(match number {
        1 => form_fault(fields.len(), digits),
        2 => range_fault(workers(lines[0]), digits),
        3 if at == 0 => "the first line",
        3 => match lines[at - 1][0] {
            b'W' => "after the W line",
            b'M' => "after an M line",
            _ => "after an order line",
        },
        11 => "0",
        _ => "a refusal that no M line has",
    })
}

fn form_fault(fields: usize, digits: &str) -> &'static str {
    match digits.as_bytes() {
        _ if fields == 1 => "no field",
        _ if fields > 2 => "two fields",
        [] => "an empty field",
        [b'0', b'x', ..] => "hexadecimal",
        [b'0', ..] => "a leading zero",
        [b'-', ..] => "a minus",
        _ => "another form",
    }
}

fn range_fault(workers: u32, digits: &str) -> &'static str {
    match digits.parse::<u128>() {
        Ok(mask) if mask == 1 << workers => "the first worker that there is not",
        Ok(mask) if mask >> 64 == 1 => "a sound mask in 64 bits",
        Err(_) if digits.len() >= 30_000 => "30,000 digits",
        _ => "another number out of range",
    }
}

/// What a sound W line says.
fn workers(line: &[u8]) -> u32 {
    let digits = line[2..].iter().take_while(|byte| byte.is_ascii_digit());
    digits.fold(0, |value, digit| 10 * value + u32::from(digit - b'0'))
}

/// Damaged M lines: each fault that one can have is often the first of its text.
#[test]
fn damaged_masks() {
    let rng = &mut Rng::new(15);
    let mut seen: BTreeMap<&str, usize> = BTreeMap::new();
    for _ in 0..8_000 {
        let text = damaged(rng);
        if let Err(refusal) = check(&text) {
            if let Some(fault) = mask_fault(&text, refusal.number, refusal.line) {
                *seen.entry(fault).or_default() += 1;
            }
        }
    }
    assert_eq!(seen.len(), 16, "{seen:?}");
    assert!(seen.values().all(|&count| count >= 10), "{seen:?}");
}

/// Lines beyond the first few are refused too, not only the beginning.
#[test]
fn refused_lines_are_spread() {
    let rng = &mut Rng::new(10);
    let mut lines = BTreeMap::new();
    for _ in 0..2_000 {
        if let Err(refusal) = check(&damaged(rng)) {
            *lines.entry(refusal.line.min(12)).or_insert(0) += 1;
        }
    }
    assert!(
        (0..=12).all(|line| lines.get(&line).is_some_and(|&count| count >= 10)),
        "{lines:?}"
    );
}

#[test]
fn samples_are_small() {
    for seed in 0..3_000 {
        let text = sample(seed);
        assert!(text.len() <= 400);
        if let Ok(plan) = check(&text) {
            assert!(plan.workers <= 6 && plan.tasks.len() <= 20, "{seed}");
            assert!(plan.tasks.iter().all(|task| task.cost <= 3), "{seed}");
            let picks: u64 = plan
                .orders
                .iter()
                .map(|order| order.picks(plan.workers))
                .sum();
            assert!(picks <= 300);
        }
    }
}

#[test]
fn three_hundred_samples_hit_what_matters() {
    let mut seen = Seen::default();
    let mut refusals = [0usize; 12];
    for seed in 0..300 {
        match check(&sample(seed)) {
            Ok(plan) => {
                let (machine, passed) = watched(&plan);
                seen.add_run(&plan, &machine);
                seen.add_lock(&machine, &passed);
                seen.add_sizes(&plan, &machine);
                seen.add_masks(&plan);
            }
            Err(refusal) => refusals[usize::from(refusal.number)] += 1,
        }
    }
    seen.each_at_least(8);
    let met = |&number: &usize| refusals[number] >= 4;
    assert!([1, 2, 3, 4, 5, 9, 11].iter().all(met), "{refusals:?}");
    let refused: usize = refusals.iter().sum();
    assert!((40..=95).contains(&refused), "{refused}");
}

/// Of any row of samples at least one in three is accepted with an M line.
#[test]
fn samples_with_masks() {
    let tied = |&seed: &u64| check(&sample(seed)).is_ok_and(|plan| plan.has_masks());
    for first in (0..3_000).step_by(300) {
        let count = (first..first + 300).filter(tied).count();
        assert!((100..=180).contains(&count), "{count} from seed {first}");
    }
}

/// Of any row of samples at least two in five have a W line of the second form.
#[test]
fn samples_of_both_forms() {
    let second = |seed: &u64| !is_first_form(&sample(*seed));
    for first in (0..3_000).step_by(100) {
        let count = (first..first + 100).filter(second).count();
        assert!((40..=65).contains(&count), "{count} from seed {first}");
    }
}
