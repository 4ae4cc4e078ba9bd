//! The proved run beside the second implementation's: the same answer, the same
//! store and the same output, and nothing changed around them.

use crate::bench::{run, REPORT_SIZE};
use crate::fence::Fenced;
use crate::known::Known;
use second::machine::{Machine, Place};
use second::plan::{check, Plan, Refusal};
use second::random::{damaged, plan, Rng, Shape};
use second::run::{play, run as second_run, without_owner, Reported, STORE_SIZE};
use second::used::{used_output, used_store};

/// Where no limit is drawn a run still ends here at the latest.
const LONG: u64 = 100_000;

/// The arguments of a run: store and output with their content.
#[derive(Clone, Debug)]
pub struct Call {
    pub text: Vec<u8>,
    pub limit: u64,
    pub store: Vec<u64>,
    pub output: Vec<u8>,
}

/// How a call was answered, or what differs.
pub fn compare(call: &Call) -> Result<Result<Reported, Refusal>, String> {
    let mut store = Fenced::new(&call.store, |place| !(place as u64) << 7);
    let mut output = Fenced::new(&call.output, |place| place as u8 ^ 0xa5);
    let answer = run(&call.text, call.limit, store.lend(), output.lend());

    let mut second = call.clone();
    let expected = second_run(
        &second.text,
        second.limit,
        &mut second.store,
        &mut second.output,
    );
    if answer != expected {
        return Err(format!("answer {answer:?}, expected {expected:?}"));
    }
    if let Some(place) = store.difference(&second.store) {
        return Err(format!("number {place} of the store"));
    }
    if let Some(place) = output.difference(&second.output) {
        return Err(format!("byte {place} of the output"));
    }
    if !store.stands() {
        return Err("what stands around the store".to_string());
    }
    if !output.stands() {
        return Err("what stands around the output".to_string());
    }
    Ok(answer)
}

fn random_text(rng: &mut Rng) -> Vec<u8> {
    match rng.below(200) {
        0 => plan(rng, Shape::Full),
        1..=3 => plan(rng, Shape::Large),
        4..=29 => plan(rng, Shape::Medium),
        30..=139 => plan(rng, Shape::Small),
        _ => damaged(rng),
    }
}

/// What the second implementation reports with a limit and all the room it needs.
fn tried(text: &[u8], limit: u64) -> Option<Reported> {
    let (mut store, mut output) = ([0; STORE_SIZE], [0; REPORT_SIZE]);
    second_run(text, limit, &mut store, &mut output).ok()
}

fn random_limit(rng: &mut Rng, text: &[u8]) -> u64 {
    match rng.below(16) {
        0 => 0,
        1 => 1,
        2..=3 => rng.below(60),
        4..=5 => rng.below(2_000),
        6..=7 => ownerless_limit(rng, text),
        8 => tried(text, LONG).map_or(7, |all| all.picks),
        9 => tried(text, LONG).map_or(7, |all| all.picks.saturating_sub(rng.below(3))),
        // few order lines are so long that this takes long
        10 if text.len() < 1_000 => u64::MAX,
        _ => LONG,
    }
}

/// A limit at which nobody owns the lock, if the run has one.
fn ownerless_limit(rng: &mut Rng, text: &[u8]) -> u64 {
    let picks = check(text).map_or(Vec::new(), |plan| without_owner(&plan, 2_000));
    if picks.is_empty() {
        rng.below(60)
    } else {
        rng.choose(&picks)
    }
}

fn random_store_size(rng: &mut Rng) -> usize {
    match rng.below(24) {
        0 => 0,
        1 => rng.index(STORE_SIZE),
        2 => STORE_SIZE - 1,
        3..=4 => STORE_SIZE + 1,
        5..=6 => STORE_SIZE + rng.index(900),
        _ => STORE_SIZE,
    }
}

fn random_output_size(rng: &mut Rng, text: &[u8], limit: u64) -> usize {
    let exact = |rng: &mut Rng, less: usize, more: usize| {
        let length = tried(text, limit).map_or(20, |all| all.length);
        length.saturating_sub(less) + rng.index(more + 1)
    };
    match rng.below(16) {
        0 => 0,
        1 => rng.index(100),
        2 => exact(rng, 1, 0),
        3 => exact(rng, 0, 0),
        4 => exact(rng, 2, 4),
        5 => exact(rng, 0, 300),
        _ => REPORT_SIZE + rng.index(400),
    }
}

pub fn random_call(rng: &mut Rng) -> Call {
    let text = random_text(rng);
    call_of(rng, text)
}

/// A call with a text that means the same, or is refused alike, where no more is known.
pub fn known_call(rng: &mut Rng, known: Known) -> Call {
    let text = known.draw(rng, random_text);
    call_of(rng, text)
}

/// A call with this text, and all else drawn.
fn call_of(rng: &mut Rng, text: Vec<u8>) -> Call {
    let limit = random_limit(rng, &text);
    let store = used_store(random_store_size(rng), rng.word());
    let output = used_output(random_output_size(rng, &text, limit), rng.byte());
    Call {
        text,
        limit,
        store,
        output,
    }
}

/// How often calls were answered in which way, what M lines did in their runs, and how the
/// lock stood in their reports.
#[derive(Clone, Copy, Debug, Default, PartialEq, Eq)]
pub struct Counts {
    /// Reports first, then by refusal number.
    pub answers: [u64; 12],
    /// All picks taken.
    pub picks: u64,
    /// Reports of plans with M lines.
    pub with_masks: u64,
    /// Of these, runs with a task that was served or taken past the first ready one.
    pub passed_over: u64,
    /// Runs in which serving stopped at a waiter that may run no ready task.
    pub stopped_serving: u64,
    /// Runs in which an owner may run no ready task and took none.
    pub left_ready: u64,
    /// Reports whose L line has `>`.
    pub spoken_for: u64,
    /// Of these, with a worker that has not registered.
    pub unregistered: u64,
    /// Reports whose L line has `-` while a served worker has not looked.
    pub served_free: u64,
}

impl Counts {
    fn add(&mut self, call: &Call, answer: Result<Reported, Refusal>) {
        match answer {
            Ok(reported) => {
                self.answers[0] += 1;
                self.picks += reported.picks;
                let plan = check(&call.text).expect("a plan that has a report");
                let machine = play(&plan, call.limit);
                self.add_masks(&plan, &machine);
                self.add_lock(&machine);
            }
            Err(refusal) => self.answers[usize::from(refusal.number)] += 1,
        }
    }

    fn add_masks(&mut self, plan: &Plan, machine: &Machine) {
        if plan.has_masks() {
            let counters = machine.counters;
            self.with_masks += 1;
            self.passed_over += u64::from(counters.served_past + counters.taken_past > 0);
            self.stopped_serving += u64::from(counters.stopped_serving > 0);
            self.left_ready += u64::from(counters.left_ready > 0);
        }
    }

    fn add_lock(&mut self, machine: &Machine) {
        if let Some(due) = machine.due() {
            let place = machine.workers[due].place;
            self.spoken_for += 1;
            self.unregistered += u64::from(matches!(place, Place::Register(_)));
        }
        self.served_free += u64::from(machine.lock.free() && machine.served_to_look());
    }
}

/// Compares so many random calls, and counts them.
pub fn compare_many(calls: u64, seed: u64) -> Result<Counts, (Box<Call>, String)> {
    let mut rng = Rng::new(seed);
    let mut counts = Counts::default();
    for _ in 0..calls {
        let call = random_call(&mut rng);
        match compare(&call) {
            Ok(answer) => counts.add(&call, answer),
            Err(what) => return Err((Box::new(call), what)),
        }
    }
    Ok(counts)
}
