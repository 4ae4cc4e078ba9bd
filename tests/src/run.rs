//! Running a plan text with a pick limit, a store and an output.

use crate::machine::Machine;
use crate::order::Picks;
use crate::plan::{callers, check, refusal, Plan, Refusal, TEXT_LIMIT};
use crate::report::{refusal_line, report};
use crate::tool::write;

/// Numbers that the store must have.
pub const STORE_SIZE: usize = 8_192;

#[derive(Clone, Copy, Debug, PartialEq, Eq)]
pub struct Reported {
    pub picks: u64,
    pub length: usize,
}

/// Runs a text. The store is only cleared: this implementation keeps its state
/// elsewhere, and what the store ends with is all that can be seen of it.
pub fn run(
    text: &[u8],
    limit: u64,
    store: &mut [u64],
    output: &mut [u8],
) -> Result<Reported, Refusal> {
    if text.len() > TEXT_LIMIT {
        return Err(callers(refusal::TEXT_SIZE));
    }
    if store.len() < STORE_SIZE {
        return Err(callers(refusal::STORE_SIZE));
    }
    store[..STORE_SIZE].fill(0);
    let plan = check(text)?;
    let machine = play(&plan, limit);
    let bytes = report(text, &plan, &machine);
    Ok(Reported {
        picks: machine.picks,
        length: write(&bytes, output)?,
    })
}

/// The state after the plan's order: stops at the limit, the end of the order
/// or when finished.
pub fn play(plan: &Plan, limit: u64) -> Machine {
    let mut machine = Machine::new(plan);
    let mut picks = Picks::new(plan);
    while machine.picks < limit && !machine.finished() {
        match picks.next() {
            Some(worker) => machine.step(worker),
            None => break,
        }
    }
    machine
}

/// Picks of the first `most` after which nobody owns: those that leave the lock free while a
/// served worker has not looked, which are rare, or else those that leave it spoken for.
pub fn without_owner(plan: &Plan, most: usize) -> Vec<u64> {
    let mut machine = Machine::new(plan);
    let (mut free, mut spoken_for) = (Vec::new(), Vec::new());
    for worker in Picks::new(plan).take(most) {
        if machine.finished() {
            break;
        }
        machine.step(worker);
        if machine.due().is_some() {
            spoken_for.push(machine.picks);
        } else if machine.lock.free() && machine.served_to_look() {
            free.push(machine.picks);
        }
    }
    if free.is_empty() {
        spoken_for
    } else {
        free
    }
}

/// What the program prints: the report, or the line of the refusal.
pub fn answer_bytes(text: &[u8], limit: u64) -> Vec<u8> {
    match check(text) {
        Ok(plan) => report(text, &plan, &play(&plan, limit)),
        Err(refusal) => refusal_line(refusal),
    }
}
