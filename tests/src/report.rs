//! The bytes of a report, and of the lines that programs print instead.

use std::fmt::Display;

use crate::chain::Chain;
use crate::machine::{Machine, State};
use crate::plan::{Plan, Refusal};

/// The report of a machine's state; labels are shown from the plan text.
pub fn report(text: &[u8], plan: &Plan, machine: &Machine) -> Vec<u8> {
    let mut out = Vec::new();
    let end = if machine.finished() {
        "finished"
    } else {
        "open"
    };
    line(&mut out, &[&"E", &end, &machine.picks, &plan.permissions()]);
    for (number, (task, record)) in plan.tasks.iter().zip(&machine.tasks).enumerate() {
        let label = String::from_utf8_lossy(task.label.of(text));
        line(
            &mut out,
            &[
                &"T",
                &number,
                &label,
                &state_name(record.state),
                &or_dash(record.worker),
                &or_dash(record.receipt),
                &or_dash(record.ending),
                &or_dash(record.giver),
            ],
        );
    }
    line(
        &mut out,
        &[
            &"L",
            &machine.lock.head,
            &machine.lock.tail,
            &lock_field(machine),
        ],
    );
    out
}

/// The last field of the L line: the owner, else the worker that will own by its look, marked
/// with `>`, else `-`.
pub fn lock_field(machine: &Machine) -> String {
    match (machine.owner, machine.due()) {
        (Some(owner), _) => owner.to_string(),
        (None, Some(due)) => format!(">{due}"),
        (None, None) => "-".to_string(),
    }
}

/// The line that a program prints for a refusal.
pub fn refusal_line(refusal: Refusal) -> Vec<u8> {
    let mut out = Vec::new();
    line(&mut out, &[&"X", &refusal.number, &refusal.line]);
    out
}

/// The line that the check's program prints for a plan that is accepted.
pub fn accepted_line(looks: usize) -> Vec<u8> {
    let mut out = Vec::new();
    line(&mut out, &[&"A", &looks]);
    out
}

/// The line of a chain: the sum of its costs, and its tasks.
pub fn chain_line(chain: &Chain) -> Vec<u8> {
    let mut fields: Vec<&dyn Display> = vec![&chain.sum];
    for number in &chain.numbers {
        fields.push(number);
    }
    let mut out = Vec::new();
    line(&mut out, &fields);
    out
}

pub fn state_name(state: State) -> &'static str {
    match state {
        State::New => "new",
        State::Waiting => "waiting",
        State::Ready => "ready",
        State::Held => "held",
        State::Run => "run",
        State::Over => "over",
    }
}

fn or_dash<T: Display>(value: Option<T>) -> String {
    value.map_or("-".to_string(), |value| value.to_string())
}

fn line(out: &mut Vec<u8>, fields: &[&dyn Display]) {
    let fields: Vec<String> = fields.iter().map(|field| field.to_string()).collect();
    out.extend(fields.join("\t").bytes());
    out.push(b'\n');
}
