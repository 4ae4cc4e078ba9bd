//! The longest chain of a plan: tasks of which each conflicts with a later next one,
//! by the largest sum of their costs, and what is printed of it.
//!
//! It is found in two ways that share nothing but the plan: by a search over all
//! chains, where the tasks are few, and by a programme over the first tasks of chains.

use std::cmp::Ordering;

use crate::plan::{check, Refusal, Task, TASK_LIMIT};
use crate::report::chain_line;
use crate::tool::{self, write};

/// Up to so many tasks all chains are searched.
pub const SEARCHED: usize = 12;
/// No line is longer: 128 tasks of cost 1,000, all in one chain.
pub const LONGEST_LINE: usize = 409;

/// Tasks by number, and the sum of their costs; without tasks where a plan has none.
#[derive(Clone, Debug, Default, PartialEq, Eq)]
pub struct Chain {
    pub sum: u64,
    pub numbers: Vec<usize>,
}

/// Writes a plan's longest chain into the output; the length of that line.
pub fn longest_chain(text: &[u8], output: &mut [u8]) -> Result<usize, Refusal> {
    write(&line(text)?, output)
}

/// The line of a text, whatever the output.
pub fn line(text: &[u8]) -> Result<Vec<u8>, Refusal> {
    let plan = check(text)?;
    Ok(chain_line(&longest(&plan.tasks)))
}

/// What the program prints: the line of the chain, or that of the refusal.
pub fn answer_bytes(text: &[u8]) -> Vec<u8> {
    tool::answer_bytes(longest_chain, text, LONGEST_LINE)
}

/// The chain that is printed.
pub fn longest(tasks: &[Task]) -> Chain {
    if tasks.len() <= SEARCHED {
        searched(tasks)
    } else {
        programmed(tasks)
    }
}

/// The first way: of all chains the one that none is preferred to.
pub fn searched(tasks: &[Task]) -> Chain {
    let best = all_chains(tasks).reduce(|best, chain| {
        if is_preferred(&chain, &best) {
            chain
        } else {
            best
        }
    });
    best.unwrap_or_default()
}

/// Every choice of tasks, in order of their numbers, of which each conflicts with the next.
pub fn all_chains(tasks: &[Task]) -> impl Iterator<Item = Chain> + '_ {
    let choices = 1u64..1 << tasks.len();
    choices.filter_map(|choice| chosen(tasks, choice))
}

/// The tasks whose bits are set, if they are a chain.
fn chosen(tasks: &[Task], choice: u64) -> Option<Chain> {
    let mut chain = Chain::default();
    for (number, task) in tasks.iter().enumerate() {
        if choice >> number & 1 == 0 {
            continue;
        }
        match chain.numbers.last() {
            Some(&last) if !conflict(&tasks[last], task) => return None,
            _ => chain.numbers.push(number),
        }
        chain.sum += task.cost;
    }
    Some(chain)
}

/// They share an address, and one of them writes there.
pub fn conflict(one: &Task, other: &Task) -> bool {
    one.accesses.iter().any(|a| {
        let mut others = other.accesses.iter();
        others.any(|b| a.address == b.address && (a.writes || b.writes))
    })
}

fn is_preferred(one: &Chain, other: &Chain) -> bool {
    one.sum > other.sum || one.sum == other.sum && comes_first(&one.numbers, &other.numbers)
}

/// Compared left to right; a chain comes before its own extensions.
fn comes_first(one: &[usize], other: &[usize]) -> bool {
    for (a, b) in one.iter().zip(other) {
        if a != b {
            return a < b;
        }
    }
    one.len() < other.len()
}

/// The second way: of the best chains that begin with each task the best.
pub fn programmed(tasks: &[Task]) -> Chain {
    let found = from_each(tasks).into_iter();
    found.min_by(best_first).unwrap_or_default()
}

/// For each task the best chain that begins with it. It is the task alone, or goes on
/// with the best of the chains that begin with a later task in conflict: two chains
/// with the same first task compare as what follows it does.
pub fn from_each(tasks: &[Task]) -> Vec<Chain> {
    let later = later_in_conflict(tasks);
    let mut found = vec![Chain::default(); tasks.len()];
    for first in (0..tasks.len()).rev() {
        let alone = Chain {
            sum: tasks[first].cost,
            numbers: vec![first],
        };
        let nexts = (first + 1..tasks.len()).filter(|next| later[first] >> next & 1 == 1);
        let rests = nexts.map(|next| &found[next]);
        let rest = rests.min_by(|one, other| best_first(one, other));
        let longer = rest.map(|rest| Chain {
            sum: alone.sum + rest.sum,
            numbers: [&alone.numbers[..], &rest.numbers].concat(),
        });
        let both = [Some(alone), longer].into_iter().flatten();
        found[first] = both.min_by(best_first).expect("a task alone is a chain");
    }
    found
}

/// By sum, and among equals by the order of lists.
fn best_first(one: &Chain, other: &Chain) -> Ordering {
    let by_sum = other.sum.cmp(&one.sum);
    by_sum.then_with(|| one.numbers.cmp(&other.numbers))
}

const _: () = assert!(TASK_LIMIT <= u128::BITS as usize);

/// For each task the later ones in conflict with it, as bits: address by address, those
/// of its users of which one writes.
fn later_in_conflict(tasks: &[Task]) -> Vec<u128> {
    let mut users: Vec<(u64, usize, bool)> = Vec::new();
    for (number, task) in tasks.iter().enumerate() {
        let uses = task.accesses.iter();
        users.extend(uses.map(|access| (access.address, number, access.writes)));
    }
    users.sort_unstable();
    let mut later = vec![0; tasks.len()];
    for users in users.chunk_by(|one, other| one.0 == other.0) {
        for (place, &(_, one, one_writes)) in users.iter().enumerate() {
            for &(_, other, other_writes) in &users[place + 1..] {
                if one_writes || other_writes {
                    later[one] |= 1 << other;
                }
            }
        }
    }
    later
}
