//! What told in the choice of a plan's longest chain, so that random plans can be known by it.

use crate::chain::{conflict, from_each, longest, Chain};
use crate::plan::Task;

#[derive(Clone, Copy, Debug, Default, PartialEq, Eq)]
pub struct Chosen {
    /// A later chain has the same sum and is no extension of the chosen one.
    pub among_equals: bool,
    /// An extension has the same sum.
    pub left_off: bool,
    /// It begins with a task of cost 0 that others follow.
    pub begins_with_0: bool,
    /// A task of cost 0 joins two that don't conflict with each other.
    pub joined_by_0: bool,
    /// It would be another one if readers of one address conflicted.
    pub by_readers: bool,
}

impl Chosen {
    pub fn of(tasks: &[Task]) -> Chosen {
        let chain = longest(tasks);
        let Some((&last, &first)) = chain.numbers.last().zip(chain.numbers.first()) else {
            return Chosen::default();
        };
        let mut later = tasks[last + 1..].iter();
        Chosen {
            among_equals: among_equals(tasks, &chain),
            left_off: later.any(|task| task.cost == 0 && conflict(&tasks[last], task)),
            begins_with_0: tasks[first].cost == 0 && first != last,
            joined_by_0: chain.numbers.windows(3).any(|three| {
                let [before, joining, after] = [0, 1, 2].map(|place| &tasks[three[place]]);
                joining.cost == 0 && !conflict(before, after)
            }),
            by_readers: longest(&with_writers_alone(tasks)) != chain,
        }
    }
}

/// Whether at some place of the chain another task could stand, with which a chain of
/// the same sum goes on.
fn among_equals(tasks: &[Task], chain: &Chain) -> bool {
    let sums: Vec<u64> = from_each(tasks).iter().map(|chain| chain.sum).collect();
    let mut before = None;
    for &number in &chain.numbers {
        let mut others = number + 1..tasks.len();
        let follows = |other| before.is_none_or(|before| conflict(&tasks[before], &tasks[other]));
        if others.any(|other| sums[other] == sums[number] && follows(other)) {
            return true;
        }
        before = Some(number);
    }
    false
}

fn with_writers_alone(tasks: &[Task]) -> Vec<Task> {
    let mut tasks = tasks.to_vec();
    for task in &mut tasks {
        for access in &mut task.accesses {
            access.writes = true;
        }
    }
    tasks
}
