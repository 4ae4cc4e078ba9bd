//! Measuring pieces of work beside each other.

use crate::bench;
use second::plan::Refusal;
use second::tool::Tool;
use std::time::Instant;

/// The shortest time of each piece of work, in seconds, of so many rounds, whose
/// number it is told. They are done in turn: what else the machine does then counts
/// for all of them.
pub fn shortest<const N: usize>(rounds: usize, mut works: [&mut dyn FnMut(usize); N]) -> [f64; N] {
    let mut times = [f64::MAX; N];
    for round in 0..rounds {
        for (time, work) in times.iter_mut().zip(&mut works) {
            let start = Instant::now();
            work(round);
            *time = time.min(start.elapsed().as_secs_f64());
        }
    }
    times
}

/// The shortest times of the check and of a tool that checks its text first.
pub struct Times {
    pub check: f64,
    pub tool: f64,
}

/// Those of the proved ones and of the second implementation's, each in passes of its own.
pub fn beside_the_check<W: FnMut(usize)>(
    rounds: usize,
    proved: Tool,
    second: Tool,
    pass: impl Fn(Tool) -> W,
) -> [Times; 2] {
    let tools: [Tool; 4] = [checked, proved, second_checked, second];
    let [one, two, three, four] = &mut tools.map(pass);
    let [check, tool, second_check, second_tool] = shortest(rounds, [one, two, three, four]);
    [
        Times { check, tool },
        Times {
            check: second_check,
            tool: second_tool,
        },
    ]
}

/// The check, with the arguments of a tool.
fn checked(text: &[u8], _: &mut [u8]) -> Result<usize, Refusal> {
    bench::check(text).verdict.map(|()| 0)
}

fn second_checked(text: &[u8], _: &mut [u8]) -> Result<usize, Refusal> {
    second::plan::check(text).map(|plan| plan.tasks.len())
}
