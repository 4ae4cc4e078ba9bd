//! chain_speed: the proved check and longest chain beside the second implementation's
//! on the same plans, in one run: plans of 128 tasks with four accesses each, whose
//! tasks conflict in different ways. The second implementation finds the chains of so
//! many tasks by its programme, and not by a search.

use linked::chain;
use linked::speed::beside_the_check;
use second::chain::{LONGEST_LINE, SEARCHED};
use second::plan::{ACCESS_LIMIT, TASK_LIMIT};
use second::random::Rng;
use second::tool::Tool;
use std::hint::black_box;

const PLANS: usize = 16;
const ROUNDS: usize = 200;
const _: () = assert!(TASK_LIMIT > SEARCHED);

/// How the tasks of a plan conflict, and what they cost at most.
struct Shape {
    name: &'static str,
    accesses: fn(&mut Rng, usize) -> Vec<(bool, usize)>,
    cost: u64,
}

const SHAPES: [Shape; 5] = [
    Shape {
        name: "one address that all write",
        accesses: one_address,
        cost: 1_000,
    },
    Shape {
        name: "dense, 6 addresses",
        accesses: |rng, _| some_of(rng, 6),
        cost: 1_000,
    },
    Shape {
        name: "dense, 6 addresses, costs of 0",
        accesses: |rng, _| some_of(rng, 6),
        cost: 0,
    },
    Shape {
        name: "sparse, 400 addresses",
        accesses: |rng, _| some_of(rng, 400),
        cost: 1_000,
    },
    Shape {
        name: "readers alone",
        accesses: |_, _| (0..ACCESS_LIMIT).map(|address| (false, address)).collect(),
        cost: 1_000,
    },
];

/// One for all, and three of its own.
fn one_address(_: &mut Rng, number: usize) -> Vec<(bool, usize)> {
    let own = (1..ACCESS_LIMIT).map(|place| (true, number * ACCESS_LIMIT + place));
    [(true, 0)].into_iter().chain(own).collect()
}

/// Four of so many, as often read as written.
fn some_of(rng: &mut Rng, addresses: usize) -> Vec<(bool, usize)> {
    let mut all: Vec<usize> = (0..addresses).collect();
    rng.shuffle(&mut all);
    let some = all[..ACCESS_LIMIT].iter();
    some.map(|&address| (rng.one_in(2), address)).collect()
}

fn plan(rng: &mut Rng, shape: &Shape) -> Vec<u8> {
    let mut text = "W\t8\n".to_string();
    for number in 0..TASK_LIMIT {
        text += &format!("T\ttask-{number}\t{}", rng.between(0, shape.cost));
        for (writes, address) in (shape.accesses)(rng, number) {
            text += &format!("\t{}{address}", if writes { 'w' } else { 'r' });
        }
        text += "\n";
    }
    (text + "R\t100\n").into_bytes()
}

/// All texts, into an output of its own.
fn pass(tool: Tool, texts: &[Vec<u8>]) -> impl FnMut(usize) + '_ {
    let mut output = [0; LONGEST_LINE];
    move |_| {
        for text in texts {
            assert!(black_box(tool(black_box(text), &mut output)).is_ok());
        }
    }
}

fn measure(name: &str, texts: &[Vec<u8>]) {
    let (proved, second) = (chain::longest_chain, second::chain::longest_chain);
    let [proved, second] = beside_the_check(ROUNDS, proved, second, |tool| pass(tool, texts));
    let bytes: usize = texts.iter().map(Vec::len).sum();
    println!("{name}, {} bytes", bytes / texts.len());
    for (what, times) in [("proved", &proved), ("second implementation", &second)] {
        let each = |time: f64| time / texts.len() as f64 * 1e6;
        println!(
            "  {what:22} check {:6.1} µs, chain {:7.1} µs, beyond the check {:7.1} µs",
            each(times.check),
            each(times.tool),
            each(times.tool - times.check)
        );
    }
    println!(
        "  ratio of times: check {:.2}, chain {:.2}, beyond the check {:.2}",
        proved.check / second.check,
        proved.tool / second.tool,
        (proved.tool - proved.check) / (second.tool - second.check)
    );
}

fn main() {
    let mut rng = Rng::new(128);
    for shape in &SHAPES {
        let plans = (0..PLANS).map(|_| plan(&mut rng, shape));
        measure(shape.name, &plans.collect::<Vec<_>>());
    }
}
