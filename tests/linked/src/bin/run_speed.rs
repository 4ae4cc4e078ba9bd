//! run_speed [PART]: nanoseconds per pick of the proved run beside the second
//! implementation's, on the same plans, in one run. A time holds the whole call:
//! reading, clearing the store and the report too. Only lines whose name has PART
//! in it are measured, if one is given. Plans with M lines come last; no other plan's
//! name has `M ` in it. A plan of the second form or with M lines that a build refuses
//! with 1, as one that is older than these does, has a line that says so.
//!
//! The same machine code takes up to twice as long where stack and store happen to
//! lie badly to each other, so each repetition has them elsewhere; and up to a fifth
//! longer by where the linker puts it, so `tests/compare_speed` measures two builds
//! in four links each: PAD bytes, given when it is built, stand before all code.

use linked::known::Known;
use second::plan::Refusal;
use second::random::Rng;
use second::run::{Reported, STORE_SIZE};
use std::fmt::Display;
use std::hint::black_box;
use std::time::Instant;

const REPETITIONS: usize = 64;
/// Picks that one measured time holds at least, by calling again.
const PICKS: u64 = 200_000;
/// Bytes by which the stack lies deeper with each of so many steps, and numbers by
/// which the store lies further on: together they go over a page more than once.
const STACK_STEP: usize = 200;
const STORE_STEP: usize = 31;
const STEPS: usize = 64;

/// Moves the code behind it by PAD bytes. It is called so that it is linked.
#[cfg(padded)]
#[link_section = ".text.unlikely.pad"]
#[inline(never)]
fn pad() {
    // SAFETY: it jumps over the bytes that are left out, and does nothing else
    unsafe { std::arch::asm!(concat!("jmp 2f\n.skip ", env!("PAD"), "\n2:")) }
}

#[cfg(not(padded))]
fn pad() {}

type Run = fn(&[u8], u64, &mut [u64], &mut [u8]) -> Result<Reported, Refusal>;

struct Case {
    name: String,
    text: Vec<u8>,
    store: usize,
}

/// A plan of these tasks, with each order line as often as it says. `first` is what
/// the W line says.
fn plan(first: impl Display, tasks: &[String], orders: &[(String, usize)]) -> Vec<u8> {
    let mut text = format!("W\t{first}\n");
    for task in tasks {
        text.push_str(task);
    }
    for (line, times) in orders {
        text.push_str(&line.repeat(*times));
    }
    text.into_bytes()
}

/// Tasks that each write the one address, so that they run one after the other.
fn chain(count: usize, cost: u64) -> Vec<String> {
    vec![format!("T\tchain\t{cost}\tw7\n"); count]
}

/// Tasks with four accesses over a few addresses, two of them writing.
fn tangle(count: usize, cost: u64) -> Vec<String> {
    (0..count)
        .map(|i| {
            let address = |k: usize| (i * 3 + k * 5) % 13;
            format!(
                "T\ttangle\t{cost}\tr{}\tw{}\tr{}\tw{}\n",
                address(0),
                address(1) + 13,
                address(2) + 26,
                address(3) + 39
            )
        })
        .collect()
}

fn rounds() -> Vec<(String, usize)> {
    vec![("R\t1000000\n".to_string(), 4)]
}

fn seeded() -> Vec<(String, usize)> {
    vec![("S\t2026\t1000000\n".to_string(), 5)]
}

fn alone(worker: u64, times: usize) -> Vec<(String, usize)> {
    vec![(format!("P\t{worker}\t4096\n"), times)]
}

fn cases() -> Vec<Case> {
    let mut cases = Vec::new();
    let mut add = |name: String, text: Vec<u8>, store: usize| {
        cases.push(Case { name, text, store });
    };
    for w in [1, 4, 32] {
        let tasks = chain(128, 1_000);
        add(
            format!("rounds, W {w}"),
            plan(w, &tasks, &rounds()),
            STORE_SIZE,
        );
        add(
            format!("seeded, W {w}"),
            plan(w, &tasks, &seeded()),
            STORE_SIZE,
        );
        add(
            format!("worker 0 alone, W {w}"),
            plan(w, &tasks, &alone(0, 60)),
            STORE_SIZE,
        );
    }
    for w in [4, 32] {
        // worker 0 opens nothing, so worker 1 goes through the lock without end
        add(
            format!("worker 1 alone, W {w}"),
            plan(w, &chain(128, 0), &alone(1, 250)),
            STORE_SIZE,
        );
    }
    for w in [1, 4, 32] {
        for cost in [0, 20] {
            add(
                format!("128 tasks of 4 accesses, cost {cost}, rounds, W {w}"),
                plan(w, &tangle(128, cost), &rounds()),
                STORE_SIZE,
            );
        }
        add(
            format!("128 tasks of 4 accesses, cost 0, seeded, W {w}"),
            plan(w, &tangle(128, 0), &seeded()),
            STORE_SIZE,
        );
    }
    // an order line for each pick, as many as a text has room for
    for (line, times) in [
        ("R\t1\n", 15_000),
        ("P\t0\t1\n", 10_000),
        ("S\t18446744073709551615\t1\n", 2_400),
    ] {
        add(
            format!("a line for each pick, {}", line.trim().replace('\t', " ")),
            plan(1, &chain(128, 1_000), &[(line.to_string(), times)]),
            STORE_SIZE,
        );
    }
    // the cost of a pick beside the number of tasks, and beside the store's length
    for count in [1, 8, 128] {
        add(
            format!("{count} tasks, worker 3 alone, W 4"),
            plan(4, &chain(count, 0), &alone(3, 250)),
            STORE_SIZE,
        );
    }
    for store in [STORE_SIZE, 1_000_000] {
        add(
            format!("store of {store}, rounds, W 4"),
            plan(4, &chain(128, 1_000), &rounds()),
            store,
        );
    }
    cases.extend(second_form_cases());
    cases.extend(mask_cases());
    cases
}

/// Rings that are no power of two, with as few slots as that allows, and queues of both
/// ends of the range.
fn second_form_cases() -> Vec<Case> {
    let mut cases = Vec::new();
    let mut add = |name: &str, first: &str, tasks: &[String], orders: &[(String, usize)]| {
        cases.push(Case {
            name: format!("{name}, W {first}"),
            text: plan(first.replace(' ', "\t"), tasks, orders),
            store: STORE_SIZE,
        });
    };
    for first in ["1 3 8", "4 5 8", "32 33 8"] {
        add("rounds", first, &chain(128, 1_000), &rounds());
        add(
            "128 tasks, cost 0, rounds",
            first,
            &tangle(128, 0),
            &rounds(),
        );
    }
    for first in ["4 5 8", "32 33 8"] {
        add("worker 1 alone", first, &chain(128, 0), &alone(1, 250));
    }
    for first in ["4 5 1", "4 5 16", "32 33 1", "32 33 16"] {
        add(
            "128 tasks, cost 0, rounds",
            first,
            &tangle(128, 0),
            &rounds(),
        );
    }
    cases
}

/// Tasks without accesses, which are all ready as soon as they are added.
fn free(count: usize, cost: u64) -> Vec<String> {
    vec![format!("T\tfree\t{cost}\n"); count]
}

/// The tasks with an M line each, of the mask that a draw gives.
fn tied(tasks: &[String], mut mask: impl FnMut(&mut Rng) -> u64) -> Vec<String> {
    let rng = &mut Rng::new(2026);
    let tie = |task: &String| format!("{task}M\t{}\n", mask(rng));
    tasks.iter().map(tie).collect()
}

/// Tasks tied to workers: any of them, one worker each, and all to the last worker, so
/// that owners pass over ready tasks or leave them all.
fn mask_cases() -> Vec<Case> {
    let mut cases = Vec::new();
    let mut add = |name: String, w: u64, tasks: &[String], orders: &[(String, usize)]| {
        cases.push(Case {
            name: format!("{name}, W {w}"),
            text: plan(w, tasks, orders),
            store: STORE_SIZE,
        });
    };
    for w in [8, 32] {
        let all = (1 << w) - 1;
        for (name, order) in [("rounds", rounds()), ("seeded", seeded())] {
            let tasks = tied(&tangle(128, 0), |rng| rng.between(1, all));
            add(format!("M any, 4 accesses, {name}"), w, &tasks, &order);
            let tasks = tied(&tangle(128, 0), |rng| 1 << rng.below(w));
            add(format!("M one each, 4 accesses, {name}"), w, &tasks, &order);
            let tasks = tied(&free(128, 0), |rng| 1 << rng.below(w));
            add(format!("M one each, no access, {name}"), w, &tasks, &order);
        }
        let tasks = tied(&free(128, 0), |_| 1 << (w - 1));
        add("M the last, no access, rounds".into(), w, &tasks, &rounds());
        let tasks = tied(&free(128, 0), |_| all);
        add("M all, no access, rounds".into(), w, &tasks, &rounds());
    }
    cases
}

/// Seconds of so many calls, and the picks of each.
fn timed(run: Run, case: &Case, calls: u64, store: &mut [u64], output: &mut [u8]) -> (f64, u64) {
    let mut picks = 0;
    let start = Instant::now();
    for _ in 0..calls {
        let answer = black_box(run(black_box(&case.text), u64::MAX, store, output));
        picks = answer.expect("a report").picks;
    }
    (start.elapsed().as_secs_f64(), picks)
}

/// Does something with the stack so many steps deeper.
fn deeper(steps: usize, work: &mut dyn FnMut()) {
    let room = black_box([0u8; STACK_STEP]);
    if steps == 0 {
        work();
    } else {
        deeper(steps - 1, work);
    }
    black_box(&room);
}

/// The best and the median of some numbers.
fn summary(mut numbers: Vec<f64>) -> (f64, f64) {
    numbers.sort_by(f64::total_cmp);
    (numbers[0], numbers[numbers.len() / 2])
}

fn measure(case: &Case) {
    let mut room = vec![0; case.store + STORE_STEP * STEPS];
    let mut output = vec![0; 16_384];
    let proved: Run = linked::bench::run;
    let second: Run = second::run::run;
    if !Known::FirstForm.covers(&case.text) {
        let answer = proved(&case.text, 0, &mut room, &mut output);
        if matches!(answer, Err(Refusal { number: 1, .. })) {
            println!("{:46} refused", case.name);
            return;
        }
    }
    let (_, picks) = timed(proved, case, 1, &mut room, &mut output);
    let calls = PICKS.div_ceil(picks);
    let scale = 1e9 / (picks * calls) as f64;
    let (mut ours, mut theirs) = (Vec::new(), Vec::new());
    // in turn, so that what else the machine does counts for both
    for i in 0..REPETITIONS {
        let from = STORE_STEP * (i * 5 % STEPS);
        let store = &mut room[from..][..case.store];
        deeper(i % STEPS, &mut || {
            let (time, taken) = timed(proved, case, calls, store, &mut output);
            let (beside, expected) = timed(second, case, calls, store, &mut output);
            assert_eq!(taken, expected, "{}", case.name);
            ours.push(time * scale);
            theirs.push(beside * scale);
        });
    }
    let (best, median) = summary(ours);
    let (second_best, second_median) = summary(theirs);
    println!(
        "{:46} {:9} {:7.2} {:7.2} {:7.2} {:7.2} {:6.2} {:6.2}",
        case.name,
        picks,
        best,
        median,
        second_best,
        second_median,
        best / second_best,
        median / second_median
    );
}

fn main() {
    pad();
    let part = std::env::args().nth(1).unwrap_or_default();
    println!(
        "{:46} {:>9} {:>15} {:>15} {:>13}",
        "nanoseconds per pick", "picks", "proved", "second", "ratio"
    );
    println!(
        "{:56} {:>7} {:>7} {:>7} {:>7} {:>6} {:>6}",
        "", "best", "median", "best", "median", "best", "median"
    );
    for case in cases() {
        if case.name.contains(&part) {
            measure(&case);
        }
    }
}
