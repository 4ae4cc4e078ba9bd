//! The longest chain: its line byte for byte, its refusals and what it leaves in the
//! output; that both ways find the same chain, and that a run takes as long as it says.

use second::chain::{
    all_chains, answer_bytes, conflict, from_each, longest, longest_chain, programmed, searched,
    Chain, LONGEST_LINE, SEARCHED,
};
use second::chosen::Chosen;
use second::plan::{check, Refusal, Task};
use second::random::{
    chain_sample, chained, damaged, damaged_chained, plan, with_everybody, without_masks, Rng,
    Shape,
};
use second::run::play;
use second::text::lines;
use second::used::{self, assert_fits, Refused};

/// The answer in a used output of this length.
fn answered(text: &[u8], room: usize) -> Result<Vec<u8>, Refused> {
    used::answered(longest_chain, text, room)
}

/// What is printed for one worker and these tasks, with blanks for tabs and without the
/// line feed.
fn printed(tasks: &[&str]) -> String {
    let tasks: Vec<String> = tasks.iter().map(|task| format!("T {task}")).collect();
    let mut plan = vec!["W 1"];
    plan.extend(tasks.iter().map(String::as_str));
    shown(&lines(&plan))
}

fn shown(text: &[u8]) -> String {
    let answer = String::from_utf8(answer_bytes(text)).unwrap();
    let line = answer.strip_suffix('\n').expect("a line feed");
    assert!(!line.contains([' ', '\n']), "{line}");
    line.replace('\t', " ")
}

fn tasks_of(text: &[u8]) -> Vec<Task> {
    check(text).expect("a plan").tasks
}

#[test]
fn no_tasks() {
    assert_eq!(answer_bytes(b"W\t1\n"), b"0\n");
    assert_eq!(answer_bytes(b"W\t32\t40\t2\nR\t5\nS\t7\t9\n"), b"0\n");
    assert_eq!(answered(b"W\t1\n", 2), Ok(b"0\n".to_vec()));
    assert_eq!(answered(b"W\t1\n", 1), Err((8, 0)));
    assert_eq!(answered(b"W\t1\n", 0), Err((8, 0)));
}

#[test]
fn one_task() {
    assert_eq!(answer_bytes(b"W\t1\nT\ta\t7\tw5\n"), b"7\t0\n");
    assert_eq!(printed(&["a 0"]), "0 0");
    assert_eq!(printed(&["a 1000 r1 w2 r3 w4"]), "1000 0");
}

/// Tasks conflict where they share an address and one of them writes there.
#[test]
fn conflicts() {
    assert_eq!(printed(&["a 3 w5", "b 4 w5"]), "7 0 1");
    assert_eq!(printed(&["a 3 w5", "b 4 r5"]), "7 0 1");
    assert_eq!(printed(&["a 3 r5", "b 4 w5"]), "7 0 1");
    assert_eq!(printed(&["a 3 r5", "b 4 r5"]), "4 1");
    assert_eq!(printed(&["a 3 w5", "b 4 w6"]), "4 1");
    assert_eq!(printed(&["a 3 w5", "b 4"]), "4 1");
    assert_eq!(printed(&["a 3 w1 r5", "b 4 r5 w2"]), "4 1");
    assert_eq!(printed(&["a 3 r1 r2 r3 r4", "b 4 r9 r8 r7 w4"]), "7 0 1");
    assert_eq!(printed(&["a 3 w0", "b 4 w65535"]), "4 1");
    assert_eq!(printed(&["a 3 w1", "b 4 w257"]), "4 1");
    assert_eq!(printed(&["a 3 w0 w1", "b 4 r1 r0"]), "7 0 1");
}

/// Each task conflicts with the next one; others of a chain need not.
#[test]
fn next_tasks() {
    assert_eq!(printed(&["a 1 w1", "b 1 r1 w2", "c 1 r2"]), "3 0 1 2");
    assert_eq!(printed(&["a 1 w1", "b 9 w2", "c 1 r1"]), "9 1");
    assert_eq!(printed(&["a 5 w1", "b 9 w2", "c 5 r1"]), "10 0 2");
    assert_eq!(
        printed(&["a 1 w1", "b 5 r1", "c 5 r1", "d 1 w1"]),
        "7 0 1 3"
    );
    // It never goes back: both of the last conflict with the first alone.
    assert_eq!(printed(&["a 1 w1 w2", "b 5 r1", "c 6 r2"]), "7 0 2");
}

/// Readers between two writers: one of them is in the chain.
#[test]
fn readers() {
    let readers = ["w 2 w5", "r 3 r5", "r 4 r5", "r 3 r5", "w 2 w5"];
    assert_eq!(printed(&readers), "8 0 2 4");
    assert_eq!(printed(&["a 5 r1", "b 6 r1", "c 7 r1"]), "7 2");
}

/// Of equal sums the first in order of numbers, whatever the lengths.
#[test]
fn equal_sums() {
    assert_eq!(printed(&["a 4", "b 4", "c 4"]), "4 0");
    assert_eq!(printed(&["a 3", "b 4", "c 4"]), "4 1");
    assert_eq!(printed(&["a 2 w1", "b 4", "c 2 w1"]), "4 0 2");
    assert_eq!(printed(&["a 4", "b 2 w1", "c 2 w1"]), "4 0");
    assert_eq!(printed(&["a 1 w1", "b 1 r1", "c 1 r1"]), "2 0 1");
    let split = ["a 1 w1 w2", "b 1 r1", "c 1 r2 w3", "d 1 r1 w4", "e 1 r4"];
    assert_eq!(printed(&split), "3 0 3 4");
    let crossed = ["a 1 w1", "b 1 w2", "c 1 r2", "d 1 r1"];
    assert_eq!(printed(&crossed), "2 0 3");
    let numbers: Vec<String> = (0..12).map(|_| "a 0".to_string()).collect();
    let mut numbers: Vec<&str> = numbers.iter().map(String::as_str).collect();
    numbers[2] = "b 1 w1";
    numbers[10] = "c 1 r1";
    numbers[9] = "d 1 r1";
    assert_eq!(printed(&numbers), "2 2 9");
}

/// A leading task of cost 0 makes a chain that comes earlier, a trailing one an
/// extension, which comes later.
#[test]
fn costs_of_0() {
    assert_eq!(printed(&["a 0 w1", "b 5 w1"]), "5 0 1");
    assert_eq!(printed(&["a 5 w1", "b 0 w1"]), "5 0");
    assert_eq!(printed(&["a 0 w1", "b 5 w1", "c 0 w1"]), "5 0 1");
    assert_eq!(printed(&["a 0 w2", "b 5 w1"]), "5 1");
    assert_eq!(
        printed(&["a 0 w1", "b 0 w1", "c 5 w1", "d 0 w1"]),
        "5 0 1 2"
    );
    // All conflict: the task of cost 0 between comes first too.
    assert_eq!(printed(&["a 5 w1", "b 0 w1", "c 5 w1"]), "10 0 1 2");
    // It can't stand between here.
    assert_eq!(printed(&["a 5 w1 w3", "b 0 w1", "c 5 w3"]), "10 0 2");
    // The sum needs it.
    assert_eq!(printed(&["a 5 w1", "b 0 w1 w2", "c 5 w2"]), "10 0 1 2");
    // Of two ways to the same sum the one by the lower number.
    let ways = ["a 5 w1 w2", "b 0 w1 w3", "c 0 w2 w4", "d 5 w3 w4"];
    assert_eq!(printed(&ways), "10 0 1 3");
    assert_eq!(printed(&["a 0 w1", "b 0 w1", "c 0 w1"]), "0 0");
    assert_eq!(printed(&["a 0", "b 0", "c 0"]), "0 0");
}

/// 128 tasks of cost 0: the first alone.
#[test]
fn all_costs_0() {
    for access in ["w1", "r1"] {
        assert_eq!(printed(&[format!("a 0 {access}").as_str(); 128]), "0 0");
    }
    assert_eq!(printed(&["a 0"; 128]), "0 0");
}

/// The largest sum and all numbers: no line is longer.
#[test]
fn longest_line() {
    let text = longest_plan();
    let numbers: Vec<String> = (0..128).map(|number| number.to_string()).collect();
    let wanted = format!("128000\t{}\n", numbers.join("\t")).into_bytes();
    assert_eq!(wanted.len(), LONGEST_LINE);
    assert_eq!(LONGEST_LINE, 409);
    assert_eq!(answer_bytes(&text), wanted);
    assert_fits(&wanted, 21, |room| answered(&text, room));
}

/// 128 tasks of the highest cost, which all write one address.
fn longest_plan() -> Vec<u8> {
    let mut plan = vec!["W 32"];
    plan.extend(["T a-label-of-sixte 1000 w65535"; 128]);
    lines(&plan)
}

/// Neither M lines nor the W line nor order lines tell.
#[test]
fn lines_that_change_nothing() {
    let tasks = ["T a 0 w1", "T b 5 r1 w2", "T c 5 r1 w3", "T d 1 r2 r3"];
    let tied = [
        "T a 0 w1",
        "M 4",
        "T b 5 r1 w2",
        "T c 5 r1 w3",
        "M 7",
        "T d 1 r2 r3",
        "M 1",
    ];
    for first in ["W 3", "W 32", "W 3 3 1", "W 3 64 16"] {
        for order in [&[][..], &["P 0 1"], &["R 9", "S 3 4"]] {
            for tasks in [&tasks[..], &tied] {
                let plan = [&[first][..], tasks, order].concat();
                assert_eq!(shown(&lines(&plan)), "6 0 1 3");
            }
        }
    }
    let rng = &mut Rng::new(5);
    for _ in 0..500 {
        let count = rng.between(0, 20);
        let free = without_masks(rng, |rng| chained(rng, count));
        let tied = with_everybody(&free, check(&free).unwrap().workers);
        assert_eq!(answer_bytes(&tied), answer_bytes(&free));
    }
}

/// A refused text gives the reader's number and line, whatever the output.
#[test]
fn refusals_of_the_reader() {
    let many = [&["W 1"][..], &["T a 0"; 129]].concat();
    let refused: [(&[&str], (u8, u64)); 14] = [
        (&[], (3, 1)),
        (&["W 1", "T a 0 x1"], (1, 2)),
        (&["W 1", "T a 0", "X"], (1, 3)),
        (&["W 33"], (2, 1)),
        (&["W 1", "T a 1001"], (2, 2)),
        (&["W 1", "T a 0 w65536"], (2, 2)),
        (&["W 1", "R 1", "T a 0"], (3, 3)),
        (&["W 1", "M 1"], (3, 2)),
        (&many, (4, 130)),
        (&["W 1", "T a 0 r1 r2 r3 r4 r5"], (4, 2)),
        (&["W 1", "T a 0 r5 w5"], (5, 2)),
        (&["W 4 3 8"], (9, 1)),
        (&["W 1", "T a 0", "M 0"], (11, 3)),
        (&["W 1", "T a 0", "P 1 1"], (2, 3)),
    ];
    for (plan, refusal) in refused {
        for room in [0, 1, 5, 500] {
            assert_eq!(answered(&lines(plan), room), Err(refusal), "{plan:?}");
        }
        let (number, line) = refusal;
        assert_eq!(shown(&lines(plan)), format!("X {number} {line}"));
    }
    assert_eq!(answered(b"W\t1", 9), Err((1, 1)));
}

/// 6 is by the text alone: its line is short.
#[test]
fn size_of_the_text() {
    for room in 0..9 {
        let expected = if room < 4 {
            Err((8, 0))
        } else {
            Ok(b"3\t0\n".to_vec())
        };
        assert_eq!(answered(&fitted(65_535), room), expected);
        assert_eq!(answered(&fitted(65_536), room), expected);
        assert_eq!(answered(&fitted(65_537), room), Err((6, 0)));
        assert_eq!(answered(&vec![b'W'; 65_537], room), Err((6, 0)));
    }
}

/// A plan of so many bytes with one task of cost 3.
fn fitted(size: usize) -> Vec<u8> {
    let mut text = b"W\t1\nT\ta\t3\n".to_vec();
    while text.len() + 8 <= size {
        text.extend(b"R\t1\n");
    }
    let last = ["R\t1\n", "R\t10\n", "R\t100\n", "R\t1000\n"];
    text.extend(last[size - text.len() - 4].bytes());
    assert_eq!(text.len(), size);
    text
}

/// 8 comes last, and only where the line doesn't fit.
#[test]
fn room_for_the_line() {
    let rng = &mut Rng::new(6);
    for _ in 0..300 {
        let count = rng.between(0, 40);
        let text = chained(rng, count);
        let wanted = answer_bytes(&text);
        assert_fits(&wanted, 5, |room| answered(&text, room));
    }
}

/// Both ways on random plans of few tasks.
#[test]
fn both_ways_agree() {
    let rng = &mut Rng::new(7);
    let mut told = [0; 5];
    for _ in 0..20_000 {
        let count = rng.between(0, SEARCHED as u64);
        let tasks = tasks_of(&chained(rng, count));
        let chain = searched(&tasks);
        assert_eq!(programmed(&tasks), chain, "{tasks:?}");
        for (times, told) in told.iter_mut().zip(facts(&tasks)) {
            *times += usize::from(told);
        }
    }
    assert!(told.iter().all(|&times| times >= 1_000), "{told:?}");
}

fn facts(tasks: &[Task]) -> [bool; 5] {
    let chosen = Chosen::of(tasks);
    [
        chosen.among_equals,
        chosen.left_off,
        chosen.begins_with_0,
        chosen.joined_by_0,
        chosen.by_readers,
    ]
}

/// What told in a choice, seen in the list of all chains.
#[test]
fn what_told() {
    let rng = &mut Rng::new(8);
    for _ in 0..3_000 {
        let count = rng.between(0, 9);
        let tasks = tasks_of(&chained(rng, count));
        let chain = longest(&tasks);
        let chosen = Chosen::of(&tasks);
        let equal = |other: &Chain| other.sum == chain.sum && *other != chain;
        let equals: Vec<Chain> = all_chains(&tasks).filter(equal).collect();
        let extends = |other: &Chain| other.numbers.starts_with(&chain.numbers);
        assert_eq!(chosen.left_off, equals.iter().any(extends));
        assert_eq!(
            chosen.among_equals,
            equals.iter().any(|other| !extends(other))
        );
    }
}

/// Plans of many tasks: the chain is one, no chain costs more, and it is what one gets
/// who goes on with the first task that still leads to the sum.
#[test]
fn many_tasks() {
    let rng = &mut Rng::new(9);
    for round in 0..3_000 {
        let count = if round % 8 == 0 {
            128
        } else {
            rng.between(SEARCHED as u64 + 1, 128)
        };
        let tasks = tasks_of(&chained(rng, count));
        let chain = longest(&tasks);
        let costs = chain.numbers.iter().map(|&number| tasks[number].cost);
        assert_eq!(costs.sum::<u64>(), chain.sum);
        let mut steps = chain.numbers.windows(2);
        assert!(steps.all(|two| two[0] < two[1] && conflict(&tasks[two[0]], &tasks[two[1]])));
        assert_eq!(chain.sum, largest_sum(&tasks));
        assert_eq!(chain.numbers, first_that_leads(&tasks, chain.sum));
    }
}

/// By the chains that end with each task.
fn largest_sum(tasks: &[Task]) -> u64 {
    let mut sums = Vec::new();
    for task in tasks {
        let before = sums.iter().zip(tasks);
        let before = before.filter(|(_, other)| conflict(other, task));
        let most = before.map(|(&sum, _)| sum).max().unwrap_or(0);
        sums.push(most + task.cost);
    }
    sums.into_iter().max().unwrap_or(0)
}

fn first_that_leads(tasks: &[Task], sum: u64) -> Vec<usize> {
    let sums: Vec<u64> = from_each(tasks).iter().map(|chain| chain.sum).collect();
    let leads = |from: usize, left: u64| {
        let mut next = from..tasks.len();
        next.find(|&number| {
            sums[number] == left && (from == 0 || conflict(&tasks[from - 1], &tasks[number]))
        })
    };
    let mut numbers = vec![leads(0, sum).expect("a first task")];
    let mut left = sum - tasks[numbers[0]].cost;
    while left > 0 {
        let next = leads(numbers[numbers.len() - 1] + 1, left).expect("a next task");
        left -= tasks[next].cost;
        numbers.push(next);
    }
    numbers
}

/// Random texts, sound or not: refused as the reader does it, else answered.
#[test]
fn random_texts() {
    let rng = &mut Rng::new(10);
    let mut refusals = [0usize; 12];
    for round in 0..4_000 {
        let count = rng.between(0, 16);
        let text = match round % 4 {
            0 => damaged(rng),
            1 => damaged_chained(rng, count),
            2 => plan(rng, Shape::Small),
            _ => plan(rng, Shape::Medium),
        };
        let answer = answered(&text, LONGEST_LINE);
        match check(&text) {
            Ok(plan) => {
                refusals[0] += 1;
                let line = String::from_utf8(answer.unwrap()).unwrap();
                let fields = line.trim_end().split('\t').map(|field| field.parse());
                let fields: Vec<u64> = fields.collect::<Result<_, _>>().unwrap();
                let chain = longest(&plan.tasks);
                assert_eq!(fields[0], chain.sum);
                let numbers: Vec<u64> = chain.numbers.iter().map(|&n| n as u64).collect();
                assert_eq!(fields[1..], numbers);
            }
            Err(Refusal { number, line }) => {
                refusals[usize::from(number)] += 1;
                assert_eq!(answer, Err((number, line)));
            }
        }
    }
    let often = |&number: &usize| refusals[number] >= 30;
    assert!(
        [0, 1, 2, 3, 4, 5, 6, 9, 11].iter().all(often),
        "{refusals:?}"
    );
}

/// Under rounds alone a finished run takes at least W times the sum in picks.
#[test]
fn finished_runs_take_as_long() {
    let rng = &mut Rng::new(11);
    let mut finished = 0;
    for _ in 0..400 {
        let count = rng.between(0, 10);
        let text = chained(rng, count);
        let kept = text.split_inclusive(|&byte| byte == b'\n');
        let kept = kept.filter(|line| b"WTM".contains(&line[0]));
        let rounds: Vec<u8> = [&kept.collect::<Vec<_>>().concat()[..], b"R\t30000\n"].concat();
        let plan = check(&rounds).unwrap();
        let machine = play(&plan, u64::MAX);
        let least = plan.workers * longest(&plan.tasks).sum;
        if machine.finished() {
            finished += 1;
            assert!(machine.picks >= least, "{} of {least}", machine.picks);
        }
    }
    assert!(finished >= 300, "{finished}");
}

/// Samples are small, and what matters is among them.
#[test]
fn samples() {
    let (mut told, mut refused, mut none) = ([0; 5], 0, 0);
    for seed in 0..600 {
        let text = chain_sample(seed);
        assert!(text.len() <= 300);
        assert_eq!(chain_sample(seed), text);
        let Ok(plan) = check(&text) else {
            refused += 1;
            continue;
        };
        assert!(plan.tasks.len() <= 8);
        none += usize::from(plan.tasks.is_empty());
        for (times, told) in told.iter_mut().zip(facts(&plan.tasks)) {
            *times += usize::from(told);
        }
    }
    assert!(told.iter().all(|&times| times >= 20), "{told:?}");
    assert!((30..=120).contains(&refused), "{refused}");
    assert!((20..=80).contains(&none), "{none}");
}
