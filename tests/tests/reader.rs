//! The reader beside a slow one that splits the text into lines and fields and
//! asks every question of every line.

use second::plan::{check, Access, Form, Label, Order, Plan, Refusal, Task};
use second::random::{damaged, plan, sample, Rng, Shape};

const ASKED_IN_ORDER: [u8; 7] = [1, 3, 2, 4, 5, 9, 11];

fn split(text: &[u8]) -> Vec<(usize, Vec<u8>, bool)> {
    let mut found = Vec::new();
    let mut start = 0;
    while start < text.len() {
        let end = text[start..]
            .iter()
            .position(|&byte| byte == b'\n')
            .map(|at| start + at);
        let stop = end.unwrap_or(text.len());
        found.push((start, text[start..stop].to_vec(), end.is_some()));
        start = stop + 1;
    }
    found
}

fn is_number(field: &[u8]) -> bool {
    !field.is_empty()
        && field.iter().all(u8::is_ascii_digit)
        && (field.len() == 1 || field[0] != b'0')
}

/// The value where it has at most 20 digits; so 10^20 stands for all above.
fn value(field: &[u8]) -> u128 {
    if field.len() > 20 {
        return 10u128.pow(20);
    }
    std::str::from_utf8(field).unwrap().parse().unwrap()
}

fn is_label(field: &[u8]) -> bool {
    (1..=16).contains(&field.len())
        && field
            .iter()
            .all(|byte| byte.is_ascii_alphanumeric() || *byte == b'-')
}

fn is_access(field: &[u8]) -> bool {
    matches!(field.first(), Some(b'r' | b'w')) && is_number(&field[1..])
}

fn well_formed(fields: &[&[u8]]) -> bool {
    let numbers = |count: usize| fields.len() == count && fields[1..].iter().all(|f| is_number(f));
    match fields[0] {
        b"W" => numbers(2) || numbers(4),
        b"M" | b"R" => numbers(2),
        b"P" | b"S" => numbers(3),
        b"T" => {
            fields.len() >= 3
                && is_label(fields[1])
                && is_number(fields[2])
                && fields[3..].iter().all(|f| is_access(f))
        }
        _ => false,
    }
}

/// What was read before the line.
struct Before {
    line: usize,
    /// Whether the line before is a T line.
    after_task: bool,
    workers: u128,
    tasks: usize,
    orders: usize,
}

fn has_fault(number: u8, fields: &[&[u8]], ended: bool, before: &Before) -> bool {
    let kind = fields[0];
    let within = |field: &[u8], low: u128, high: u128| (low..=high).contains(&value(field));
    match number {
        1 => !ended || !well_formed(fields),
        3 => {
            (kind == b"W") != (before.line == 1)
                || (kind == b"T" && before.orders > 0)
                || (kind == b"M" && !before.after_task)
        }
        2 => match kind {
            b"W" => {
                let ends = [(1, 32), (1, 64), (1, 16)];
                let mut numbers = fields[1..].iter().zip(ends);
                numbers.any(|(f, (low, high))| !within(f, low, high))
            }
            b"T" => {
                !within(fields[2], 0, 1_000)
                    || fields[3..].iter().any(|f| !within(&f[1..], 0, 65_535))
            }
            b"M" => value(fields[1]) >= 1 << before.workers,
            b"P" => value(fields[1]) >= before.workers || !within(fields[2], 1, 4_096),
            b"R" => !within(fields[1], 1, 1_000_000),
            _ => value(fields[1]) >= 1 << 64 || !within(fields[2], 1, 1_000_000),
        },
        4 => kind == b"T" && (before.tasks == 128 || fields.len() > 7),
        5 => {
            let mut addresses: Vec<&[u8]> = fields[3.min(fields.len())..]
                .iter()
                .map(|f| &f[1..])
                .collect();
            addresses.sort();
            kind == b"T" && addresses.windows(2).any(|pair| pair[0] == pair[1])
        }
        9 => kind == b"W" && fields.len() == 4 && value(fields[2]) < value(fields[1]),
        _ => kind == b"M" && fields[1] == b"0",
    }
}

fn slow_check(text: &[u8]) -> Result<Plan, Refusal> {
    if text.len() > 65_536 {
        return Err(Refusal { number: 6, line: 0 });
    }
    if text.is_empty() {
        return Err(Refusal { number: 3, line: 1 });
    }
    let mut plan = Plan {
        workers: 0,
        form: Form::First,
        tasks: Vec::new(),
        orders: Vec::new(),
    };
    let mut after_task = false;
    for (index, (start, line, ended)) in split(text).iter().enumerate() {
        let fields: Vec<&[u8]> = line.split(|&byte| byte == b'\t').collect();
        let before = Before {
            line: index + 1,
            after_task,
            workers: u128::from(plan.workers),
            tasks: plan.tasks.len(),
            orders: plan.orders.len(),
        };
        for number in ASKED_IN_ORDER {
            if has_fault(number, &fields, *ended, &before) {
                return Err(Refusal {
                    number,
                    line: index as u64 + 1,
                });
            }
        }
        after_task = fields[0] == b"T";
        note(&mut plan, &fields, *start);
    }
    Ok(plan)
}

fn note(plan: &mut Plan, fields: &[&[u8]], start: usize) {
    let number = |at: usize| value(fields[at]) as u64;
    match fields[0] {
        b"W" => {
            plan.workers = number(1);
            if fields.len() == 4 {
                let (slots, capacity) = (number(2), number(3));
                plan.form = Form::Second { slots, capacity };
            }
        }
        b"T" => plan.tasks.push(Task {
            label: Label {
                start: start + 2,
                len: fields[1].len(),
            },
            cost: number(2),
            accesses: fields[3..]
                .iter()
                .map(|f| Access {
                    writes: f[0] == b'w',
                    address: value(&f[1..]) as u64,
                })
                .collect(),
            mask: None,
        }),
        b"M" => plan.tasks.last_mut().unwrap().mask = Some(number(1)),
        b"P" => plan.orders.push(Order::Repeat {
            worker: number(1),
            times: number(2),
        }),
        b"R" => plan.orders.push(Order::Rounds { rounds: number(1) }),
        _ => plan.orders.push(Order::Seeded {
            seed: number(1),
            times: number(2),
        }),
    }
}

fn compare(text: &[u8]) {
    let shown = || String::from_utf8_lossy(&text[..text.len().min(300)]).into_owned();
    assert_eq!(check(text), slow_check(text), "{}", shown());
}

#[test]
fn damaged_texts() {
    let rng = &mut Rng::new(1);
    for _ in 0..6_000 {
        compare(&damaged(rng));
    }
}

#[test]
fn sound_texts() {
    let rng = &mut Rng::new(2);
    for _ in 0..3_000 {
        compare(&plan(rng, Shape::Small));
        compare(&plan(rng, Shape::Medium));
    }
    for _ in 0..50 {
        compare(&plan(rng, Shape::Large));
        compare(&plan(rng, Shape::Full));
    }
    (0..3_000).for_each(|seed| compare(&sample(seed)));
}

/// Every text of up to six bytes over a few that matter.
#[test]
fn all_short_texts() {
    const BYTES: [u8; 7] = *b"WRM\t\n01";
    for length in 0..=6u32 {
        for code in 0..BYTES.len().pow(length) {
            let mut rest = code;
            let mut short = Vec::new();
            for _ in 0..length {
                short.push(BYTES[rest % BYTES.len()]);
                rest /= BYTES.len();
            }
            for before in [
                "",
                "W\t1\n",
                "W\t10\t",
                "W\t1\nT\ta\t0\n",
                "W\t1\nT\ta\t0\nM\t1\n",
            ] {
                compare(&[before.as_bytes(), &short].concat());
            }
        }
    }
}

/// Every three numbers that a W line may have, and those next to their ends.
#[test]
fn all_sizes() {
    let mut accepted = 0;
    for workers in 0..=33 {
        for slots in 0..=65 {
            for capacity in 0..=17 {
                let text = format!("W\t{workers}\t{slots}\t{capacity}\n");
                compare(text.as_bytes());
                accepted += u64::from(check(text.as_bytes()).is_ok());
            }
        }
    }
    let rings: u64 = (1..=32).map(|workers| 65 - workers).sum();
    assert_eq!(accepted, rings * 16);
}

/// Every mask of a few workers, and those next to its ends.
#[test]
fn all_masks() {
    for workers in 1..=6u64 {
        let mut accepted = 0;
        for mask in 0..=4u64 << workers {
            for behind in ["", "M\t1\n", "M\t0\n", "T\tb\t0\nM\t1\n", "R\t1\nM\t1\n"] {
                let text = format!("W\t{workers}\nT\ta\t0\nM\t{mask}\n{behind}");
                compare(text.as_bytes());
                accepted += u64::from(check(text.as_bytes()).is_ok());
            }
        }
        assert_eq!(accepted, 2 * ((1 << workers) - 1));
    }
}

/// Every byte value at every position of a sound text, put in or in place.
#[test]
fn every_single_byte_change() {
    for first in ["W 3", "W 3 10 8"] {
        let orders = ["P 2 1", "R 1", "S 1 1"];
        let tasks = ["T a-1 10 r5 w65535", "M 5", "T b 0"];
        let text = second::text::lines(&[&[first], &tasks[..], &orders].concat());
        for at in 0..=text.len() {
            for byte in 0..=255u8 {
                let mut inserted = text.clone();
                inserted.insert(at, byte);
                compare(&inserted);
                if at < text.len() {
                    let mut replaced = text.clone();
                    replaced[at] = byte;
                    compare(&replaced);
                }
            }
            compare(&text[..at]);
        }
    }
}
