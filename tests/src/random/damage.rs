//! Texts with faults: in a field, in a line, in the order of lines, in the bytes
//! and in the size. Most are refused; a harmless change is kept as it is.

use super::draft::{access, is_task, join, line, order_line, Field, Line, OrderSize};
use super::form::{form, second_form, workers_line};
use super::masks::{everybody, mask, mask_line};
use super::{fill, medium, small, Rng};
use crate::plan::{TASK_LIMIT, TEXT_LIMIT};

/// A damaged text of any size.
pub fn damaged(rng: &mut Rng) -> Vec<u8> {
    match rng.below(31) {
        0 => noise(rng),
        1 => Vec::new(),
        2..=4 => sized(rng),
        5 => long_field(rng),
        6 | 7 => bytes_only(rng),
        8..=10 => {
            let mut lines = small(rng);
            workers_faults(rng, &mut lines);
            join(&lines)
        }
        11..=14 => {
            let mut lines = small(rng);
            let at = rng.index(lines.len());
            mask_faults(rng, &mut lines, at, true);
            join(&lines)
        }
        _ => {
            let mut lines = if rng.one_in(4) {
                medium(rng)
            } else {
                small(rng)
            };
            faults(rng, &mut lines, true);
            let mut text = join(&lines);
            if rng.one_in(8) {
                damage_bytes(rng, &mut text);
            }
            text
        }
    }
}

/// One fault, or two in the same line or in any lines. `large` allows such that
/// make a text long.
pub fn faults(rng: &mut Rng, lines: &mut Vec<Line>, large: bool) {
    let at = rng.index(lines.len());
    fault(rng, lines, at, large);
    match rng.below(5) {
        0 => fault(rng, lines, at, large),
        1 => {
            let other = rng.index(lines.len());
            fault(rng, lines, other, large);
        }
        _ => {}
    }
}

/// A fault near the line `at`; kinds that need a task line look for one.
fn fault(rng: &mut Rng, lines: &mut Vec<Line>, at: usize, large: bool) {
    // An earlier fault may have taken a line away.
    let at = at.min(lines.len() - 1);
    match rng.below(22) {
        0 | 1 => field_form(rng, &mut lines[at]),
        2 if rng.one_in(5) => lines.insert(at, vec![Vec::new()]),
        2 => line_form(rng, &mut lines[at]),
        3 | 4 => range(rng, lines, at),
        5..=7 => place(rng, lines, at),
        8 if large => too_many_tasks(rng, lines),
        8..=11 => too_many_accesses(rng, lines, at),
        12..=14 => address_twice(rng, lines, at),
        15..=17 => workers_faults(rng, lines),
        18..=20 => mask_faults(rng, lines, at, large),
        _ => limit_reached(rng, lines, at),
    }
}

/// Makes the first line a W line of the second form, mostly, and spoils it, at
/// times in two ways.
pub fn workers_faults(rng: &mut Rng, lines: &mut [Line]) {
    let workers = workers_of(lines).clamp(1, 32);
    if !rng.one_in(6) {
        lines[0] = workers_line(workers, second_form(rng, workers));
    }
    for _ in 0..rng.choose(&[1, 1, 2]) {
        match rng.below(10) {
            0..=5 if lines[0].len() == 4 => {
                let slots = workers - rng.between(1, workers);
                let slots = rng.choose(&[slots, workers - 1, workers - 1]);
                lines[0][2] = slots.to_string().into_bytes();
            }
            6 => line_form(rng, &mut lines[0]),
            7 => field_form(rng, &mut lines[0]),
            8 => many_digits(rng, &mut lines[0]),
            _ => range(rng, lines, 0),
        }
    }
}

/// Raises a number by a power of two, so that it is the same in fewer bits, or
/// makes it one of many digits.
fn many_digits(rng: &mut Rng, line: &mut Line) {
    let at = rng.index(line.len());
    let field = std::str::from_utf8(&line[at]).unwrap_or("");
    let raised = match field.parse::<u128>() {
        Ok(number) if rng.one_in(2) => number.checked_add(1 << rng.choose(&[8, 16, 32, 64])),
        _ => None,
    };
    line[at] = match raised {
        Some(number) => number.to_string().into_bytes(),
        None => vec![rng.choose(b"19"); rng.between(19, 40) as usize],
    };
}

/// Spoils the form of one field.
fn field_form(rng: &mut Rng, line: &mut Line) {
    let at = rng.index(line.len());
    let field = &mut line[at];
    match rng.below(14) {
        0 => field.insert(0, b'0'),
        1 => field.clear(),
        2 => field.insert(0, b' '),
        3 => field.push(b' '),
        4 => field.push(b'\r'),
        5 => field.insert(0, b'+'),
        6 => field.insert(0, b'-'),
        7 => insert(rng, field, b'x'),
        8 => insert(rng, field, b'.'),
        9 => *field = b"00".to_vec(),
        10 => {
            *field = rng
                .choose(&[&b"X"[..], b"w", b"t", b"TT", b"E", b"m"])
                .to_vec()
        }
        11 => {
            *field = rng
                .choose(&[&b"r"[..], b"w", b"a5", b"R5", b"r05", b"rw5", b"5"])
                .to_vec()
        }
        12 => *field = vec![b'a'; rng.between(15, 18) as usize],
        _ => {
            let byte = rng.byte();
            insert(rng, field, byte);
        }
    }
}

fn insert(rng: &mut Rng, field: &mut Field, byte: u8) {
    let at = rng.index(field.len() + 1);
    field.insert(at, byte);
}

/// Too few or too many fields.
fn line_form(rng: &mut Rng, line: &mut Line) {
    match rng.below(4) {
        0 => line.push(b"1".to_vec()),
        1 => line.push(Vec::new()),
        2 => line.truncate(1),
        _ => {
            line.pop();
        }
    }
    if line.is_empty() {
        line.push(Vec::new());
    }
}

/// Puts one number of the line just outside of its range.
fn range(rng: &mut Rng, lines: &mut [Line], at: usize) {
    let workers = workers_of(lines);
    let over_64_bits = "18446744073709551616".to_string();
    let line = &mut lines[at];
    let length = line.len();
    let (field, value) = match (line[0].as_slice(), length) {
        (b"W", 2) => (1, rng.choose(&["0", "33"]).to_string()),
        (b"W", 4) => {
            let (field, above) = rng.choose(&[(1, "33"), (2, "65"), (3, "17")]);
            (field, rng.choose(&["0", above]).to_string())
        }
        (b"T", 3) => (2, "1001".to_string()),
        (b"T", 4..) if rng.one_in(2) => {
            let kind = rng.choose(&["r", "w"]);
            (3 + rng.index(length - 3), format!("{kind}65536"))
        }
        (b"T", 4..) => (2, "1001".to_string()),
        (b"M", 2) => (1, (1u128 << workers.min(32)).to_string()),
        (b"P", 3) if rng.one_in(2) => (1, workers.to_string()),
        (b"P", 3) => (2, rng.choose(&["0", "4097"]).to_string()),
        (b"R", 2) => (1, rng.choose(&["0", "1000001"]).to_string()),
        (b"S", 3) if rng.one_in(2) => (1, over_64_bits),
        (b"S", 3) => (2, rng.choose(&["0", "1000001"]).to_string()),
        _ => (length - 1, over_64_bits),
    };
    line[field] = value.into_bytes();
}

/// Puts one number of the line at the end of its range: no fault, but a close one.
fn limit_reached(rng: &mut Rng, lines: &mut [Line], at: usize) {
    let workers = workers_of(lines);
    let line = &mut lines[at];
    match (line[0].as_slice(), line.len()) {
        (b"W", 4) => {
            line[2] = rng.choose(&[workers, 64]).to_string().into_bytes();
            line[3] = rng.choose(&[1, 16]).to_string().into_bytes();
        }
        (b"T", 3..) => line[2] = rng.choose(&[&b"0"[..], b"1000"]).to_vec(),
        (b"M", 2) => {
            let all = everybody(workers.clamp(1, 32));
            *line = mask_line(rng.choose(&[1, all, all - all / 2]));
        }
        (b"P", 3) => line[1] = (workers.max(1) - 1).to_string().into_bytes(),
        (b"S", 3) => line[1] = u64::MAX.to_string().into_bytes(),
        _ => {}
    }
}

/// The number in the first line's second field, 1 where there is none.
fn workers_of(lines: &[Line]) -> u64 {
    let field = lines.first().and_then(|line| line.get(1));
    let text = field.and_then(|field| std::str::from_utf8(field).ok());
    text.and_then(|text| text.parse().ok()).unwrap_or(1)
}

/// A line where it may not stand.
fn place(rng: &mut Rng, lines: &mut Vec<Line>, at: usize) {
    match rng.below(7) {
        0 => {
            lines.remove(0);
            if lines.is_empty() {
                lines.push(line(&[&"R", &1]));
            }
        }
        1 => {
            let workers = rng.choose(&[1, 2, 32, 33, 99]);
            let form = form(rng, workers.min(32));
            lines.insert(at + 1, workers_line(workers, form));
            if rng.one_in(3) {
                range(rng, lines, at + 1);
            }
        }
        2 => lines.push(line(&[&"T", &"late", &rng.choose(&[0, 1_000, 1_001])])),
        3 => lines.insert(at, line(&[&"R", &rng.choose(&[1, 2])])),
        4 => {
            let other = rng.index(lines.len());
            lines.swap(at, other);
        }
        5 => misplaced_mask(rng, lines),
        _ => {
            let doubled = lines[at].clone();
            lines.insert(at, doubled);
        }
    }
}

/// Gives a task an M line with a fault of its own or puts one where it may not stand;
/// at times both, or an M line that is sound. `large` allows a mask of many digits.
pub fn mask_faults(rng: &mut Rng, lines: &mut Vec<Line>, at: usize, large: bool) {
    let workers = workers_of(lines).clamp(1, 32);
    let misplaced = rng.one_in(3);
    if misplaced {
        misplaced_mask(rng, lines);
    }
    if !misplaced || rng.one_in(4) {
        let behind = task_at(lines, at) + 1;
        if lines.get(behind).is_some_and(is_mask) {
            lines.remove(behind);
        }
        let line = match rng.below(12) {
            0 => mask_line(mask(rng, workers)),
            _ => faulty_mask(rng, workers, large),
        };
        lines.insert(behind, line);
    }
}

/// An M line as the first line, behind the W line, an order line or an M line, or
/// anywhere; it may have a fault of its own too.
fn misplaced_mask(rng: &mut Rng, lines: &mut Vec<Line>) {
    let workers = workers_of(lines).clamp(1, 32);
    let sound = mask_line(mask(rng, workers));
    let line = match rng.below(3) {
        0 => faulty_mask(rng, workers, false),
        _ => sound.clone(),
    };
    let at = match rng.below(8) {
        0 => 0,
        1 | 2 => 1,
        3 | 4 => lines.len(),
        5 | 6 => {
            let behind = task_at(lines, rng.index(lines.len())) + 1;
            if !lines.get(behind).is_some_and(is_mask) {
                lines.insert(behind, sound);
            }
            behind + 1
        }
        _ => rng.index(lines.len() + 1),
    };
    lines.insert(at.min(lines.len()), line);
}

/// An M line with a fault that it has in any place: no worker, a worker that there is
/// not, also where fewer bits would not show it, or another form.
fn faulty_mask(rng: &mut Rng, workers: u64, large: bool) -> Line {
    let above = 1u128 << workers;
    let sound = u128::from(mask(rng, workers));
    let many = if large { 30_000 } else { 21 };
    let digits = rng.choose(&[10, 20, 40, many, many]);
    match rng.below(18) {
        0..=7 => mask_line(0),
        8 => line(&[&"M", &above]),
        9 => line(&[&"M", &(above + sound)]),
        10 => line(&[&"M", &(sound + (1 << rng.choose(&[32, 64, 64])))]),
        11 => line(&[&"M", &rng.choose(&["1", "4", "9"]).repeat(digits)]),
        12 => line(&[&"M"]),
        13 => line(&[&"M", &""]),
        14 => line(&[&"M", &sound, &rng.choose(&["", "0", "1"])]),
        15 => line(&[&"M", &format!("0{}", rng.choose(&[0, sound]))]),
        16 => line(&[&"M", &format!("-{}", rng.choose(&[0, sound]))]),
        _ => line(&[&"M", &format!("0x{sound:x}")]),
    }
}

fn is_mask(line: &Line) -> bool {
    line.first().is_some_and(|field| field == b"M")
}

/// The task line at or after `at`, else any; one is put in where there is none.
fn task_line(lines: &mut Vec<Line>, at: usize) -> &mut Line {
    let index = task_at(lines, at);
    &mut lines[index]
}

/// Where that line is.
fn task_at(lines: &mut Vec<Line>, at: usize) -> usize {
    let found = (at..lines.len()).chain(0..at).find(|&i| is_task(&lines[i]));
    found.unwrap_or_else(|| {
        let second = lines.len().min(1);
        lines.insert(second, line(&[&"T", &"in", &0]));
        second
    })
}

fn too_many_tasks(rng: &mut Rng, lines: &mut Vec<Line>) {
    let count = lines.iter().filter(|line| is_task(line)).count();
    let wanted = TASK_LIMIT + rng.choose(&[0, 1, 1, 2]);
    let after = lines.iter().rposition(is_task).unwrap_or(0);
    let mut added = vec![line(&[&"T", &"more", &0]); wanted.saturating_sub(count)];
    if let Some(last) = added.last_mut() {
        match rng.below(6) {
            0 => last[2] = b"1001".to_vec(),
            1 => last.extend([b"r5".to_vec(), b"w5".to_vec()]),
            _ => {}
        }
    }
    let at = (after + 1).min(lines.len());
    lines.splice(at..at, added);
}

fn too_many_accesses(rng: &mut Rng, lines: &mut Vec<Line>, at: usize) {
    let wanted = 3 + rng.choose(&[4, 5, 5, 6, 9]);
    let task = task_line(lines, at);
    while task.len() < wanted {
        task.push(access(rng.one_in(2), rng.below(12)));
    }
    // The last one may have a fault that comes first.
    if rng.one_in(4) {
        let last = task.len() - 1;
        task[last] = rng
            .choose(&[&b"r65536"[..], b"w65536", b"x1", b"r", b""])
            .to_vec();
    }
}

fn address_twice(rng: &mut Rng, lines: &mut Vec<Line>, at: usize) {
    let task = task_line(lines, at);
    task.truncate(3 + rng.index(4));
    let address = rng.choose(&[0, 5, 65_535, 65_535, 65_536]);
    for _ in 0..rng.choose(&[2, 2, 2, 3]) {
        let place = rng.between(3.min(task.len() as u64), task.len() as u64) as usize;
        task.insert(place, access(rng.one_in(2), address));
    }
}

/// A number of 40,000 digits, or a label of so many letters.
fn long_field(rng: &mut Rng) -> Vec<u8> {
    let mut lines = small(rng);
    let at = rng.index(lines.len());
    let field = rng.index(lines[at].len());
    let filler = rng.choose(b"019a");
    let mut long = vec![filler; 40_000];
    long[0] = rng.choose(b"019rwa");
    lines[at][field] = long;
    if rng.one_in(4) {
        let other = rng.index(lines.len());
        fault(rng, &mut lines, other, false);
    }
    join(&lines)
}

fn bytes_only(rng: &mut Rng) -> Vec<u8> {
    let mut text = join(&small(rng));
    for _ in 0..rng.between(1, 2) {
        damage_bytes(rng, &mut text);
    }
    text
}

/// Cuts, doubles, inserts, replaces or removes bytes.
pub fn damage_bytes(rng: &mut Rng, text: &mut Vec<u8>) {
    if text.is_empty() {
        return;
    }
    let at = rng.index(text.len());
    match rng.below(10) {
        0 => text.truncate(at),
        1 => text.insert(at, text[at]),
        2 => {
            let end = (at + rng.between(2, 12) as usize).min(text.len());
            let part = text[at..end].to_vec();
            text.splice(at..at, part);
        }
        3 => text.insert(at, rng.byte()),
        4 => text[at] = rng.byte(),
        5 => remove_one(rng, text, b'\t'),
        6 => remove_one(rng, text, b'\n'),
        7 => {
            text.pop();
        }
        8 => {
            if let Some(tab) = nth(rng, text, b'\t') {
                text[tab] = b' ';
            }
        }
        _ => {
            if let Some(end) = nth(rng, text, b'\n') {
                text.insert(end, b'\r');
            }
        }
    }
}

/// The index of a random occurrence of a byte.
fn nth(rng: &mut Rng, text: &[u8], byte: u8) -> Option<usize> {
    let found: Vec<usize> = (0..text.len()).filter(|&at| text[at] == byte).collect();
    if found.is_empty() {
        None
    } else {
        Some(rng.choose(&found))
    }
}

fn remove_one(rng: &mut Rng, text: &mut Vec<u8>, byte: u8) {
    if let Some(at) = nth(rng, text, byte) {
        text.remove(at);
    }
}

/// Random bytes, from all 256 or from those that plans are made of.
fn noise(rng: &mut Rng) -> Vec<u8> {
    const USUAL: &[u8] = b"WTMPRS\t\n\t\n0123rw5-a";
    let all = rng.one_in(2);
    let length = rng.between(1, 60);
    (0..length)
        .map(|_| if all { rng.byte() } else { rng.choose(USUAL) })
        .collect()
}

/// Texts around the largest size.
fn sized(rng: &mut Rng) -> Vec<u8> {
    let size = TEXT_LIMIT - 1 + rng.choose(&[0, 1, 2, 2, 2, 2]);
    if rng.one_in(6) {
        return vec![rng.choose(b"W\n\t0"); size];
    }
    let mut lines = small(rng);
    if rng.one_in(4) {
        faults(rng, &mut lines, false);
    }
    let workers = workers_of(&lines).clamp(1, 32);
    let mut text = join(&lines);
    fill(rng, &mut text, workers, size);
    if rng.one_in(8) {
        // A fault at the very end, the size kept.
        let end = order_line(
            rng,
            workers + 1,
            OrderSize {
                repeat: 1,
                rounds: 1,
                seeded: 1,
            },
        );
        let end = join(&[end]);
        let keep = text.len() - end.len();
        text.truncate(keep);
        text.extend(end);
    }
    text
}
