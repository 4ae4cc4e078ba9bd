//! Plans that name their ring slots and queue capacity: start values, laps, full
//! queues, and how their reports stand to those of the first form.

use second::lock::Lock;
use second::machine::{Machine, Place};
use second::order::Picks;
use second::plan::{check, Form, Plan};
use second::random::{damaged, first_form, plan, Rng, Shape};
use second::run::{answer_bytes, play};
use second::text::lines;

/// The report, with blanks for tabs.
fn shown(plan: &[&str]) -> String {
    let report = answer_bytes(&lines(plan), u64::MAX);
    String::from_utf8(report).unwrap().replace('\t', " ")
}

fn played(plan: &[&str]) -> Machine {
    play(&check(&lines(plan)).unwrap(), u64::MAX)
}

#[test]
fn forms_are_remembered() {
    let form = |line: &str| check(&lines(&[line])).unwrap().form;
    assert_eq!(form("W 4"), Form::First);
    let (slots, capacity) = (64, 8);
    assert_eq!(form("W 4 64 8"), Form::Second { slots, capacity });
    assert_ne!(form("W 4"), form("W 4 64 8"));
    let (slots, capacity) = (5, 16);
    assert_eq!(form("W 4 5 16"), Form::Second { slots, capacity });
    assert_eq!((Form::First.slots(), Form::First.capacity()), (64, 8));
}

/// Head and wait slots start at the number of slots, the tail one above.
#[test]
fn start_values() {
    for slots in 1..=64u64 {
        let first = format!("W 1 {slots} 8");
        let ends = format!("L {slots} {} -\n", slots + 1);
        assert_eq!(shown(&[&first]), format!("E finished 0 0\n{ends}"));
        let new = format!("E open 0 1\nT 0 a new - - - -\n{ends}");
        assert_eq!(shown(&[&first, "T a 0"]), new);
        let lock = played(&[&first]).lock;
        assert_eq!(lock.wait, vec![slots; slots as usize]);
        assert_eq!(lock.registration, vec![0; slots as usize]);
        assert_eq!(lock.cells, [(0, 0)]);
    }
}

/// The paper's listing in the smallest ring: tickets 2 and 3, in slots 0 and 1.
#[test]
fn listing_in_two_slots() {
    let orders = ["T a 0", "P 1 3", "P 0 5", "P 1 4", "P 0 2"];
    let plan = [&["W 2 2 1"], &orders[..]].concat();
    let report = "E finished 14 2\nT 0 a over 0 13 14 1\nL 4 4 1\n";
    assert_eq!(shown(&plan), report);
    let lock = played(&plan).lock;
    assert_eq!(lock.registration, [2 + 1, 3]);
    // Ticket 3 was let in at 12; ticket 2 had its turn from the start.
    assert_eq!(lock.wait, [2, 3]);
    assert_eq!(lock.cells[0], (3, 0));
}

/// Slots are ticket mod slots, whatever their number: three, over two laps.
#[test]
fn three_slots() {
    // Worker 1 owns and leaves four times, 7 picks each: tickets 3, 4, 5 and 6.
    let lock = played(&["W 2 3 8", "T a 0", "P 1 28"]).lock;
    assert_eq!((lock.head, lock.tail), (7, 8));
    assert_eq!(lock.registration, [6 + 1, 4 + 1, 5 + 1]);
    // The hand-overs let in 4, 5, 6 and 7.
    assert_eq!(lock.wait, [6, 7, 5]);
}

/// In a ring of two slots worker 1's registration of the lap before, 2 + 1, is one
/// below the tail, 4, and is no waiter: the owner takes the task itself.
#[test]
fn registration_of_the_lap_before() {
    // Worker 1 owns with ticket 2 and leaves. Worker 0 adds a task, owns with ticket 3,
    // drains two queues and takes.
    let plan = ["W 2 2 8", "T a 0", "P 1 7", "P 0 3", "P 0 3", "P 0 3"];
    let lock = played(&plan).lock;
    assert_eq!((lock.tail, lock.registration[0]), (4, 2 + 1));
    let report = "E open 16 2\nT 0 a run 0 16 - 0\nL 4 4 0\n";
    assert_eq!(shown(&plan), report);
}

/// What 9 keeps away: with a slot too few the largest registration of the lap
/// before is read as a waiter.
#[test]
fn a_slot_too_few() {
    let mut lock = Lock::new(1, 2);
    let ticket = lock.take();
    lock.register(ticket, 1);
    assert_eq!((lock.tail, lock.front()), (2, Some(0)));
    let mut lock = Lock::new(2, 2);
    let ticket = lock.take();
    lock.register(ticket, 1);
    assert_eq!((lock.tail, lock.front()), (3, None));
    lock.hand_over(1);
    assert_eq!((lock.tail, lock.front()), (4, None));
}

/// A queue holds as many as its capacity says; the next push finds it full.
#[test]
fn every_capacity() {
    for capacity in 1..=16usize {
        let first = format!("W 2 2 {capacity}");
        let filling = format!("P 0 {}", 3 * capacity);
        let mut plan = vec![first.as_str()];
        plan.extend(vec!["T a 0"; capacity + 1]);
        plan.push(&filling);
        let machine = played(&plan);
        assert_eq!(machine.workers[0].queue.len(), capacity);
        assert_eq!(machine.counters.full_queue, 0);
        // Open, close, and a push that finds the queue full.
        plan.push("P 0 3");
        let machine = played(&plan);
        assert_eq!(machine.workers[0].queue.len(), capacity);
        assert_eq!(machine.workers[0].place, Place::TryLock);
        assert_eq!(machine.workers[0].to_add, [capacity]);
        // The try wins, two queues are drained, and the task is pushed after leaving.
        plan.push("P 0 5");
        let machine = played(&plan);
        assert_eq!(machine.counters.tries_won, 1);
        assert_eq!(machine.ready.len(), capacity);
        assert_eq!(machine.workers[0].queue, [capacity]);
        assert_eq!((machine.lock.head, machine.lock.tail), (3, 4));
    }
}

/// The text with another W line.
fn with_first_line(text: &[u8], first: &str) -> Vec<u8> {
    let end = text.iter().position(|&byte| byte == b'\n').unwrap();
    [first.replace(' ', "\t").as_bytes(), &text[end..]].concat()
}

/// A plan of the first form and the same one with 64 and 8 spelled out give the
/// same bytes, after every number of picks, and the same refusals.
#[test]
fn sixty_four_and_eight_spelled_out() {
    let rng = &mut Rng::new(21);
    let (mut reports, mut refusals) = (0, 0);
    for round in 0..3_000 {
        let text = first_form(rng, |rng| match round % 4 {
            0 => plan(rng, Shape::Medium),
            1 => damaged(rng),
            _ => plan(rng, Shape::Small),
        });
        let workers = match check(&text) {
            Ok(plan) => plan.workers,
            // A fault of the first line is no longer the same one in the other form.
            Err(refusal) if refusal.line < 2 => continue,
            Err(_) => {
                let digits = text[2..].iter().take_while(|byte| byte.is_ascii_digit());
                digits.fold(0, |value, digit| 10 * value + u64::from(digit - b'0'))
            }
        };
        let spelled = with_first_line(&text, &format!("W {workers} 64 8"));
        if spelled.len() > 65_536 {
            continue;
        }
        for limit in [rng.below(100), 20_000] {
            let expected = answer_bytes(&text, limit);
            assert_eq!(answer_bytes(&spelled, limit), expected);
            reports += usize::from(expected[0] == b'E');
            refusals += usize::from(expected[0] == b'X');
        }
    }
    assert!(reports >= 3_000 && refusals >= 300, "{reports}, {refusals}");
}

/// A report without its last line, and that line's head, tail and owner.
fn parts(report: &[u8]) -> (String, u64, u64, String) {
    let report = String::from_utf8(report.to_vec()).unwrap();
    let (before, last) = report.trim_end().rsplit_once('\n').unwrap();
    let fields: Vec<&str> = last.split('\t').collect();
    let number = |at: usize| fields[at].parse::<u64>().unwrap();
    (
        before.to_string(),
        number(1),
        number(2),
        fields[3].to_string(),
    )
}

/// The number of slots moves head and tail and nothing else: tickets start there.
#[test]
fn slots_only_move_the_tickets() {
    let rng = &mut Rng::new(22);
    for round in 0..3_000 {
        let shape = if round % 4 == 0 {
            Shape::Medium
        } else {
            Shape::Small
        };
        let text = plan(rng, shape);
        let sound = check(&text).unwrap();
        let (workers, capacity) = (sound.workers, sound.form.capacity());
        let slots = match rng.below(3) {
            0 => workers,
            1 => workers + 1,
            _ => rng.between(workers, 64),
        };
        let with = |slots: u64| {
            let first = format!("W {workers} {slots} {capacity}");
            parts(&answer_bytes(&with_first_line(&text, &first), 20_000))
        };
        let (others, head, tail, owner) = with(64);
        assert_eq!(
            with(slots),
            (others, head + slots - 64, tail + slots - 64, owner)
        );
    }
}

/// A capacity that is never reached has no effect, and one that is reached has.
#[test]
fn capacity_matters_where_a_queue_gets_full() {
    let rng = &mut Rng::new(23);
    let (mut same, mut other) = (0, 0);
    for _ in 0..1_000 {
        let text = plan(rng, Shape::Small);
        let sound = check(&text).unwrap();
        let (workers, slots) = (sound.workers, sound.form.slots());
        let with = |capacity: u64| {
            let first = format!("W {workers} {slots} {capacity}");
            let plan = check(&with_first_line(&text, &first)).unwrap();
            (play(&plan, u64::MAX).counters, highest(&plan))
        };
        let (deep, most) = with(16);
        assert!(most <= 16);
        for capacity in [1, 8] {
            let (counters, highest) = with(capacity);
            assert!(highest as u64 <= capacity);
            if most as u64 <= capacity {
                assert_eq!(counters, deep);
                same += 1;
            } else {
                assert!(counters.full_queue > 0);
                other += 1;
            }
        }
    }
    assert!(same >= 300 && other >= 300, "{same}, {other}");
}

/// The most tasks that a queue held at any time.
fn highest(plan: &Plan) -> usize {
    let mut machine = Machine::new(plan);
    let mut most = 0;
    for worker in Picks::new(plan) {
        if machine.finished() {
            break;
        }
        machine.step(worker);
        most = most.max(machine.workers[worker].queue.len());
    }
    most
}
