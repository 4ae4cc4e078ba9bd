//! Tasks tied to workers: whom a mask names, what an owner serves and takes, and how
//! runs with masks stand to those without.

use second::machine::{Machine, Place, State};
use second::plan::check;
use second::random::{plan, sample, with_everybody, without_masks, Rng, Shape};
use second::run::{answer_bytes, play};
use second::text::lines;

/// The report, with blanks for tabs.
fn shown(plan: &[&str]) -> String {
    let report = answer_bytes(&lines(plan), u64::MAX);
    String::from_utf8(report).unwrap().replace('\t', " ")
}

fn played(plan: &[&str]) -> Machine {
    play(&check(&lines(plan)).unwrap(), u64::MAX)
}

/// The workers that may run each task.
fn permitted(plan: &[&str]) -> Vec<u64> {
    let plan = check(&lines(plan)).unwrap();
    plan.tasks.iter().map(|task| plan.permitted(task)).collect()
}

/// Bit i is worker i; a task without an M line is for all, whatever its neighbours have.
#[test]
fn whom_a_mask_names() {
    let plan = [
        "W 3", "T a 0", "T b 0", "M 1", "T c 0 r5", "T d 0", "M 6", "R 1",
    ];
    assert_eq!(permitted(&plan), [7, 1, 7, 6]);
    assert_eq!(permitted(&["W 1", "T a 0", "M 1"]), [1]);
    assert_eq!(permitted(&["W 32", "T a 0"]), [4_294_967_295]);
    assert_eq!(
        permitted(&["W 32", "T a 0", "M 4294967295"]),
        [4_294_967_295]
    );
    assert_eq!(permitted(&["W 32", "T a 0", "M 2147483648"]), [1 << 31]);
}

/// The fourth field of the E line: the permitted workers of all tasks together.
#[test]
fn the_total() {
    let total = |plan: &[&str]| {
        let report = shown(plan);
        let first = report.lines().next().unwrap();
        first.split(' ').nth(3).unwrap().parse::<u64>().unwrap()
    };
    assert_eq!(total(&["W 3"]), 0);
    assert_eq!(total(&["W 3", "T a 0"]), 3);
    assert_eq!(total(&["W 3", "T a 0", "M 7"]), 3);
    assert_eq!(total(&["W 3", "T a 0", "M 2"]), 1);
    assert_eq!(total(&["W 3", "T a 0", "M 5", "T b 0", "T c 0", "M 4"]), 6);
    let mut most = vec!["W 32"];
    most.extend(["T a 0"; 128]);
    assert_eq!(total(&most), 4_096);
    let mut least = vec!["W 32"];
    least.extend(["T a 0", "M 65536"].repeat(128));
    assert_eq!(total(&least), 128);
    // It doesn't depend on how far the run got.
    let plan = ["W 2", "T a 0", "M 2", "P 1 3", "P 0 5", "P 1 4", "P 0 2"];
    for limit in 0..20 {
        let report = answer_bytes(&lines(&plan), limit);
        let first = report.split(|&byte| byte == b'\n').next().unwrap();
        assert!(first.ends_with(b"\t1"));
    }
}

/// An owner takes the first task that it may run out of the middle, and the others
/// keep their order.
#[test]
fn taken_from_the_middle() {
    // Worker 1 owns after 15 + 3 picks, drains two queues and takes.
    let mut plan = vec![
        "W 2", "T a 0", "M 1", "T b 0", "M 1", "T c 0", "T d 0", "M 1", "T e 0", "M 2", "P 0 15",
        "P 1 5",
    ];
    assert_eq!(played(&plan).ready, [0, 1, 2, 3, 4]);
    plan.push("P 1 1");
    let machine = played(&plan);
    assert_eq!(machine.workers[1].task, Some(2));
    assert_eq!(machine.ready, [0, 1, 3, 4]);
    // Leaves, ends, and comes again: e is the last and the only one for it.
    plan.push("P 1 8");
    let machine = played(&plan);
    assert_eq!(machine.workers[1].task, Some(4));
    assert_eq!(machine.ready, [0, 1, 3]);
    // Once more: nothing of what is ready is for it. It takes none, and leaves.
    plan.push("P 1 8");
    let machine = played(&plan);
    assert_eq!((machine.workers[1].task, machine.owner), (None, Some(1)));
    assert_eq!(machine.workers[1].place, Place::Leave);
    assert_eq!(machine.ready, [0, 1, 3]);
    plan.push("P 1 1");
    let machine = played(&plan);
    assert_eq!(
        (machine.workers[1].place, machine.owner),
        (Place::Free, None)
    );
    // Worker 0 takes the first one.
    plan.push("P 0 6");
    let machine = played(&plan);
    assert_eq!(machine.workers[0].task, Some(0));
    assert_eq!(machine.ready, [1, 3]);
    let report = "E open 44 6\nT 0 a run 0 44 - 0\nT 1 b ready - - - -\nT 2 c over 1 21 23 1\n\
                  T 3 d ready - - - -\nT 4 e over 1 29 31 1\nL 68 68 0\n";
    assert_eq!(shown(&plan), report);
}

/// A waiter's cell gets the first task that the waiter may run, whether its owner may
/// run it or not, and the others keep their order.
#[test]
fn served_from_the_middle() {
    // Worker 2 owns; workers 1 and 0 wait with tickets 65 and 66.
    let mut plan = vec![
        "W 3", "T a 0", "M 4", "T b 0", "M 1", "T c 0", "M 2", "T d 0", "T e 0", "P 0 15", "P 2 3",
        "P 1 2", "P 0 2", "P 2 3",
    ];
    assert_eq!(played(&plan).ready, [0, 1, 2, 3, 4]);
    plan.push("P 2 1");
    let machine = played(&plan);
    assert_eq!(machine.lock.cells[1], (65, 2));
    assert_eq!(machine.tasks[2].state, State::Held);
    assert_eq!(machine.ready, [0, 1, 3, 4]);
    // Handed over; the next waiter may run b, d and e.
    plan.push("P 2 2");
    let machine = played(&plan);
    assert_eq!(machine.lock.cells[0], (66, 1));
    assert_eq!(machine.ready, [0, 3, 4]);
    // Two were served: what is left for worker 2 itself is a, the first of all.
    plan.push("P 2 2");
    let machine = played(&plan);
    assert_eq!(machine.workers[2].task, Some(0));
    assert_eq!(machine.ready, [3, 4]);
    assert_eq!(machine.counters.served_past, 2);
    assert_eq!(machine.counters.taken_past, 0);
}

/// The waiter's mask decides what it is served with, the owner's what it takes.
#[test]
fn whose_mask() {
    let with = |masks: [&str; 2]| {
        // Worker 1 owns and has drained; worker 0 waits.
        let [first, second] = masks;
        let plan = [
            "W 2", "T a 0", first, "T b 0", second, "P 0 6", "P 1 3", "P 0 2", "P 1 3",
        ];
        let machine = played(&plan);
        let served = (machine.lock.cells[0].0 == 65).then_some(machine.lock.cells[0].1);
        (served, machine.workers[1].task)
    };
    // For worker 0 alone and for worker 1 alone, in both orders.
    assert_eq!(with(["M 1", "M 2"]), (Some(0), None));
    assert_eq!(with(["M 2", "M 1"]), (Some(1), None));
    // Nothing for the waiter, nothing for the owner.
    assert_eq!(with(["M 2", "M 2"]), (None, Some(0)));
    assert_eq!(with(["M 1", "M 1"]), (Some(0), None));
    // One that both may run goes to the waiter.
    assert_eq!(with(["M 2", "M 3"]), (Some(1), None));
    assert_eq!(with(["M 3", "M 2"]), (Some(0), None));
}

/// Serving stops at a front waiter that may run no ready task, and that same pick
/// takes: nobody is served past it.
#[test]
fn stops_serving() {
    // Worker 3 owns; workers 1, 2 and 0 wait in this order.
    let waiting = ["P 3 3", "P 1 2", "P 2 2", "P 0 2", "P 3 4"];
    let plan = |tasks: &[&'static str], pushed: &'static str, more: &[&'static str]| {
        [&["W 4"], tasks, &[pushed], &waiting[..], more].concat()
    };
    // For workers 2 and 3, worker 1 in front: worker 3 takes it.
    let tasks = ["T a 0", "M 12"];
    let before = played(&plan(&tasks, "P 0 3", &[]));
    assert_eq!(before.workers[3].place, Place::Serve);
    assert_eq!((before.picks, before.lock.front()), (16, Some(1)));
    let machine = played(&plan(&tasks, "P 0 3", &["P 3 1"]));
    assert_eq!(machine.workers[3].task, Some(0));
    assert_eq!(machine.counters.stopped_serving, 1);
    let report = "E open 17 2\nT 0 a run 3 17 - 3\nL 68 65 3\n";
    assert_eq!(shown(&plan(&tasks, "P 0 3", &["P 3 1"])), report);
    // For worker 2 alone: worker 3 takes none, leaves, and worker 1 owns and serves it.
    let tasks = ["T a 0", "M 4"];
    let machine = played(&plan(&tasks, "P 0 3", &["P 3 1"]));
    assert_eq!(machine.workers[3].place, Place::Leave);
    assert_eq!((machine.workers[3].task, machine.ready.len()), (None, 1));
    let report = "E open 26 1\nT 0 a run 2 26 - 1\nL 68 67 1\n";
    let more = ["P 3 2", "P 1 7", "P 2 1"];
    assert_eq!(shown(&plan(&tasks, "P 0 3", &more)), report);
    // After one that was served: b is not for worker 2, so worker 3 takes it.
    let tasks = ["T a 0", "M 2", "T b 0", "M 10"];
    let machine = played(&plan(&tasks, "P 0 6", &["P 3 3"]));
    assert_eq!(machine.lock.cells[1], (65, 0));
    assert_eq!(machine.workers[3].task, Some(1));
    assert_eq!(
        (machine.counters.served, machine.counters.stopped_serving),
        (1, 1)
    );
}

/// Each pick at the serving place is judged afresh: who registers after a hand-over is
/// served by the next one, with what is for it.
#[test]
fn judged_afresh() {
    // Worker 2 owns, worker 1 waits; a is for worker 0 and b for worker 1.
    let plan = |late: &'static str| {
        let served = ["P 0 6", "P 2 3", "P 1 2", "P 2 5"];
        let orders = [&served[..], &[late, "P 2 1"]].concat();
        [&["W 3", "T a 0", "M 1", "T b 0", "M 2"], &orders[..]].concat()
    };
    // Worker 0 has registered by then, or has only its ticket.
    let registered = played(&plan("P 0 2"));
    assert_eq!(registered.lock.cells[0], (66, 0));
    assert_eq!(registered.workers[2].place, Place::HandOver);
    let unregistered = played(&plan("P 0 1"));
    assert_eq!(unregistered.lock.cells[0], (0, 0));
    assert_eq!(unregistered.workers[2].place, Place::Leave);
    assert_eq!(unregistered.ready, [0]);
}

/// With W - 1 served an owner takes for itself, past what is not for it, though the
/// front waiter could run that.
#[test]
fn enough_served() {
    // Worker 1 serves worker 0 once; worker 0 ends a and waits again.
    let plan = [
        "W 2", "T a 0", "M 1", "T b 0", "M 1", "T c 0", "P 0 9", "P 1 5", "P 0 2", "P 1 2",
        "P 0 4", "P 1 1",
    ];
    let machine = played(&plan);
    assert_eq!(machine.lock.front(), Some(0));
    let report = "E open 23 4\nT 0 a over 0 19 20 1\nT 1 b ready - - - -\nT 2 c run 1 23 - 1\n\
                  L 67 66 1\n";
    assert_eq!(shown(&plan), report);
}

/// An owner by a try drains and hands over, whomever the tasks are for.
#[test]
fn a_try_serves_nobody() {
    let mut plan = vec!["W 2 2 1"];
    plan.extend(["T a 0", "M 1"].repeat(2));
    plan.extend(["P 0 6", "P 0 4"]);
    let machine = played(&plan);
    assert_eq!(machine.counters.tries_won, 1);
    assert_eq!(machine.ready, [0]);
    assert_eq!(machine.workers[0].task, None);
}

/// A task runs where it may, and one that nobody of those who are picked may run stays
/// ready.
#[test]
fn one_worker_for_all() {
    for worker in 0..4usize {
        let mask = format!("M {}", 1 << worker);
        let mut plan = vec!["W 4"];
        for task in ["T a 1 w5", "T b 2 r5", "T c 0 r5", "T d 1 w5", "T e 0"] {
            plan.extend([task, &mask]);
        }
        plan.push("R 2000");
        let machine = played(&plan);
        assert!(machine.finished());
        let workers = machine.tasks.iter().map(|task| task.worker);
        assert!(workers.eq([Some(worker); 5]));
    }
    let plan = ["W 3", "T a 0", "M 4", "P 0 3", "P 1 400", "P 0 400"];
    let report = "E open 803 1\nT 0 a ready - - - -\nL 164 165 -\n";
    assert_eq!(shown(&plan), report);
}

/// The waits of a task for its worker have no effect on dependences: what comes behind
/// it at an address waits too, and what doesn't runs.
#[test]
fn behind_a_task_that_waits() {
    let plan = ["W 2", "T a 0 w5", "M 2", "T b 0 r5", "T c 0 w7", "P 0 200"];
    let machine = played(&plan);
    let states: Vec<State> = machine.tasks.iter().map(|task| task.state).collect();
    assert_eq!(states, [State::Ready, State::Waiting, State::Over]);
}

/// M lines of all workers change no byte of a report, after any number of picks.
#[test]
fn masks_of_all_workers() {
    let rng = &mut Rng::new(41);
    let mut reports = 0;
    for round in 0..2_000 {
        let text = without_masks(rng, |rng| match round % 4 {
            0 => plan(rng, Shape::Medium),
            1 => sample(rng.word()),
            _ => plan(rng, Shape::Small),
        });
        let Ok(free) = check(&text) else { continue };
        let tied = with_everybody(&text, free.workers);
        let masks = check(&tied).unwrap().tasks;
        assert!(masks.iter().all(|task| task.mask == Some(free.everybody())));
        for limit in [rng.below(100), 20_000] {
            assert_eq!(answer_bytes(&tied, limit), answer_bytes(&text, limit));
            reports += 1;
        }
    }
    assert!(reports >= 3_000, "{reports}");
}
