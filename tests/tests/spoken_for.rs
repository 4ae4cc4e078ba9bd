//! The last field of the L line: the owner, `>` and the worker for whom the lock is spoken
//! for, or `-` where it is free. The examples are worked out by hand.

use second::machine::{Machine, Place};
use second::plan::{check, Refusal};
use second::random::{plan, Rng, Shape};
use second::run::{answer_bytes, play, run, STORE_SIZE};
use second::text::lines;

/// The report after so many picks at most, with blanks for tabs.
fn shown_after(limit: u64, plan: &[&str]) -> String {
    let report = answer_bytes(&lines(plan), limit);
    String::from_utf8(report).unwrap().replace('\t', " ")
}

fn shown(plan: &[&str]) -> String {
    shown_after(u64::MAX, plan)
}

fn played(plan: &[&str]) -> Machine {
    play(&check(&lines(plan)).unwrap(), u64::MAX)
}

/// The L line at the start and wherever a pick changes it, with the pick's number.
fn lock_lines(plan: &[&str]) -> Vec<(u64, String)> {
    let mut changes: Vec<(u64, String)> = Vec::new();
    for pick in 0..=played(plan).picks {
        let report = shown_after(pick, plan);
        let line = report.lines().last().unwrap();
        if changes.last().is_none_or(|(_, last)| last != line) {
            changes.push((pick, line.to_string()));
        }
    }
    changes
}

/// The L lines of a plan's run are these, each from the pick before it on.
fn follow(plan: &[&str], expected: &[(u64, &str)]) {
    let changes = lock_lines(plan);
    let changes = changes.iter().map(|(pick, line)| (*pick, line.as_str()));
    assert_eq!(changes.collect::<Vec<_>>(), expected, "{plan:?}");
}

/// From ticket to leaving: spoken for until the look, owned until the hand-over.
#[test]
fn one_session() {
    // Ticket, registration, look, two queues, no task, leaving.
    let alone = [
        (0, "L 64 65 -"),
        (1, "L 65 65 >1"),
        (3, "L 65 65 1"),
        (7, "L 65 66 -"),
    ];
    follow(&["W 2", "T a 0", "P 1 7"], &alone);
    // The task is created, closed and pushed first, and ended last.
    let all = [
        (0, "L 64 65 -"),
        (4, "L 65 65 >0"),
        (6, "L 65 65 0"),
        (9, "L 65 66 -"),
    ];
    follow(&["W 1", "T a 0", "R 20"], &all);
    follow(&["W 1"], &[(0, "L 64 65 -")]);
}

/// In the paper's listing worker 0's turn comes with a task in its cell: it is never shown.
#[test]
fn listing() {
    let expected = [
        (0, "L 64 65 -"),
        (1, "L 65 65 >1"),
        (3, "L 65 65 1"),
        (7, "L 66 65 1"),
        (12, "L 66 66 1"),
    ];
    let plan = ["W 2", "T a 0", "P 1 3", "P 0 5", "P 1 4", "P 0 2"];
    follow(&plan, &expected);
}

/// Whoever takes the first ticket is shown with its number, before it registers and after.
#[test]
fn the_first_ticket() {
    let taken = "E open 1 2\nT 0 a new - - - -\nL 65 65 >1\n";
    assert_eq!(shown(&["W 2", "T a 0", "P 1 1"]), taken);
    let registered = "E open 2 2\nT 0 a new - - - -\nL 65 65 >1\n";
    assert_eq!(shown(&["W 2", "T a 0", "P 1 2"]), registered);
    for worker in 1..32 {
        let order = format!("P {worker} 1");
        let report = format!("E open 1 32\nT 0 a new - - - -\nL 65 65 >{worker}\n");
        assert_eq!(shown(&["W 32", "T a 0", &order]), report);
    }
}

/// A hand-over speaks for a worker that has a ticket and no registration yet.
#[test]
fn let_in_before_registering() {
    // Worker 0 has ticket 65 at 7. Worker 1 takes a at 10 and leaves at 11. Worker 0
    // registers at 15.
    let plan = ["W 2", "T a 9", "P 1 3", "P 0 4", "P 1 7", "P 0 2"];
    let expected = [
        (0, "L 64 65 -"),
        (1, "L 65 65 >1"),
        (3, "L 65 65 1"),
        (7, "L 66 65 1"),
        (11, "L 66 66 >0"),
        (16, "L 66 66 0"),
    ];
    follow(&plan, &expected);
    let report = "E open 11 2\nT 0 a run 1 10 - 1\nL 66 66 >0\n";
    assert_eq!(shown_after(11, &plan), report);
}

/// A hand-over speaks for a worker that has registered and looked in vain.
#[test]
fn let_in_after_registering() {
    // Worker 1 has drained before the push. Worker 0 has ticket 65 at 9, registers and
    // looks at 11. Worker 1 takes none and leaves at 13.
    let plan = ["W 2", "T a 0", "P 1 5", "P 0 6", "P 1 2", "P 0 1"];
    let expected = [
        (0, "L 64 65 -"),
        (1, "L 65 65 >1"),
        (3, "L 65 65 1"),
        (9, "L 66 65 1"),
        (13, "L 66 66 >0"),
        (14, "L 66 66 0"),
    ];
    follow(&plan, &expected);
}

/// Tickets behind the one whose turn has come raise the head and change no more.
#[test]
fn others_behind() {
    // Worker 1 leaves at 13. Worker 3 has ticket 66 at 14, worker 2 ticket 67 at 23, and
    // both look in vain. Worker 0 looks at 64, has nothing to take and leaves at 70.
    let plan = [
        "W 4", "T a 9", "P 1 3", "P 0 4", "P 1 6", "P 3 9", "P 2 40", "P 0 8",
    ];
    let expected = [
        (0, "L 64 65 -"),
        (1, "L 65 65 >1"),
        (3, "L 65 65 1"),
        (7, "L 66 65 1"),
        (13, "L 66 66 >0"),
        (14, "L 67 66 >0"),
        (23, "L 68 66 >0"),
        (64, "L 68 66 0"),
        (70, "L 68 67 >3"),
    ];
    follow(&plan, &expected);
}

/// A finished run can leave the lock spoken for.
#[test]
fn finished() {
    // Worker 1 leaves at 11 and ends the task.
    let plan = ["W 2", "T a 0", "P 1 3", "P 0 4", "P 1 9"];
    let report = "E finished 12 2\nT 0 a over 1 10 12 1\nL 66 66 >0\n";
    assert_eq!(shown(&plan), report);
}

// Workers that were served and have not looked.

/// A lock that a served worker alone has to do with is free, and goes from one owner to
/// the next without it.
#[test]
fn served_and_free() {
    // Worker 0 is let in with a at 12, worker 1 leaves at 14 and has ticket 66 at 15. The
    // receipt at 22 changes nothing of the line.
    let plan = ["W 2", "T a 0", "P 1 3", "P 0 5", "P 1 13", "P 0 1"];
    let expected = [
        (0, "L 64 65 -"),
        (1, "L 65 65 >1"),
        (3, "L 65 65 1"),
        (7, "L 66 65 1"),
        (12, "L 66 66 1"),
        (14, "L 66 67 -"),
        (15, "L 67 67 >1"),
        (17, "L 67 67 1"),
        (21, "L 67 68 -"),
    ];
    follow(&plan, &expected);
    let held = |pick, line| format!("E open {pick} 2\nT 0 a held - - - 1\n{line}\n");
    assert_eq!(shown_after(12, &plan), held(12, "L 66 66 1"));
    assert_eq!(shown_after(14, &plan), held(14, "L 66 67 -"));
    assert_eq!(shown_after(15, &plan), held(15, "L 67 67 >1"));
    assert_eq!(shown_after(17, &plan), held(17, "L 67 67 1"));
    assert_eq!(shown_after(21, &plan), held(21, "L 67 68 -"));
    let received = "E open 22 2\nT 0 a run 0 22 - 1\nL 67 68 -\n";
    assert_eq!(shown(&plan), received);
}

/// Beside a served worker the one behind it is shown, whichever has the smaller number.
#[test]
fn served_before_another() {
    let changes = |behind: [&'static str; 2], since: [u64; 2]| {
        let [due, owns] = behind;
        [
            (0, "L 64 65 -"),
            (1, "L 65 65 >1"),
            (3, "L 65 65 1"),
            (since[0], "L 66 65 1"),
            (since[1], "L 67 65 1"),
            (14, "L 67 66 1"),
            (16, due),
            (18, owns),
        ]
    };
    let report = |line| format!("E open 16 3\nT 0 a held - - - 1\n{line}\n");
    // Worker 0 has ticket 65 at 7, worker 2 has 66 at 9 and registers at 17.
    let plan = ["W 3", "T a 0", "P 1 3", "P 0 5", "P 2 1", "P 1 7", "P 2 2"];
    follow(&plan, &changes(["L 67 67 >2", "L 67 67 2"], [7, 9]));
    assert_eq!(shown_after(16, &plan), report("L 67 67 >2"));
    // Worker 2 has ticket 65 at 4, worker 0 has 66 at 9 and registers at 17.
    let plan = ["W 3", "T a 0", "P 1 3", "P 2 2", "P 0 4", "P 1 7", "P 0 2"];
    follow(&plan, &changes(["L 67 67 >0", "L 67 67 0"], [4, 9]));
    assert_eq!(shown_after(16, &plan), report("L 67 67 >0"));
}

/// Of three that are let in, two served, the third is shown; without it the lock is free.
#[test]
fn two_served() {
    // Workers 0 and 3 wait with tickets 65 and 66; worker 1 drains, serves both and leaves.
    let plan = |third: &[&'static str]| {
        let waiting = ["W 4", "T a 0", "T b 0", "P 1 3", "P 0 8", "P 3 2"];
        [&waiting[..], third, &["P 1 10"]].concat()
    };
    let report =
        |picks, line| format!("E open {picks} 8\nT 0 a held - - - 1\nT 1 b held - - - 1\n{line}\n");
    assert_eq!(shown(&plan(&["P 2 1"])), report(24, "L 68 68 >2"));
    assert_eq!(shown(&plan(&["P 2 2"])), report(25, "L 68 68 >2"));
    assert_eq!(shown(&plan(&[])), report(23, "L 67 68 -"));
}

/// A cell that is filled for an earlier ticket hides nobody.
#[test]
fn old_cell() {
    // Worker 0 receives a at 18, ends it and has ticket 66 at 20.
    let plan = ["W 2", "T a 0", "T b 9", "P 1 3", "P 0 8", "P 1 6", "P 0 5"];
    let expected = [
        (0, "L 64 65 -"),
        (1, "L 65 65 >1"),
        (3, "L 65 65 1"),
        (10, "L 66 65 1"),
        (15, "L 66 66 1"),
        (17, "L 66 67 -"),
        (20, "L 67 67 >0"),
        (22, "L 67 67 0"),
    ];
    follow(&plan, &expected);
    assert_eq!(played(&plan).lock.cells[0], (65, 0));
    let report = "E open 20 4\nT 0 a over 0 18 19 1\nT 1 b run 1 16 - 1\nL 67 67 >0\n";
    assert_eq!(shown_after(20, &plan), report);
}

// Rings of other sizes.

/// The smallest ring, of one slot.
#[test]
fn one_slot() {
    let expected = [
        (0, "L 1 2 -"),
        (4, "L 2 2 >0"),
        (6, "L 2 2 0"),
        (9, "L 2 3 -"),
    ];
    follow(&["W 1 1 1", "T a 0", "R 20"], &expected);
}

/// In two slots a worker that was served is passed by a whole lap and is not shown.
#[test]
fn two_slots() {
    // Its ticket is 3; at 21 the hand-over of 5 comes to the same slot.
    let plan = ["W 2 2 1", "T a 0", "P 1 3", "P 0 5", "P 1 13", "P 0 1"];
    let expected = [
        (0, "L 2 3 -"),
        (1, "L 3 3 >1"),
        (3, "L 3 3 1"),
        (7, "L 4 3 1"),
        (12, "L 4 4 1"),
        (14, "L 4 5 -"),
        (15, "L 5 5 >1"),
        (17, "L 5 5 1"),
        (21, "L 5 6 -"),
    ];
    follow(&plan, &expected);
    let report = "E open 21 2\nT 0 a held - - - 1\nL 5 6 -\n";
    assert_eq!(shown_after(21, &plan), report);
}

/// Three slots, over two laps: each session is spoken for, owned and over.
#[test]
fn three_slots() {
    let expected = [
        (0, "L 3 4 -"),
        (1, "L 4 4 >1"),
        (3, "L 4 4 1"),
        (7, "L 4 5 -"),
        (8, "L 5 5 >1"),
        (10, "L 5 5 1"),
        (14, "L 5 6 -"),
        (15, "L 6 6 >1"),
        (17, "L 6 6 1"),
        (21, "L 6 7 -"),
        (22, "L 7 7 >1"),
        (24, "L 7 7 1"),
        (28, "L 7 8 -"),
        (29, "L 8 8 >1"),
    ];
    follow(&["W 2 3 8", "T a 0", "P 1 29"], &expected);
    // Worker 0 is served, worker 2 is behind it with its ticket alone.
    let plan = ["W 3 3 16", "T a 0", "P 1 3", "P 0 5", "P 2 1", "P 1 7"];
    let report = "E open 16 3\nT 0 a held - - - 1\nL 6 6 >2\n";
    assert_eq!(shown(&plan), report);
}

/// The last of 32 workers, with no slot to spare, with one and with as many again.
#[test]
fn thirty_two_workers() {
    for (first, line) in [
        ("W 32 32 16", "L 33 33 >31"),
        ("W 32 33 1", "L 34 34 >31"),
        ("W 32 64 8", "L 65 65 >31"),
    ] {
        let report = format!("E open 1 32\nT 0 a new - - - -\n{line}\n");
        assert_eq!(shown(&[first, "T a 0", "P 31 1"]), report);
    }
}

// Owners by a try.

/// A try wins and owns in the same pick, so nobody is shown before it.
#[test]
fn a_try_that_wins() {
    // The second push finds a queue of one full at 6.
    let plan = ["W 2 2 1", "T a 0", "T b 0", "P 0 10"];
    follow(&plan, &[(0, "L 2 3 -"), (7, "L 3 3 0"), (10, "L 3 4 -")]);
}

/// A try fails while the lock is spoken for, and changes nothing of that.
#[test]
fn a_try_that_fails() {
    let plan = ["W 2 2 1", "T a 0", "T b 0", "P 1 1", "P 0 30"];
    follow(&plan, &[(0, "L 2 3 -"), (1, "L 3 3 >1")]);
    assert_eq!(played(&plan).counters.tries_failed, 12);
}

/// An owner by a try hands over to whoever has the next ticket.
#[test]
fn after_a_try() {
    // Worker 1 has ticket 3 at 8, and registers at 12.
    let plan = [
        "W 2 2 1", "T a 0", "T b 0", "P 0 7", "P 1 1", "P 0 3", "P 1 2",
    ];
    let expected = [
        (0, "L 2 3 -"),
        (7, "L 3 3 0"),
        (8, "L 4 3 0"),
        (11, "L 4 4 >1"),
        (13, "L 4 4 1"),
    ];
    follow(&plan, &expected);
}

/// The mark counts as a byte of the report.
#[test]
fn length() {
    let text = lines(&["W 2", "T a 0", "P 1 1"]);
    let report = b"E\topen\t1\t2\nT\t0\ta\tnew\t-\t-\t-\t-\nL\t65\t65\t>1\n";
    let (mut store, mut output) = (vec![7; STORE_SIZE], vec![b'#'; 50]);
    let reported = run(&text, u64::MAX, &mut store, &mut output).unwrap();
    assert_eq!((reported.picks, reported.length), (1, 40));
    assert_eq!(output, [&report[..], &[b'#'; 10]].concat());
    assert!(run(&text, u64::MAX, &mut store, &mut [0; 40]).is_ok());
    let refused = run(&text, u64::MAX, &mut store, &mut [0; 39]);
    assert_eq!(refused, Err(Refusal { number: 8, line: 0 }));
}

/// Which of the three cases a field tells, held to the state that it tells of.
fn case(field: &str, machine: &Machine) -> usize {
    let number = |digits: &str| digits.parse::<usize>().unwrap();
    match field.strip_prefix('>') {
        Some(due) => {
            let place = machine.workers[number(due)].place;
            let (Place::Register(ticket) | Place::Look(ticket)) = place else {
                panic!("{place:?} has no ticket out");
            };
            assert!(ticket < machine.lock.tail);
            assert_ne!(ticket, machine.lock.cells[number(due)].0);
            assert_eq!(machine.owner, None);
            0
        }
        None if field == "-" => {
            assert_eq!(machine.owner, None);
            1
        }
        None => {
            assert_eq!(machine.owner, Some(number(field)));
            2
        }
    }
}

/// In reports of random plans after any number of picks `-` stands exactly where tail =
/// head + 1, and the other two say what they should.
#[test]
fn random_reports() {
    let rng = &mut Rng::new(51);
    let mut seen = [0; 3];
    for round in 0..4_000 {
        let shape = if round % 4 == 0 {
            Shape::Medium
        } else {
            Shape::Small
        };
        let text = plan(rng, shape);
        let plan = check(&text).unwrap();
        for limit in [rng.below(60), rng.below(400), 20_000] {
            let report = String::from_utf8(answer_bytes(&text, limit)).unwrap();
            let fields: Vec<&str> = report.lines().last().unwrap().split('\t').collect();
            let [head, tail] = [1, 2].map(|at: usize| fields[at].parse::<u64>().unwrap());
            assert_eq!(fields[3] == "-", tail == head + 1);
            seen[case(fields[3], &play(&plan, limit))] += 1;
        }
    }
    assert!(seen.iter().all(|&reports| reports >= 1_000), "{seen:?}");
}
