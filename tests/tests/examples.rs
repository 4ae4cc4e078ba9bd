//! Every example of the paper, and points of reading that follow from it.

use std::io::Write;
use std::process::{Command, Stdio};

use second::lock::{Handed, Lock};
use second::plan::{check, Refusal};
use second::run::{answer_bytes, play};
use second::text::lines;

fn answer(plan: &[&str]) -> String {
    String::from_utf8(answer_bytes(&lines(plan), u64::MAX)).unwrap()
}

/// The report, with blanks for tabs.
fn shown(plan: &[&str]) -> String {
    answer(plan).replace('\t', " ")
}

fn refused(plan: &[&str]) -> (u8, u64) {
    let Refusal { number, line } = check(&lines(plan)).unwrap_err();
    (number, line)
}

const LISTING: [&str; 6] = ["W 2", "T a 0", "P 1 3", "P 0 5", "P 1 4", "P 0 2"];
const LISTING_REPORT: &str = "E\tfinished\t14\t2\nT\t0\ta\tover\t0\t13\t14\t1\nL\t66\t66\t1\n";

#[test]
fn empty_text() {
    assert_eq!(refused(&[]), (3, 1));
    assert_eq!(answer(&[]), "X\t3\t1\n");
}

#[test]
fn number_of_workers() {
    assert_eq!(refused(&["W 0"]), (2, 1));
    assert_eq!(refused(&["W 33"]), (2, 1));
    assert_eq!(check(&lines(&["W 32"])).unwrap().workers, 32);
}

#[test]
fn no_tasks() {
    assert_eq!(shown(&["W 1"]), "E finished 0 0\nL 64 65 -\n");
    assert_eq!(shown(&["W 32", "R 5"]), "E finished 0 0\nL 64 65 -\n");
}

#[test]
fn no_order() {
    assert_eq!(
        shown(&["W 1", "T a 0"]),
        "E open 0 1\nT 0 a new - - - -\nL 64 65 -\n"
    );
}

#[test]
fn one_task_one_worker() {
    let report = "E finished 10 1\nT 0 a over 0 8 10 0\nL 65 66 -\n";
    assert_eq!(shown(&["W 1", "T a 0", "R 20"]), report);
}

#[test]
fn listing_byte_by_byte() {
    assert_eq!(answer(&LISTING), LISTING_REPORT);
}

#[test]
fn listing_from_the_program() {
    let mut child = Command::new(env!("CARGO_BIN_EXE_second"))
        .stdin(Stdio::piped())
        .stdout(Stdio::piped())
        .spawn()
        .unwrap();
    child
        .stdin
        .take()
        .unwrap()
        .write_all(&lines(&LISTING))
        .unwrap();
    let output = child.wait_with_output().unwrap();
    assert!(output.status.success());
    assert_eq!(output.stdout, LISTING_REPORT.as_bytes());
}

#[test]
fn idle_worker_alone() {
    assert_eq!(
        shown(&["W 2", "T a 0", "P 1 3"]),
        "E open 3 2\nT 0 a new - - - -\nL 65 65 1\n"
    );
    assert_eq!(
        shown(&["W 2", "T a 0", "P 1 7"]),
        "E open 7 2\nT 0 a new - - - -\nL 65 66 -\n"
    );
}

#[test]
fn first_seeded_pick() {
    let plan = check(&lines(&["W 4", "S 0 1"])).unwrap();
    let picks: Vec<usize> = second::order::Picks::new(&plan).collect();
    assert_eq!(picks, [2]);
}

#[test]
fn address_twice_and_five_accesses() {
    assert_eq!(refused(&["W 1", "T a 0 r5 r5"]), (5, 2));
    assert_eq!(refused(&["W 1", "T a 0 r1 r2 r3 r4 r1"]), (4, 2));
}

#[test]
fn chain_flags() {
    for workers in 1..=4 {
        let text = lines(&[&format!("W {workers}"), "T a 0 w5", "T b 0 r5", "R 1000"]);
        let machine = play(&check(&text).unwrap(), u64::MAX);
        assert!(machine.finished());
        let flags: Vec<u8> = machine.accesses.iter().map(|access| access.flags).collect();
        assert_eq!(flags, [63, 7]);
    }
}

// Points of reading.

/// The first message and DONE need no notice step.
#[test]
fn one_access_one_worker() {
    let report = "E finished 13 1\nT 0 a over 0 10 12 0\nL 65 66 -\n";
    assert_eq!(shown(&["W 1", "T a 0 w5", "R 40"]), report);
}

/// Owner with nothing ready: the take step and the leaving step both happen.
#[test]
fn owner_with_nothing_ready() {
    assert_eq!(
        shown(&["W 1", "T a 0", "P 0 2"]),
        "E open 2 1\nT 0 a ready - - - -\nL 64 65 -\n"
    );
    let report = "E open 6 2\nT 0 a new - - - -\nL 65 65 1\n";
    assert_eq!(shown(&["W 2", "T a 0", "P 1 6"]), report);
}

#[test]
fn every_state_is_shown() {
    let plan = |orders: &[&str]| {
        let mut all = vec!["W 2", "T a 1"];
        all.extend_from_slice(orders);
        shown(&all)
    };
    assert_eq!(plan(&[]), "E open 0 2\nT 0 a new - - - -\nL 64 65 -\n");
    assert_eq!(
        plan(&["P 0 1"]),
        "E open 1 2\nT 0 a waiting - - - -\nL 64 65 -\n"
    );
    assert_eq!(
        plan(&["P 0 2"]),
        "E open 2 2\nT 0 a ready - - - -\nL 64 65 -\n"
    );
    // Worker 1 owns and drains; worker 0 waits and is served.
    let held = ["P 0 3", "P 1 3", "P 0 2", "P 1 3"];
    assert_eq!(plan(&held), "E open 11 2\nT 0 a held - - - -\nL 66 65 1\n");
    // A look before the hand-over changes nothing.
    let early_look = ["P 0 3", "P 1 3", "P 0 2", "P 1 3", "P 0 1"];
    assert_eq!(
        plan(&early_look),
        "E open 12 2\nT 0 a held - - - -\nL 66 65 1\n"
    );
    // Handed over: the giver shows before the look.
    let handed_over = ["P 0 3", "P 1 3", "P 0 2", "P 1 4"];
    assert_eq!(
        plan(&handed_over),
        "E open 12 2\nT 0 a held - - - 1\nL 66 66 1\n"
    );
    let received = ["P 0 3", "P 1 3", "P 0 2", "P 1 4", "P 0 1"];
    assert_eq!(
        plan(&received),
        "E open 13 2\nT 0 a run 0 13 - 1\nL 66 66 1\n"
    );
    let over = ["P 0 3", "P 1 3", "P 0 2", "P 1 4", "P 0 9"];
    assert_eq!(
        plan(&over),
        "E finished 15 2\nT 0 a over 0 13 15 1\nL 66 66 1\n"
    );
}

/// Who takes a task from the ready list is its giver at once, before it leaves.
#[test]
fn own_giver() {
    let report = "E open 8 1\nT 0 a run 0 8 - 0\nL 65 65 0\n";
    assert_eq!(shown(&["W 1", "T a 0", "P 0 8"]), report);
}

/// A worker that was let in with no task in its cell owns, and what it takes it
/// gives itself, whoever let it in.
#[test]
fn let_in_by_another_and_own_giver() {
    // Worker 1 has drained before the push, takes nothing and lets worker 0 in at 12.
    let plan = ["W 2", "T a 0", "P 1 5", "P 0 5", "P 1 2", "P 0 4"];
    let report = "E open 16 2\nT 0 a run 0 16 - 0\nL 66 66 0\n";
    assert_eq!(shown(&plan), report);
}

/// A cell keeps its old task. A later hand-over to the same worker doesn't give it again.
#[test]
fn old_cell() {
    // Worker 1 lets worker 0 in with a (16), takes b itself (17) and leaves. Worker 2 owns
    // and lets worker 0 in again (30), with ticket 67; its cell is that of ticket 65.
    let plan = [
        "W 3", "T a 0", "T b 9", "P 1 3", "P 0 8", "P 1 7", "P 2 3", "P 0 4", "P 2 5",
    ];
    let machine = play(&check(&lines(&plan)).unwrap(), u64::MAX);
    assert!(machine.lock.turn(67) && machine.lock.cells[0] == (65, 0));
    let report = "E open 30 6\nT 0 a over 0 22 23 1\nT 1 b run 1 17 - 1\nL 68 68 >0\n";
    assert_eq!(shown(&plan), report);
}

/// A hand-over lets in who waits with the ticket, nobody where it isn't registered,
/// and tells whose session it was.
#[test]
fn whom_a_hand_over_lets_in() {
    let mut lock = Lock::new(4, 3);
    let tickets = [lock.take(), lock.take(), lock.take()];
    assert_eq!(tickets, [4, 5, 6]);
    lock.register(6, 2);
    // Ticket 5 is out and not registered, ticket 6 is behind it.
    let nobody = Handed {
        let_in: None,
        by: 0,
    };
    assert_eq!(lock.hand_over(0), nobody);
    lock.register(5, 1);
    assert!(lock.turn(5));
    let waiter = Handed {
        let_in: Some(2),
        by: 1,
    };
    assert_eq!(lock.hand_over(1), waiter);
    // Ticket 7 isn't even taken.
    let nobody = Handed {
        let_in: None,
        by: 2,
    };
    assert_eq!(lock.hand_over(2), nobody);
}

/// A registration of the lap before is nobody's, even the largest there can be in a
/// ring of as many slots as workers.
#[test]
fn no_registration_of_an_earlier_lap() {
    let mut lock = Lock::new(2, 2);
    assert_eq!(lock.take(), 2);
    lock.register(2, 1);
    lock.hand_over(1);
    assert_eq!(lock.take(), 3);
    assert_eq!((lock.tail, lock.registration[0]), (4, 3));
    let nobody = Handed {
        let_in: None,
        by: 0,
    };
    assert_eq!(lock.hand_over(0), nobody);
}

/// A worker's ninth push finds its queue full; the next step tries the lock.
#[test]
fn full_queue_and_try() {
    let burst = |orders: &[&str]| {
        let mut all = vec!["W 2"];
        all.extend(["T a 0"; 9]);
        all.extend_from_slice(orders);
        let text = lines(&all);
        play(&check(&text).unwrap(), u64::MAX)
    };
    let full = burst(&["P 0 27"]);
    assert_eq!(
        (
            full.counters.full_queue,
            full.counters.tries_won,
            full.lock.head
        ),
        (1, 0, 64)
    );
    let won = burst(&["P 0 28"]);
    assert_eq!(
        (won.counters.tries_won, won.lock.head, won.lock.tail),
        (1, 65, 65)
    );
    assert_eq!(won.owner, Some(0));
    let drained = burst(&["P 0 30"]);
    assert_eq!((drained.ready.len(), drained.owner), (8, Some(0)));
    let left = burst(&["P 0 31"]);
    assert_eq!((left.lock.head, left.lock.tail, left.owner), (65, 66, None));
    let pushed = burst(&["P 0 32"]);
    assert_eq!(pushed.workers[0].queue, [8]);
    // With another worker's ticket out the try fails, takes none and pushes again.
    let failed = burst(&["P 1 1", "P 0 28"]);
    assert_eq!((failed.counters.tries_failed, failed.lock.head), (1, 65));
    let again = burst(&["P 1 1", "P 0 29"]);
    assert_eq!(
        (again.counters.full_queue, again.counters.tries_failed),
        (2, 1)
    );
}

/// The try follows a full queue even where an owner drained it meanwhile.
#[test]
fn try_after_a_drain() {
    let mut plan = vec!["W 2"];
    plan.extend(["T a 0"; 9]);
    plan.extend(["P 0 27", "P 1 4", "P 0 1"]);
    let machine = play(&check(&lines(&plan)).unwrap(), u64::MAX);
    assert!(machine.workers[0].queue.is_empty());
    assert_eq!((machine.counters.tries_failed, machine.lock.head), (1, 65));
    assert_eq!(machine.workers[0].to_add, [8]);
}

/// A later access to an address whose tasks are over succeeds the last one, and
/// the notice is the step after the delivered pass message.
#[test]
fn late_successor() {
    let plan = ["W 1", "T a 0 w5", "T b 0 w5"];
    let steps = |count: u64| {
        let order = format!("P 0 {count}");
        let mut all = plan.to_vec();
        all.push(&order);
        play(&check(&lines(&all)).unwrap(), u64::MAX)
    };
    // 1 open, 2 link, 3 deliver, 4 close, 5 push; 6 open, 7 link (NEXT), 8 deliver, 9 close.
    let linked = steps(9);
    assert_eq!(linked.accesses[0].flags, 1 + 2 + 8);
    // 10 ticket, 11 register, 12 look, 13 drain, 14 take, 15 leave, 16 end.
    assert_eq!(steps(16).tasks[0].ending, Some(16));
    // 17 DONE is delivered and passes both flags in one message.
    let passed = steps(17);
    assert_eq!(passed.accesses[0].flags, 15);
    assert_eq!(passed.workers[0].mailbox.len(), 1);
    assert_eq!(passed.workers[0].mailbox[0].flags, 3);
    // 18 the pass message, 19 its notice.
    assert_eq!(
        (steps(18).accesses[1].flags, steps(18).accesses[0].flags),
        (3, 15)
    );
    assert_eq!(steps(19).accesses[0].flags, 63);
    assert_eq!(steps(19).workers[0].to_add, [1]);
    // 20 push, 21 to 26 the lock, 27 end, 28 DONE.
    assert!(!steps(27).finished());
    assert!(steps(28).finished() && steps(40).picks == 28);
}

/// READ goes past a reader at once, WRITE only when it is done.
#[test]
fn readers_together() {
    let text = lines(&["W 1", "T a 0 r5", "T b 0 r5", "T c 0 w5", "P 0 19"]);
    let machine = play(&check(&text).unwrap(), u64::MAX);
    // Steps: open link deliver close push; open link deliver(passes READ) deliver notice
    // close push; open link deliver(passes READ) deliver notice close; ticket.
    let flags: Vec<u8> = machine.accesses.iter().map(|access| access.flags).collect();
    assert_eq!(flags, [1 + 2 + 8 + 16, 1 + 8 + 16, 1]);
    assert_eq!(machine.lock.head, 65);
    assert_eq!(machine.workers[0].queue, [0, 1]);
}

/// Each S line starts from its own seed.
#[test]
fn seeded_lines_start_afresh() {
    let plan = check(&lines(&["W 4", "S 0 3", "S 0 3"])).unwrap();
    let picks: Vec<usize> = second::order::Picks::new(&plan).collect();
    assert_eq!(picks[..3], picks[3..]);
}

#[test]
fn order_lines_in_full() {
    let plan = check(&lines(&["W 3", "P 2 2", "R 2", "P 0 1"])).unwrap();
    let picks: Vec<usize> = second::order::Picks::new(&plan).collect();
    assert_eq!(picks, [2, 2, 0, 1, 2, 0, 1, 2, 0]);
}

/// The label is shown as the text has it; numbers count from 0.
#[test]
fn labels() {
    let report = shown(&["W 1", "T -a-Z9 0", "T -a-Z9 0", "T 0123456789abcdef 0"]);
    let expected = "E open 0 3\nT 0 -a-Z9 new - - - -\nT 1 -a-Z9 new - - - -\n\
                    T 2 0123456789abcdef new - - - -\nL 64 65 -\n";
    assert_eq!(report, expected);
}

// Orders that the step rules fix, each worked out by hand.

/// The oldest of a queue is ready first, and the first ready is taken.
#[test]
fn oldest_first() {
    let report = "E finished 20 2\nT 0 a over 0 11 13 0\nT 1 b over 0 18 20 0\nL 66 67 -\n";
    assert_eq!(shown(&["W 1", "T a 0", "T b 0", "R 40"]), report);
}

/// What is drained goes behind what is ready already.
#[test]
fn drained_to_the_end() {
    let plan = [
        "W 2", "T a 0", "T b 0", "T c 0", "P 0 6", "P 1 7", "P 0 3", "P 1 7",
    ];
    let report =
        "E open 23 6\nT 0 a over 1 12 17 1\nT 1 b run 1 23 - 1\nT 2 c ready - - - -\nL 66 66 1\n";
    assert_eq!(shown(&plan), report);
}

/// With two workers one waiter is served in a session, even if it waits again.
#[test]
fn served_in_a_session() {
    let plan = [
        "W 2", "T a 0", "T b 0", "T c 0", "P 0 9", "P 1 5", "P 0 2", "P 1 2", "P 0 4", "P 1 1",
    ];
    let report =
        "E open 23 6\nT 0 a over 0 19 20 1\nT 1 b run 1 23 - 1\nT 2 c ready - - - -\nL 67 66 1\n";
    assert_eq!(shown(&plan), report);
}

/// The next session of the same owner serves again.
#[test]
fn served_in_the_next_session() {
    let plan = [
        "W 2", "T a 0", "T b 0", "T c 0", "T d 0", "T e 0", "P 0 15", "P 1 5", "P 0 2", "P 1 5",
        "P 0 2", "P 1 5", "P 0 2", "P 1 1",
    ];
    let report = "E open 37 10\nT 0 a over 0 28 29 1\nT 1 b over 1 25 27 1\nT 2 c held - - - -\n\
                  T 3 d ready - - - -\nT 4 e ready - - - -\nL 68 67 1\n";
    assert_eq!(shown(&plan), report);
}

/// A worker that took a ticket and did not register is no waiter: nobody is served
/// past it, and the owner takes the task itself.
#[test]
fn not_past_an_unregistered_ticket() {
    let plan = [
        "W 3", "T a 0", "T b 0", "P 0 6", "P 1 6", "P 2 1", "P 0 2", "P 1 2",
    ];
    // Worker 1 owns and has drained; worker 2 has ticket 65, worker 0 waits with 66.
    let report = "E open 17 6\nT 0 a run 1 16 - 1\nT 1 b ready - - - -\nL 67 66 >2\n";
    assert_eq!(shown(&plan), report);
}

/// Messages in the order of posting, tasks in the order in which they became ready.
#[test]
fn messages_in_order() {
    let plan = ["W 1", "T a 0 w5 w7", "T b 0 w5", "T c 0 w7", "R 90"];
    let report = "E finished 46 3\nT 0 a over 0 20 22 0\nT 1 b over 0 35 37 0\n\
                  T 2 c over 0 43 45 0\nL 67 68 -\n";
    assert_eq!(shown(&plan), report);
}

/// Cost steps of work, then the one that ends the task.
#[test]
fn cost() {
    let report = "E finished 13 1\nT 0 a over 0 8 13 0\nL 65 66 -\n";
    assert_eq!(shown(&["W 1", "T a 3", "R 20"]), report);
}
