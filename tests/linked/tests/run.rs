//! The proved run: the paper's examples, and what it leaves in store and output,
//! each held to the second implementation and to the paper's own words.

use linked::bench::{check, run, REPORT_SIZE};
use linked::many::{compare, compare_many, Call};
use second::plan::Refusal;
use second::run::{answer_bytes, Reported};
use second::text::lines;
use second::used::{used_output, used_store};

const STORE: usize = 8_192;
const LISTING: [&str; 6] = ["W 2", "T a 0", "P 1 3", "P 0 5", "P 1 4", "P 0 2"];
const LISTING_REPORT: &str = "E finished 14 2\nT 0 a over 0 13 14 1\nL 66 66 1\n";

/// Calls with used buffers, compares all, and gives the answer.
fn compared(
    text: &[u8],
    limit: u64,
    store: usize,
    output: usize,
    used: u64,
) -> Result<Reported, Refusal> {
    let call = Call {
        text: text.to_vec(),
        limit,
        store: used_store(store, used),
        output: used_output(output, used as u8),
    };
    compare(&call).unwrap_or_else(|what| {
        panic!(
            "{what}: limit {limit}, store {store}, output {output}, {:?}",
            String::from_utf8_lossy(&text[..text.len().min(300)])
        )
    })
}

/// The report, with blanks for tabs, from a store and an output that were in use.
fn shown(plan: &[&str]) -> String {
    let text = lines(plan);
    assert_eq!(check(&text).verdict, Ok(()));
    compared(&text, u64::MAX, STORE, REPORT_SIZE, 3).expect("a report");
    let (mut store, mut output) = (used_store(STORE, 5), vec![b'#'; REPORT_SIZE]);
    let reported = run(&text, u64::MAX, &mut store, &mut output).expect("a report");
    assert!(store.iter().all(|&number| number == 0));
    assert!(output[reported.length..].iter().all(|&byte| byte == b'#'));
    let report = String::from_utf8(output[..reported.length].to_vec()).expect("ASCII");
    report.replace('\t', " ")
}

fn refused(text: &[u8]) -> (u8, u64) {
    let answer = compared(text, u64::MAX, STORE, REPORT_SIZE, 9).expect_err("a refusal");
    assert_eq!(check(text).verdict, Err(answer));
    (answer.number, answer.line)
}

/// Thirteen tasks for three workers, after this W line.
fn busy(first: &str) -> Vec<u8> {
    lines(&[
        first,
        "T a 2 w5",
        "T b 1 r5",
        "T c 0 r5 w7",
        "T d 3 w5 r7",
        "T e 0",
        "T f 0",
        "T g 0",
        "T h 0",
        "T i 0",
        "T j 0",
        "T k 0",
        "T l 0",
        "T m 0",
        "P 0 40",
        "S 4 300",
        "R 100",
    ])
}

mod examples {
    use super::*;

    #[test]
    fn refusals() {
        assert_eq!(refused(b""), (3, 1));
        assert_eq!(refused(b"W\t0\n"), (2, 1));
        assert_eq!(refused(b"W\t33\n"), (2, 1));
        assert_eq!(refused(&lines(&["W 1", "T a 0 r5 r5"])), (5, 2));
        assert_eq!(refused(&lines(&["W 1", "T a 0 r1 r2 r3 r4 r1"])), (4, 2));
        assert_eq!(refused(&lines(&["W 4 3 8"])), (9, 1));
        assert_eq!(refused(&lines(&["W 4 3 17"])), (2, 1));
        assert_eq!(refused(&lines(&["W 4 4"])), (1, 1));
        assert_eq!(refused(&lines(&["W 4", "W 4 4 8"])), (3, 2));
        assert_eq!(refused(&lines(&["W 4", "T a 0", "M 0"])), (11, 3));
        assert_eq!(refused(&lines(&["W 4", "T a 0", "M 16"])), (2, 3));
        assert_eq!(refused(&lines(&["W 4", "M 0"])), (3, 2));
        assert_eq!(refused(&lines(&["W 4", "T a 0", "M 1", "M 1"])), (3, 4));
        assert_eq!(refused(&lines(&["W 4", "T a 0", "R 1", "M 16"])), (3, 4));
        assert_eq!(refused(&lines(&["W 4", "T a 0", "M 1 1"])), (1, 3));
    }

    #[test]
    fn reports() {
        assert_eq!(shown(&["W 32"]), "E finished 0 0\nL 64 65 -\n");
        assert_eq!(shown(&["W 1"]), "E finished 0 0\nL 64 65 -\n");
        let new = "E open 0 1\nT 0 a new - - - -\nL 64 65 -\n";
        assert_eq!(shown(&["W 1", "T a 0"]), new);
        let ten = "E finished 10 1\nT 0 a over 0 8 10 0\nL 65 66 -\n";
        assert_eq!(shown(&["W 1", "T a 0", "R 20"]), ten);
        assert_eq!(shown(&LISTING), LISTING_REPORT);
        let owner = "E open 3 2\nT 0 a new - - - -\nL 65 65 1\n";
        assert_eq!(shown(&["W 2", "T a 0", "P 1 3"]), owner);
        let left = "E open 7 2\nT 0 a new - - - -\nL 65 66 -\n";
        assert_eq!(shown(&["W 2", "T a 0", "P 1 7"]), left);
    }

    /// The first pick from seed 0 with four workers: worker 2 has the ticket, and
    /// owns the lock after two picks more.
    #[test]
    fn seeded_pick() {
        let owner = "E open 3 4\nT 0 a new - - - -\nL 65 65 2\n";
        assert_eq!(shown(&["W 4", "T a 0", "S 0 1", "P 2 2"]), owner);
    }

    /// The flags are not in the report; that the chain finishes is.
    #[test]
    fn chain() {
        let report = shown(&["W 1", "T a 0 w5", "T b 0 r5", "R 60"]);
        assert!(report.starts_with("E finished "), "{report}");
    }
}

/// Tasks that not every worker may run.
mod masks {
    use super::*;
    use second::plan;
    use second::random::{self, with_everybody, without_masks, Rng, Shape};

    /// Worker 1 owns, workers 2, 0 and 3 wait in this order, and worker 3 alone may run
    /// the task: it is passed on to the owner whose front waiter is worker 3.
    #[test]
    fn one_worker() {
        let plan = [
            "W 4", "T a 5", "M 8", "P 0 3", "P 1 3", "P 2 2", "P 0 2", "P 3 2", "P 1 6", "P 2 7",
            "P 0 7", "P 3 10",
        ];
        let report = "E finished 39 1\nT 0 a over 3 33 39 0\nL 68 68 0\n";
        assert_eq!(shown(&plan), report);
    }

    /// An owner takes the second ready task, a waiter is served with it, and the first
    /// is still the first.
    #[test]
    fn past_the_first() {
        let tasks = ["W 2", "T a 0", "M 1", "T b 0", "T c 0"];
        let taken = [&tasks[..], &["P 0 9", "P 1 6"]].concat();
        let report = "E open 15 5\nT 0 a ready - - - -\nT 1 b run 1 15 - 1\n\
                      T 2 c ready - - - -\nL 65 65 1\n";
        assert_eq!(shown(&taken), report);
        let again = [&taken[..], &["P 1 8"]].concat();
        let report = "E open 23 5\nT 0 a ready - - - -\nT 1 b over 1 15 17 1\n\
                      T 2 c run 1 23 - 1\nL 66 66 1\n";
        assert_eq!(shown(&again), report);
        let tasks = ["W 3", "T a 0", "M 5", "T b 0", "T c 0"];
        let orders = ["P 0 9", "P 2 3", "P 1 2", "P 0 2", "P 2 8"];
        let report = "E open 24 8\nT 0 a held - - - 2\nT 1 b held - - - 2\n\
                      T 2 c run 2 24 - 2\nL 67 67 2\n";
        assert_eq!(shown(&[&tasks[..], &orders].concat()), report);
    }

    /// Serving stops at a front waiter that may run nothing, though the next one may.
    #[test]
    fn stops_serving() {
        let plan = [
            "W 3", "T a 2", "M 4", "T b 1", "M 6", "P 0 6", "P 2 3", "P 0 2", "P 1 2", "P 2 4",
        ];
        let report = "E open 17 3\nT 0 a run 2 17 - 2\nT 1 b ready - - - -\nL 67 65 2\n";
        assert_eq!(shown(&plan), report);
    }

    /// With 29 workers in rounds one task for worker 0 alone needs 872 rounds and a pick.
    #[test]
    fn twenty_nine() {
        let report = "E finished 25289 1\nT 0 a over 0 25260 25289 28\nL 120 93 28\n";
        assert_eq!(shown(&["W 29", "T a 0", "M 1", "R 1000"]), report);
    }

    /// The most permitted workers, and the fewest, of as many tasks as there may be.
    #[test]
    fn totals() {
        for (mask, total) in [("", 4_096), ("M 4294967295", 4_096), ("M 2147483648", 128)] {
            let mut plan = vec!["W 32"];
            for _ in 0..128 {
                plan.push("T a 0");
                plan.extend(Some(mask).filter(|mask| !mask.is_empty()));
            }
            let report = shown(&plan);
            assert!(
                report.starts_with(&format!("E open 0 {total}\n")),
                "{report}"
            );
        }
    }

    /// Every mask of the tasks of a busy plan, and after every number of picks for some.
    #[test]
    fn every_mask() {
        let tied = |masks: [u64; 3]| {
            let text = String::from_utf8(busy("W 3")).expect("ASCII");
            let mut masks = masks.iter().cycle();
            let lines = text.lines().map(|line| match line.starts_with('T') {
                true => format!("{line}\nM\t{}\n", masks.next().expect("a mask")),
                false => format!("{line}\n"),
            });
            lines.collect::<String>().into_bytes()
        };
        for first in 1..8 {
            for second in 1..8 {
                for third in 1..8 {
                    let text = tied([first, second, third]);
                    compared(&text, u64::MAX, STORE, 1_000, first).expect("a report");
                }
            }
        }
        for masks in [[1, 2, 4], [4, 4, 4], [2, 5, 3], [6, 1, 7]] {
            let text = tied(masks);
            let all = compared(&text, u64::MAX, STORE, 1_000, 0).expect("a report");
            for limit in 0..=all.picks + 1 {
                compared(&text, limit, STORE, 1_000, limit).expect("a report");
            }
        }
    }

    /// M lines of all workers change no byte of a report.
    #[test]
    fn all_workers() {
        let rng = &mut Rng::new(44);
        for round in 0..600 {
            let shape = if round % 4 == 0 {
                Shape::Medium
            } else {
                Shape::Small
            };
            let text = without_masks(rng, |rng| random::plan(rng, shape));
            let workers = plan::check(&text).expect("a plan").workers;
            let tied = with_everybody(&text, workers);
            let report = |text: &[u8], limit: u64| {
                let (mut store, mut output) = (used_store(STORE, 1), vec![b'#'; REPORT_SIZE]);
                let answer = run(text, limit, &mut store, &mut output);
                (answer.expect("a report"), output)
            };
            for limit in [rng.below(100), 20_000] {
                assert_eq!(report(&text, limit), report(&tied, limit));
            }
        }
    }
}

/// Locks that nobody owns: spoken for, or free.
mod without_owner {
    use super::*;

    /// Whoever has the first ticket is shown with `>`, registered or not.
    #[test]
    fn the_first_ticket() {
        for picks in 1..=2 {
            let order = format!("P 1 {picks}");
            let report = format!("E open {picks} 2\nT 0 a new - - - -\n");
            let first = shown(&["W 2", "T a 0", &order]);
            assert_eq!(first, format!("{report}L 65 65 >1\n"));
            let two_slots = shown(&["W 2 2 1", "T a 0", &order]);
            assert_eq!(two_slots, format!("{report}L 3 3 >1\n"));
        }
        let report = "E open 1 32\nT 0 a new - - - -\nL 33 33 >31\n";
        assert_eq!(shown(&["W 32 32 16", "T a 0", "P 31 1"]), report);
    }

    /// Worker 1 leaves at 11, and worker 0 has its ticket alone; then the run is finished.
    #[test]
    fn let_in_before_registering() {
        let plan = ["W 2", "T a 0", "P 1 3", "P 0 4", "P 1 4"];
        let report = "E open 11 2\nT 0 a run 1 10 - 1\nL 66 66 >0\n";
        assert_eq!(shown(&plan), report);
        let report = "E finished 12 2\nT 0 a over 1 10 12 1\nL 66 66 >0\n";
        assert_eq!(shown(&[&plan[..], &["P 1 1"]].concat()), report);
    }

    /// Worker 0 is served at 11 and doesn't look: it is not shown while the lock is free,
    /// while worker 1 has the next ticket and while it owns.
    #[test]
    fn served() {
        for (order, picks, line) in [
            ("P 1 4", 12, "L 66 66 1"),
            ("P 1 6", 14, "L 66 67 -"),
            ("P 1 7", 15, "L 67 67 >1"),
            ("P 1 8", 16, "L 67 67 >1"),
            ("P 1 9", 17, "L 67 67 1"),
        ] {
            let report = format!("E open {picks} 2\nT 0 a held - - - 1\n{line}\n");
            assert_eq!(shown(&["W 2", "T a 0", "P 1 3", "P 0 5", order]), report);
        }
    }

    /// Beside a served worker the one behind it is shown, whichever has the smaller number.
    #[test]
    fn served_before_another() {
        let plan = ["W 3", "T a 0", "P 1 3", "P 0 5", "P 2 1", "P 1 7"];
        let report = "E open 16 3\nT 0 a held - - - 1\nL 67 67 >2\n";
        assert_eq!(shown(&plan), report);
        let plan = ["W 3 3 1", "T a 0", "P 1 3", "P 2 2", "P 0 4", "P 1 7"];
        let report = "E open 16 3\nT 0 a held - - - 1\nL 6 6 >0\n";
        assert_eq!(shown(&plan), report);
    }

    /// A worker whose cell is filled for an earlier ticket is shown.
    #[test]
    fn old_cell() {
        let plan = ["W 2", "T a 0", "T b 9", "P 1 3", "P 0 8", "P 1 6", "P 0 3"];
        let report = "E open 20 4\nT 0 a over 0 18 19 1\nT 1 b run 1 16 - 1\nL 67 67 >0\n";
        assert_eq!(shown(&plan), report);
    }
}

/// Plans that name their ring slots and queue capacity.
mod second_form {
    use super::*;

    #[test]
    fn start_values() {
        for slots in 1..=64 {
            let report = format!("E finished 0 0\nL {slots} {} -\n", slots + 1);
            assert_eq!(shown(&[&format!("W 1 {slots} 1")]), report);
        }
    }

    #[test]
    fn listing_in_two_slots() {
        let plan = [&["W 2 2 1"], &LISTING[1..]].concat();
        let report = "E finished 14 2\nT 0 a over 0 13 14 1\nL 4 4 1\n";
        assert_eq!(shown(&plan), report);
    }

    /// The registration of the lap before, 2 + 1, is below the tail, 4.
    #[test]
    fn registration_of_the_lap_before() {
        let plan = ["W 2 2 8", "T a 0", "P 1 7", "P 0 3", "P 0 3", "P 0 3"];
        let report = "E open 16 2\nT 0 a run 0 16 - 0\nL 4 4 0\n";
        assert_eq!(shown(&plan), report);
    }

    /// 64 and 8 spelled out: the same report, after every number of picks.
    #[test]
    fn spelled_out() {
        let (first, second) = (busy("W 3"), busy("W 3 64 8"));
        let report = |text: &[u8], limit: u64| {
            let mut output = vec![b'#'; 1_000];
            let answer = run(text, limit, &mut vec![0; STORE], &mut output);
            (answer.expect("a report"), output)
        };
        for limit in (0..=500).chain([u64::MAX]) {
            assert_eq!(report(&first, limit), report(&second, limit));
        }
    }

    /// Every ring that three workers fit in, and every capacity.
    #[test]
    fn every_size() {
        for slots in 3..=64 {
            for capacity in 1..=16 {
                let text = busy(&format!("W 3 {slots} {capacity}"));
                compared(&text, u64::MAX, STORE, 1_000, slots).expect("a report");
            }
        }
    }

    /// As many slots as workers, and one more, for every number of workers: many laps.
    #[test]
    fn tight_rings() {
        for workers in 1..=32 {
            for (slots, capacity) in [(workers, 1), (workers, 16), (workers + 1, 2)] {
                let mut text = format!("W\t{workers}\t{slots}\t{capacity}\n");
                text.push_str(&"T\ta\t2\tw5\tr7\n".repeat(96));
                text.push_str("S\t5\t4000\nR\t4000\n");
                let text = text.as_bytes();
                compared(text, u64::MAX, STORE, REPORT_SIZE, 11).expect("a report");
            }
        }
    }
}

mod buffers {
    use super::*;

    #[test]
    fn store_lengths() {
        for size in [0, 1, 8_191, 8_192, 8_193, 9_000] {
            for used in [0, 1, u64::MAX, 0xdead_beef_0bad_cafe] {
                for text in [lines(&LISTING), Vec::new(), lines(&["W 1", "X"])] {
                    let answer = compared(&text, u64::MAX, size, 100, used);
                    let short = matches!(answer, Err(Refusal { number: 7, line: 0 }));
                    assert_eq!(short, size < STORE, "{size}: {answer:?}");
                }
            }
        }
    }

    #[test]
    fn output_lengths() {
        let text = lines(&LISTING);
        for size in 0..=LISTING_REPORT.len() + 40 {
            let answer = compared(&text, u64::MAX, STORE, size, 77);
            if size < LISTING_REPORT.len() {
                assert_eq!(answer, Err(Refusal { number: 8, line: 0 }));
            } else {
                let expected = Reported {
                    picks: 14,
                    length: LISTING_REPORT.len(),
                };
                assert_eq!(answer, Ok(expected));
            }
        }
    }

    #[test]
    fn limits() {
        let text = lines(&LISTING);
        for limit in (0..=20).chain([1 << 32, u64::MAX - 1, u64::MAX]) {
            for store in [STORE - 1, STORE, STORE + 1] {
                let answer = compared(&text, limit, store, 60, limit);
                if store >= STORE {
                    assert_eq!(answer.map(|reported| reported.picks), Ok(limit.min(14)));
                }
            }
            let exact = answer_bytes(&text, limit).len();
            assert!(compared(&text, limit, STORE, exact, 1).is_ok());
            assert!(compared(&text, limit, STORE, exact - 1, 1).is_err());
        }
    }

    #[test]
    fn every_limit_of_a_busy_plan() {
        for first in ["W 3", "W 3 3 1", "W 3 4 16", "W 3 5 2"] {
            let text = busy(first);
            let all = compared(&text, u64::MAX, STORE, 1_000, 0).expect("a report");
            for limit in 0..=all.picks + 1 {
                let answer = compared(&text, limit, STORE, 1_000, limit).expect("a report");
                assert_eq!(answer.picks, limit.min(all.picks));
            }
        }
    }

    /// 6 before 7, both before the plan's own, those before 8.
    #[test]
    fn order_of_refusals() {
        let number = |text: &[u8], store, output| {
            let answer = compared(text, 5, store, output, 1);
            answer.map_or_else(|no| (no.number, no.line), |_| (0, 0))
        };
        let long = vec![b'W'; 65_537];
        assert_eq!(number(&long, 0, 0), (6, 0));
        assert_eq!(number(&long, STORE, 100), (6, 0));
        assert_eq!(number(b"", STORE - 1, 0), (7, 0));
        assert_eq!(number(b"", STORE, 0), (3, 1));
        assert_eq!(number(b"W\t1\n", STORE, 0), (8, 0));
        assert_eq!(number(b"W\t1\n", STORE, 100), (0, 0));
        assert_eq!(number(b"W\t2\t1\t1\n", STORE - 1, 0), (7, 0));
        assert_eq!(number(b"W\t2\t1\t1\n", STORE, 0), (9, 1));
        assert_eq!(number(b"W\t2\t2\t1\n", STORE, 0), (8, 0));
        let (nobody, tied) = (b"W\t2\nT\ta\t0\nM\t0\n", b"W\t2\nT\ta\t0\nM\t1\n");
        assert_eq!(number(nobody, STORE - 1, 0), (7, 0));
        assert_eq!(number(nobody, STORE, 0), (11, 3));
        assert_eq!(number(tied, STORE, 0), (8, 0));
    }

    /// A store that a run left serves the next one.
    #[test]
    fn one_store_for_many_runs() {
        let mut store = vec![0; STORE + 5];
        for plan in plans() {
            let (mut output, mut expected) = (vec![0; REPORT_SIZE], vec![0; REPORT_SIZE]);
            let answer = run(&plan, u64::MAX, &mut store, &mut output);
            let second = second::run::run(&plan, u64::MAX, &mut [0; STORE], &mut expected);
            assert_eq!(answer, second);
            assert_eq!(output, expected);
        }
        assert!(store.iter().all(|&number| number == 0));
    }

    fn plans() -> Vec<Vec<u8>> {
        let rng = &mut second::random::Rng::new(12);
        (0..300)
            .map(|_| second::random::plan(rng, second::random::Shape::Small))
            .collect()
    }
}

#[test]
fn report_size_of_the_header() {
    let header = include_str!("../../../include/salfunye.h");
    assert!(header.contains(&format!("#define SALFUNYE_REPORT_SIZE {REPORT_SIZE}\n")));
}

/// The header names each refusal by the paper's number, and no other.
#[test]
fn refusals_of_the_header() {
    let header = include_str!("../../../include/salfunye.h");
    let (_, names) = header.split_once("enum salfunye_refusal {").expect("it");
    let (names, _) = names.split_once('}').expect("its end");
    let numbers: Vec<(&str, &str)> = names
        .lines()
        .filter_map(|line| line.trim().strip_prefix("SALFUNYE_")?.split_once(" = "))
        .map(|(name, rest)| {
            let end = rest.find([',', ' ', '/']).unwrap_or(rest.len());
            (name, &rest[..end])
        })
        .collect();
    let expected = [
        ("ACCEPTED", "0"),
        ("MALFORMED", "1"),
        ("OUT_OF_RANGE", "2"),
        ("MISPLACED", "3"),
        ("TOO_MANY", "4"),
        ("ADDRESS_TWICE", "5"),
        ("TEXT_TOO_LONG", "6"),
        ("STORE_TOO_SHORT", "7"),
        ("OUTPUT_TOO_SHORT", "8"),
        ("TOO_FEW_SLOTS", "9"),
        ("OTHER_SIZES", "10"),
        ("EMPTY_MASK", "11"),
    ];
    assert_eq!(numbers, expected);
}

#[test]
fn random_calls() {
    match compare_many(10_000, 2_026) {
        Ok(counts) => {
            // 10 is a converter's alone
            let met = |&number: &usize| counts.answers[number] >= 100;
            let all = [0, 1, 2, 3, 4, 5, 6, 7, 8, 9, 11].iter().all(met);
            assert!(all, "each answer is met: {counts:?}");
            let tied = [
                counts.with_masks,
                counts.passed_over,
                counts.stopped_serving,
                counts.left_ready,
            ];
            assert!(tied.iter().all(|&runs| runs >= 100), "{counts:?}");
            let lock = [
                (counts.spoken_for, 500),
                (counts.unregistered, 100),
                (counts.served_free, 20),
            ];
            let enough = lock.iter().all(|&(reports, least)| reports >= least);
            assert!(enough, "{counts:?}");
        }
        Err((call, what)) => panic!(
            "{what}: limit {}, store {}, output {}, {:?}",
            call.limit,
            call.store.len(),
            call.output.len(),
            String::from_utf8_lossy(&call.text)
        ),
    }
}
