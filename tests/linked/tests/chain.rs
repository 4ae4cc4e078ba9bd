//! The proved longest chain: lines, refusals and what is left in the output, held to
//! the second implementation and to the paper's own words.

use linked::beside::agreed;
use linked::chain::longest_chain;
use linked::chained::{compare, longest_plan, CHAINS};
use second::chain::line;
use second::random::{plan_of_size, Rng};
use second::text::lines;
use second::used::{self, used_output, Refused};

/// Compares one call with an output of this length, and gives the line.
fn answered(text: &[u8], room: usize) -> Result<String, Refused> {
    let compared = compare(text, &line(text), &used_output(room, 77));
    let answer = agreed(text, compared);
    assert_eq!(used::answered(longest_chain, text, room), answer);
    Ok(String::from_utf8(answer?).expect("ASCII"))
}

/// The fields of the line of a plan, with blanks for tabs.
fn fields(plan: &[&str]) -> String {
    let line = answered(&lines(plan), 409).expect("a line");
    line.strip_suffix('\n').expect("its end").replace('\t', " ")
}

#[test]
fn chains() {
    assert_eq!(fields(&["W 1"]), "0");
    assert_eq!(fields(&["W 3 3 1", "R 5"]), "0");
    assert_eq!(fields(&["W 1", "T a 0"]), "0 0");
    assert_eq!(fields(&["W 1", "T a 1000 w1"]), "1000 0");
    assert_eq!(fields(&["W 1", "T a 3 w5", "T b 4 r5"]), "7 0 1");
    assert_eq!(fields(&["W 1", "T a 3 r5", "T b 4 w5"]), "7 0 1");
    assert_eq!(fields(&["W 1", "T a 3 r5", "T b 4 r5"]), "4 1");
    assert_eq!(
        fields(&["W 1", "T a 5 w1 w2", "T b 5 r1", "T c 6 r2"]),
        "11 0 2"
    );
    assert_eq!(
        fields(&["W 1", "T a 3 w5", "M 1", "T b 4 r5", "R 1"]),
        "7 0 1"
    );
}

/// Of equal sums the first in order of numbers; a chain before its own extensions.
#[test]
fn equal_sums() {
    assert_eq!(fields(&["W 1", "T a 4", "T b 4"]), "4 0");
    assert_eq!(fields(&["W 1", "T a 2 w1", "T b 4", "T c 2 w1"]), "4 0 2");
    assert_eq!(fields(&["W 1", "T a 4", "T b 2 w1", "T c 2 w1"]), "4 0");
    assert_eq!(fields(&["W 1", "T a 0 w1", "T b 5 w1"]), "5 0 1");
    assert_eq!(fields(&["W 1", "T a 5 w1", "T b 0 w1"]), "5 0");
    assert_eq!(
        fields(&["W 1", "T a 5 w1", "T b 0 w1", "T c 5 w1"]),
        "10 0 1 2"
    );
    assert_eq!(
        fields(&["W 1", "T a 5 w1 w2", "T b 0 w1", "T c 5 w2"]),
        "10 0 2"
    );
    assert_eq!(
        fields(&["W 1", "T a 5 w1", "T b 0 w1 w2", "T c 5 w2"]),
        "10 0 1 2"
    );
    assert_eq!(fields(&["W 1", "T a 0 w1", "T b 0 w1"]), "0 0");
}

/// The reader's refusals, then 8.
#[test]
fn order_of_refusals() {
    assert_eq!(answered(b"", 0), Err((3, 1)));
    assert_eq!(answered(b"W\t1", 0), Err((1, 1)));
    assert_eq!(answered(b"W\t0\n", 0), Err((2, 1)));
    assert_eq!(answered(b"W\t2\t1\t1\n", 0), Err((9, 1)));
    assert_eq!(answered(b"W\t1\nT\ta\t0\nM\t0\n", 0), Err((11, 3)));
    assert_eq!(answered(b"W\t1\nT\ta\t0\tr5\tr5\n", 0), Err((5, 2)));
    assert_eq!(
        answered(b"W\t1\nT\ta\t0\tr1\tr2\tr3\tr4\tr5\n", 9),
        Err((4, 2))
    );
    assert_eq!(answered(b"W\t1\nR\t1\nT\ta\t0\n", 9), Err((3, 3)));
    assert_eq!(answered(b"W\t1\n", 0), Err((8, 0)));
    assert_eq!(answered(b"W\t1\n", 1), Err((8, 0)));
    assert_eq!(answered(b"W\t1\n", 2), Ok("0\n".to_string()));
}

/// 128 tasks of the highest cost in one chain, and every length of the output.
#[test]
fn longest_line() {
    let text = longest_plan(&mut Rng::new(3));
    for room in 0..409 {
        assert_eq!(answered(&text, room), Err((8, 0)));
    }
    for room in 409..450 {
        let line = answered(&text, room).expect("a line");
        assert_eq!(line.len(), 409);
        assert!(line.starts_with("128000\t0\t1\t") && line.ends_with("\t126\t127\n"));
    }
}

/// Texts around the longest.
#[test]
fn sizes_of_texts() {
    for size in 65_530..=65_540 {
        let text = plan_of_size(&mut Rng::new(7), size);
        assert_eq!(text.len(), size);
        let answer = answered(&text, 409);
        assert_eq!(answer == Err((6, 0)), size > 65_536);
        assert!(answer.is_ok() || size > 65_536);
        CHAINS.assert_same(&text);
    }
}

/// Three tasks, with equal sums and without, and many ways to use two addresses.
#[test]
fn all_small_plans() {
    let uses = ["", " r1", " w1", " r2", " w2", " r1 w2", " w2 w1"];
    for one in uses {
        for two in uses {
            for three in uses {
                for costs in ["0 0 0", "0 1 0", "1 0 1", "1 1 1", "2 1 1", "0 0 1"] {
                    let mut costs = costs.split(' ');
                    let mut task = |uses| format!("T a {}{uses}", costs.next().expect("a cost"));
                    let tasks = [task(one), task(two), task(three)];
                    CHAINS.assert_same(&lines(&["W 1", &tasks[0], &tasks[1], &tasks[2]]));
                }
            }
        }
    }
}

#[test]
fn every_byte_in_every_place() {
    let plan = lines(&[
        "W 2",
        "T a 10 r5 w7",
        "M 1",
        "T b 0 w5",
        "T c 5 r7 r5",
        "R 2",
    ]);
    CHAINS.assert_same_near(&plan);
}

#[test]
fn random_texts() {
    CHAINS.assert_many(4_000, 2_028, 5);
}
