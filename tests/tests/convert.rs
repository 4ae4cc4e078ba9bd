//! The converters: their results byte for byte, their refusals and the order of
//! these, what they leave in the output, and that a moved plan is the same plan.

use second::convert::{answer_bytes, to_first, to_second};
use second::plan::{check, Form, Refusal};
use second::random::{damaged, first_form, plan, plan_of_size, with_sizes, Rng, Shape};
use second::run;
use second::text::lines;
use second::tool::Tool;
use second::used::{answered, assert_fits, Refused};

const BOTH: [Tool; 2] = [to_second, to_first];
const REST: [&str; 6] = [
    "T a 0 w5",
    "M 1",
    "T b-2 10 r5 w7",
    "P 0 3",
    "R 2",
    "S 9 40",
];

/// A plan of these lines behind a W line.
fn with_rest(first: &str) -> Vec<u8> {
    lines(&[&[first], &REST[..]].concat())
}

/// With room for any result.
fn result(convert: Tool, text: &[u8]) -> Result<Vec<u8>, Refused> {
    answered(convert, text, 70_000)
}

fn refused(convert: Tool, plan: &[&str]) -> Refused {
    result(convert, &lines(plan)).unwrap_err()
}

#[test]
fn there_and_back() {
    for workers in 1..=32 {
        let first = with_rest(&format!("W {workers}"));
        let second = with_rest(&format!("W {workers} 64 8"));
        assert_eq!(result(to_second, &first), Ok(second.clone()));
        assert_eq!(result(to_first, &second), Ok(first));
    }
    assert_eq!(result(to_second, b"W\t1\n"), Ok(b"W\t1\t64\t8\n".to_vec()));
    assert_eq!(result(to_first, b"W\t1\t64\t8\n"), Ok(b"W\t1\n".to_vec()));
}

/// In the wanted form already: the same bytes, whatever the sizes.
#[test]
fn unchanged() {
    let first = with_rest("W 2");
    assert_eq!(result(to_first, &first), Ok(first.clone()));
    for slots in 2..=64 {
        for capacity in 1..=16 {
            let second = with_rest(&format!("W 2 {slots} {capacity}"));
            assert_eq!(result(to_second, &second), Ok(second.clone()));
        }
    }
}

/// Only 64 and 8 together go back; either other one is 10, with line 1.
#[test]
fn other_sizes() {
    for slots in 2..=64 {
        for capacity in 1..=16 {
            let second = with_rest(&format!("W 2 {slots} {capacity}"));
            let expected = match (slots, capacity) {
                (64, 8) => Ok(with_rest("W 2")),
                _ => Err((10, 1)),
            };
            assert_eq!(result(to_first, &second), expected);
        }
    }
}

/// What the plan's reader refuses gives its number and line, both ways.
#[test]
fn refusals_of_the_reader() {
    for convert in BOTH {
        assert_eq!(result(convert, b""), Err((3, 1)));
        assert_eq!(result(convert, b"W\t1"), Err((1, 1)));
        assert_eq!(refused(convert, &["W 33"]), (2, 1));
        assert_eq!(refused(convert, &["W 4 64"]), (1, 1));
        assert_eq!(refused(convert, &["W 4 64 08"]), (1, 1));
        assert_eq!(refused(convert, &["W 4 65 8"]), (2, 1));
        assert_eq!(refused(convert, &["W 4 64 17"]), (2, 1));
        assert_eq!(refused(convert, &["W 4 3 8"]), (9, 1));
        assert_eq!(refused(convert, &["W 2", "R 1", "T a 0"]), (3, 3));
        assert_eq!(refused(convert, &["W 2", "T a 0 r1 r2 r3 r4 r5"]), (4, 2));
        assert_eq!(refused(convert, &["W 2", "T a 0 r5 r5"]), (5, 2));
        assert_eq!(refused(convert, &["W 2", "T a 0", "M 4"]), (2, 3));
        assert_eq!(refused(convert, &["W 2", "R 1", "M 1"]), (3, 3));
        assert_eq!(refused(convert, &["W 2", "T a 0", "M 0"]), (11, 3));
        assert_eq!(result(convert, &vec![b'W'; 65_537]), Err((6, 0)));
    }
}

/// 10 follows every refusal of the reader, those of later lines too, and comes
/// before a short output.
#[test]
fn order_of_other_sizes() {
    assert_eq!(refused(to_first, &["W 4 3 7"]), (9, 1));
    assert_eq!(refused(to_first, &["W 4 63 8", "X"]), (1, 2));
    assert_eq!(refused(to_first, &["W 4 64 9", "R 1", "R 0"]), (2, 3));
    assert_eq!(refused(to_first, &["W 4 5 6", "W 4"]), (3, 2));
    assert_eq!(refused(to_first, &["W 4 5 6", "T a 0 r5 r5"]), (5, 2));
    assert_eq!(refused(to_first, &["W 4 5 6", "T a 0", "M 0"]), (11, 3));
    let unended = [&with_rest("W 4 63 8")[..], b"R\t1"].concat();
    assert_eq!(result(to_first, &unended), Err((1, 8)));
    for room in 0..80 {
        let answer = answered(to_first, &with_rest("W 4 63 8"), room);
        assert_eq!(answer, Err((10, 1)));
    }
    let full = with_sizes(&sized(65_530), 64, 9);
    assert_eq!(answered(to_first, &full, 0), Err((10, 1)));
    let long = with_sizes(&sized(65_532), 64, 9);
    assert_eq!(result(to_first, &long), Err((6, 0)));
}

/// A plan of the first form of so many bytes.
fn sized(size: usize) -> Vec<u8> {
    let rng = &mut Rng::new(size as u64);
    let text = first_form(rng, |rng| plan_of_size(rng, size));
    assert_eq!(text.len(), size);
    text
}

/// 6 is judged by the result, which has 5 bytes more in the second form, after
/// the reader's refusals and before a short output.
#[test]
fn size_of_the_result() {
    for (size, room) in [(65_530, 65_535), (65_531, 65_536)] {
        let text = sized(size);
        let moved = answered(to_second, &text, room).unwrap();
        assert_eq!(moved, with_sizes(&text, 64, 8));
        assert_eq!(moved.len(), room);
        assert_eq!(answered(to_second, &text, room - 1), Err((8, 0)));
        assert_eq!(answered(to_first, &moved, size), Ok(text));
        assert_eq!(answered(to_first, &moved, size - 1), Err((8, 0)));
        assert_eq!(answered(to_second, &moved, room), Ok(moved));
    }
    for size in [65_532, 65_535, 65_536] {
        let text = sized(size);
        assert_eq!(result(to_second, &text), Err((6, 0)));
        assert_eq!(answered(to_second, &text, 0), Err((6, 0)));
        assert_eq!(answered(to_first, &text, size), Ok(text.clone()));
        let mut faulty = text;
        faulty[size - 2] = b'x';
        let line = faulty.split(|&byte| byte == b'\n').count() as u64 - 1;
        assert_eq!(result(to_second, &faulty), Err((1, line)));
    }
    // One byte more is too long to be read, though its result would not be.
    let long = with_sizes(&sized(65_532), 64, 8);
    assert_eq!(result(to_first, &long), Err((6, 0)));
}

/// 8 comes last, and only where the result doesn't fit.
#[test]
fn room_for_the_result() {
    let (first, second) = (with_rest("W 2"), with_rest("W 2 64 8"));
    for (convert, text, wanted) in [
        (BOTH[0], &first, &second),
        (BOTH[0], &second, &second),
        (BOTH[1], &second, &first),
        (BOTH[1], &first, &first),
    ] {
        assert_fits(wanted, 20, |room| answered(convert, text, room));
    }
    for convert in BOTH {
        assert_eq!(answered(convert, b"", 0), Err((3, 1)));
        assert_eq!(answered(convert, b"W\t0\n", 0), Err((2, 1)));
        assert_eq!(answered(convert, b"W\t2\nX\n", 0), Err((1, 2)));
        assert_eq!(answered(convert, b"W\t2\t1\t8\n", 0), Err((9, 1)));
        assert_eq!(answered(convert, &vec![b'W'; 65_537], 0), Err((6, 0)));
    }
}

/// Random plans of both forms, and damaged ones: refused as the reader does it, or
/// with 10, or moved there and back, with the same tasks and order.
#[test]
fn random_texts() {
    let rng = &mut Rng::new(31);
    let (mut moved, mut back, mut others, mut faults) = (0, 0, 0, 0);
    for round in 0..6_000 {
        let mut text = match round % 3 {
            0 => damaged(rng),
            1 => first_form(rng, |rng| plan(rng, Shape::Small)),
            _ => plan(rng, Shape::Medium),
        };
        if rng.one_in(2) {
            let near = [(64, 8), (64, 8), (64, 9), (63, 8), (32, 16)];
            let (slots, capacity) = rng.choose(&near);
            text = with_sizes(&text, slots, capacity);
        }
        let sound = match check(&text) {
            Ok(plan) => plan,
            Err(Refusal { number, line }) => {
                faults += 1;
                for convert in BOTH {
                    assert_eq!(result(convert, &text), Err((number, line)));
                }
                continue;
            }
        };
        let there = result(to_second, &text);
        let home = result(to_first, &text);
        match sound.form {
            Form::First if text.len() + 5 > 65_536 => {
                assert_eq!(there, Err((6, 0)));
                assert_eq!(home, Ok(text));
            }
            Form::First => {
                moved += 1;
                let there = there.unwrap();
                assert_eq!(there, with_sizes(&text, 64, 8));
                assert_eq!(result(to_first, &there).as_ref(), Ok(&text));
                assert_eq!(home, Ok(text.clone()));
                let limit = rng.choose(&[50, 2_000]);
                let report = run::answer_bytes(&text, limit);
                assert_eq!(run::answer_bytes(&there, limit), report);
            }
            Form::Second {
                slots: 64,
                capacity: 8,
            } => {
                back += 1;
                let home = home.unwrap();
                assert_eq!(with_sizes(&home, 64, 8), text);
                assert_eq!(check(&home).unwrap().form, Form::First);
                assert_eq!(there.as_ref(), Ok(&text));
                assert_eq!(result(to_second, &home), there);
            }
            Form::Second { .. } => {
                others += 1;
                assert_eq!(home, Err((10, 1)));
                assert_eq!(there, Ok(text));
            }
        }
    }
    let seen = [moved, back, others, faults];
    assert!(seen.iter().all(|&times| times >= 500), "{seen:?}");
}

/// What the programs print.
#[test]
fn printed() {
    let print = |convert, text: &str| String::from_utf8(answer_bytes(convert, text.as_bytes()));
    let printed = |convert, text| print(convert, text).unwrap();
    assert_eq!(printed(to_second, "W\t3\nR\t1\n"), "W\t3\t64\t8\nR\t1\n");
    assert_eq!(printed(to_first, "W\t3\t64\t8\nR\t1\n"), "W\t3\nR\t1\n");
    assert_eq!(printed(to_first, "W\t3\t64\t9\nR\t1\n"), "X\t10\t1\n");
    assert_eq!(printed(to_second, "W\t3\nR\t0\n"), "X\t2\t2\n");
    let long = String::from_utf8(sized(65_532)).unwrap();
    assert_eq!(printed(to_second, &long), "X\t6\t0\n");
    let full = String::from_utf8(sized(65_531)).unwrap();
    assert_eq!(printed(to_second, &full).len(), 65_536);
}
