//! How many looks at bytes of its text a check may take, and what its program prints.

use std::io::Write;
use std::process::{Command, Stdio};

use second::looks::{answer_bytes, bounds};
use second::plan::check;
use second::random::{damaged, plan, Rng, Shape};
use second::text::lines;

/// The number and line of a refusal, both 0 where the text is accepted, with the
/// fewest and the most looks.
fn judged(text: &[u8]) -> ((u8, u64), u64, u64) {
    let answer = check(text).map(|_| ());
    let (least, most) = bounds(text, answer).into_inner();
    let refused = answer.map_or_else(|no| (no.number, no.line), |()| (0, 0));
    (refused, least, most)
}

#[test]
fn accepted_texts() {
    for (text, length) in [
        ("W\t1\n", 4),
        ("W\t32\t64\t16\n", 11),
        ("W\t2\nT\ta\t0\nP\t1\t3\nP\t0\t5\nP\t1\t4\nP\t0\t2\n", 34),
        ("W\t2\nT\t0123456789abcdef\t1000\tr0\tw65535\n", 38),
        ("W\t32\nT\ta\t0\nM\t4294967295\n", 24),
        ("W\t2\nT\ta\t0\nM\t1\nT\tb\t0\nM\t3\nR\t1\n", 28),
    ] {
        assert_eq!(judged(text.as_bytes()), ((0, 0), length, length), "{text}");
    }
}

#[test]
fn refused_texts() {
    for (text, refused, least, most) in [
        ("", (3, 1), 0, 0),
        ("\n", (1, 1), 0, 1),
        ("W", (1, 1), 0, 1),
        ("W\t1", (1, 1), 0, 3),
        ("W\t0\n", (2, 1), 0, 4),
        ("W\t1\t2\n", (1, 1), 0, 6),
        ("W\t4\t3\t8\nR\t1\n", (9, 1), 0, 8),
        ("T\ta\t0\nW\t1\n", (3, 1), 0, 6),
        // an empty line, first, in the middle and last
        ("\nW\t1\n", (1, 1), 0, 1),
        ("W\t1\n\nR\t1\n", (1, 2), 4, 5),
        ("W\t1\nR\t1\n\n", (1, 3), 8, 9),
        // the last line without its line feed
        ("W\t1\nR\t1", (1, 2), 4, 7),
        ("W\t1\nR\t1\nP\t0", (1, 3), 8, 11),
        ("W\t1\nR\t1\nP\t0\t", (1, 3), 8, 12),
        // a field that is not there, and one that is too long
        ("W\t1\nT\ta\t\nR\t1\n", (1, 2), 4, 9),
        ("W\t1\nP\t0\t\nR\t1\n", (1, 2), 4, 9),
        ("W\t1\nW\t1\t2\nR\t1\n", (1, 2), 4, 10),
        ("W\t1\nT\t0123456789abcdefg\nR\t1\n", (1, 2), 4, 24),
        // faults of a well formed line, with lines behind it
        ("W\t1\nT\ta\t0\tr5\tr5\nR\t1\n", (5, 2), 4, 16),
        ("W\t1\nT\ta\t0\tr1\tr2\tr3\tr4\tr5\nX\n", (4, 2), 4, 25),
        ("W\t1\nR\t1\nT\ta\t0\nR\t1\n", (3, 3), 8, 14),
        ("W\t1\nR\t1\nR\t0\nR\t0\n", (2, 3), 8, 12),
        ("W\t1\nP\t1\t18446744073709551616\nX\n", (2, 2), 4, 29),
        // M lines: of another form, in another place, out of range, of nobody
        ("W\t2\nT\ta\t0\nM\nR\t1\n", (1, 3), 10, 12),
        ("W\t2\nT\ta\t0\nM\t\nR\t1\n", (1, 3), 10, 13),
        ("W\t2\nT\ta\t0\nM\t1\t1\nR\t1\n", (1, 3), 10, 16),
        ("W\t2\nT\ta\t0\nM\t1", (1, 3), 10, 13),
        ("M\t1\nW\t2\n", (3, 1), 0, 4),
        ("W\t2\nM\t1\nT\ta\t0\n", (3, 2), 4, 8),
        ("W\t2\nT\ta\t0\nM\t1\nM\t1\nR\t1\n", (3, 4), 14, 18),
        ("W\t2\nT\ta\t0\nM\t4\nR\t1\n", (2, 3), 10, 14),
        ("W\t2\nT\ta\t0\nM\t0\nR\t1\n", (11, 3), 10, 14),
    ] {
        assert_eq!(judged(text.as_bytes()), (refused, least, most), "{text:?}");
    }
}

/// So many bytes: a W line, rounds, and a last line that fits.
fn sized(size: usize) -> Vec<u8> {
    let mut text = b"W\t1\n".to_vec();
    while text.len() + 8 <= size {
        text.extend(b"R\t1\n");
    }
    let last = format!("R\t{}\n", "1".repeat(size - text.len() - 3));
    text.extend(last.bytes());
    assert_eq!(text.len(), size);
    text
}

#[test]
fn sizes_of_texts() {
    for size in [65_535, 65_536] {
        let length = size as u64;
        assert_eq!(judged(&sized(size)), ((0, 0), length, length));
        assert_eq!(judged(&vec![b'W'; size]), ((1, 1), 0, length));
        assert_eq!(judged(&vec![b'\n'; size]), ((1, 1), 0, 1));
    }
    assert_eq!(judged(&sized(65_537)), ((6, 0), 0, 0));
    assert_eq!(judged(&vec![b'\n'; 65_537]), ((6, 0), 0, 0));
    // the last of 16,384 lines, with another byte for its line feed
    let mut unended = sized(65_536);
    unended[65_535] = b' ';
    assert_eq!(judged(&unended), ((1, 16_384), 65_532, 65_536));
}

/// A fault in the middle of a line of 40,000 bytes; what is behind it has no effect.
#[test]
fn a_long_line() {
    let digits = "1".repeat(20_000);
    let line = format!("R\t{}x{}\n", &digits[..19_999], &digits[..19_997]);
    assert_eq!(line.len(), 40_000);
    for behind in ["", "R\t1\n", "X\nX\nX"] {
        let text = format!("W\t1\n{line}{behind}");
        assert_eq!(judged(text.as_bytes()), ((1, 2), 4, 40_004));
    }
}

/// Every prefix of a plan: accepted where it ends with a line, and else refused in a
/// line that ends with the text.
#[test]
fn every_prefix() {
    let orders = ["P 2 1", "R 1", "S 1 1"];
    let tasks = ["T a-1 10 r5 w65535", "M 5"];
    let text = lines(&[&["W 3 10 8"], &tasks[..], &orders].concat());
    let mut start = 0;
    for length in 1..=text.len() {
        let (refused, least, most) = judged(&text[..length]);
        assert_eq!(most, length as u64);
        if text[length - 1] == b'\n' {
            start = most;
        }
        assert_eq!(least, start);
        assert_eq!(refused.0, u8::from(start != most));
    }
}

/// Where the bounds lie: at the ends of lines next to each other.
#[test]
fn random_texts() {
    let rng = &mut Rng::new(17);
    let (mut accepted, mut later) = (0, 0);
    for round in 0..4_000 {
        let text = match round % 4 {
            0 => plan(rng, Shape::Small),
            _ => damaged(rng),
        };
        let (refused, least, most) = judged(&text);
        let ends = |looks: u64| text[..looks as usize].iter().filter(|&&byte| byte == b'\n');
        match refused {
            (0, 0) => {
                accepted += 1;
                assert_eq!((least, most), (text.len() as u64, text.len() as u64));
            }
            (6, 0) => assert_eq!((least, most), (0, 0)),
            (_, line) => {
                later += u64::from(line > 1);
                assert_eq!(ends(least).count() as u64, line - 1);
                assert!(least == 0 || text[least as usize - 1] == b'\n');
                let whole = most == text.len() as u64 || text[most as usize - 1] == b'\n';
                assert!(whole && ends(most).count() as u64 <= line);
                assert!(least < most || text.is_empty());
            }
        }
    }
    assert!(accepted >= 1_000 && later >= 500, "{accepted}, {later}");
}

#[test]
fn printed() {
    let print = |text: &str| String::from_utf8(answer_bytes(text.as_bytes())).unwrap();
    assert_eq!(print("W\t2\n"), "A\t4\n");
    assert_eq!(print("W\t2\t64\t8\nR\t100\n"), "A\t15\n");
    assert_eq!(print(""), "X\t3\t1\n");
    assert_eq!(print("W\t2\nR\t0\nX\n"), "X\t2\t2\n");
    assert_eq!(print("W\t2\nT\ta\t0\nM\t3\n"), "A\t14\n");
    assert_eq!(print("W\t2\nT\ta\t0\nM\t0\n"), "X\t11\t3\n");
    assert_eq!(answer_bytes(&sized(65_536)), b"A\t65536\n");
    assert_eq!(answer_bytes(&sized(65_537)), b"X\t6\t0\n");
}

#[test]
fn printed_by_the_program() {
    for (text, expected) in [("W\t2\nR\t1\n", "A\t8\n"), ("W\t2\nR\t1", "X\t1\t2\n")] {
        let mut child = Command::new(env!("CARGO_BIN_EXE_second"))
            .arg("check")
            .stdin(Stdio::piped())
            .stdout(Stdio::piped())
            .spawn()
            .unwrap();
        let mut input = child.stdin.take().unwrap();
        input.write_all(text.as_bytes()).unwrap();
        drop(input);
        let output = child.wait_with_output().unwrap();
        assert!(output.status.success());
        assert_eq!(String::from_utf8(output.stdout).unwrap(), expected);
    }
}
