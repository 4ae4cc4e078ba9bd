//! Which refusal, and in which line.

use second::plan::{check, Refusal};
use second::run::answer_bytes;
use second::text::lines;

fn refused_text(text: &[u8]) -> (u8, u64) {
    let Refusal { number, line } = check(text).unwrap_err();
    (number, line)
}

fn refused(plan: &[&str]) -> (u8, u64) {
    refused_text(&lines(plan))
}

/// The refusal number of one line, put after a W line with 2 workers.
fn second_line(line: &str) -> u8 {
    let (number, at) = refused(&["W 2", line]);
    assert_eq!(at, 2);
    number
}

fn accepted(plan: &[&str]) -> bool {
    check(&lines(plan)).is_ok()
}

#[test]
fn forms() {
    for text in [
        &b"W\t1"[..],
        b"W",
        b"\n",
        b"W\n",
        b"W\t\n",
        b"W\t1\t\n",
        b"W\t1\t1\n",
        b"W\t4\t4\n",
        b"W\t4\t4\t8\t1\n",
        b"W\t4\t4\t8\t\n",
        b"W\t4\t4\t\n",
        b"W\t4\t\t8\n",
        b"W\t\t4\t8\n",
        b"W\t4\t4\t-\n",
        b"W\t4\t-\t8\n",
        b"W\t-\t4\t8\n",
        b"W\t4\t4\t08\n",
        b"W\t4\t04\t8\n",
        b"W\t04\t4\t8\n",
        b"W\t4\t4\t00\n",
        b"W\t4\t4\t+8\n",
        b"W\t4\t4\t8 \n",
        b"W\t4\t4 \t8\n",
        b"W\t4\t4\tx\n",
        b"W\t4\t4\t8\r\n",
        b"W\t4\t4\t8",
        b"W\t4 4\t8\n",
        b"\tW\t1\n",
        b"W\t01\n",
        b"W\t00\n",
        b"W\t+1\n",
        b"W\t-1\n",
        b"W\t1 \n",
        b"W\t 1\n",
        b"W 1\n",
        b"W\t1\r\n",
        b"W\tx\n",
        b"W\t1x\n",
        b"WW\t1\n",
        b"w\t1\n",
        b"X\t1\n",
        b"W\t1\0\n",
        b"W\t\xb2\n",
        b"\xef\xbb\xbfW\t1\n",
        b"\0",
    ] {
        assert_eq!(refused_text(text), (1, 1), "{text:?}");
    }
}

#[test]
fn forms_of_later_lines() {
    for line in [
        "T",
        "T a",
        "T  0",
        "T a ",
        "T a 00",
        "T a x",
        "T a_b 0",
        "T a 0 ",
        "T a 0 5",
        "T a 0 r",
        "T a 0 r05",
        "T a 0 R5",
        "T a 0 rw5",
        "T a 0 r5 ",
        "T 0123456789abcdefg 0",
        "T a 0 r-1",
        "P",
        "P 0",
        "P 0 1 1",
        "P 0 ",
        "P  1",
        "R",
        "R 1 1",
        "R 01",
        "S 1",
        "S 1 1 1",
        "S  1",
        "",
        "E 1",
        "m 1",
    ] {
        assert_eq!(second_line(line), 1, "{line}");
    }
}

#[test]
fn a_line_without_line_feed() {
    assert_eq!(refused_text(b"W\t1\nT\ta\t0"), (1, 2));
    assert_eq!(refused_text(b"W\t1\nT\ta\t0\nP\t9"), (1, 3));
    // A fault of an earlier line decides first.
    assert_eq!(refused_text(b"W\t33\nT\ta\t0"), (2, 1));
    // An empty last piece is no line; an empty line is one.
    assert!(check(b"W\t1\n").is_ok());
    assert_eq!(refused_text(b"W\t1\n\n"), (1, 2));
}

#[test]
fn places() {
    assert_eq!(refused(&["T a 0", "W 1"]), (3, 1));
    assert_eq!(refused(&["R 1"]), (3, 1));
    assert_eq!(refused(&["P 40 1"]), (3, 1));
    assert_eq!(refused(&["R 0"]), (3, 1));
    assert_eq!(refused(&["T a 1001 r5 r5"]), (3, 1));
    assert_eq!(refused(&["W 1", "W 1"]), (3, 2));
    assert_eq!(refused(&["W 1", "W 99"]), (3, 2));
    assert_eq!(refused(&["W 1", "R 1", "T a 0"]), (3, 3));
    assert_eq!(refused(&["W 1", "R 1", "T a 1001"]), (3, 3));
    assert_eq!(refused(&["W 1", "R 1", "T a 0 r1 r1"]), (3, 3));
    assert_eq!(refused(&["W 1", "S 1 1", "T a 0 r1 r2 r3 r4 r5"]), (3, 3));
    // Form before place.
    assert_eq!(refused(&["W 1", "R 1", "T a"]), (1, 3));
    assert_eq!(refused(&["W 1", "W x"]), (1, 2));
}

#[test]
fn forms_of_a_mask() {
    for line in [
        "M", "M ", "M 1 ", "M  1", "M 1 1", "M 3 0", "M 01", "M 00", "M -1", "M -0", "M +1",
        "M 0x1", "M 1x", "M x", "M r1", "M 1.0", "M 1,2", "MM 1", "m 1", "M1",
    ] {
        assert_eq!(refused(&["W 2", "T a 0", line]), (1, 3), "{line}");
    }
    for line in [
        "M\t1\r\n", "M\t1 \n", "M\t 1\n", "M 1\n", "M\t1\0\n", "M\t1",
    ] {
        let text = format!("W\t2\nT\ta\t0\n{line}");
        assert_eq!(refused_text(text.as_bytes()), (1, 3), "{line:?}");
    }
}

/// Directly after a T line, and nowhere else.
#[test]
fn places_of_a_mask() {
    assert_eq!(refused(&["M 1"]), (3, 1));
    assert_eq!(refused(&["M 1", "W 2", "T a 0"]), (3, 1));
    assert_eq!(refused(&["W 2", "M 1"]), (3, 2));
    assert_eq!(refused(&["W 2 2 1", "M 1", "T a 0"]), (3, 2));
    assert_eq!(refused(&["W 2", "T a 0", "M 1", "M 1"]), (3, 4));
    assert_eq!(refused(&["W 2", "T a 0", "T b 0", "M 1", "M 2"]), (3, 5));
    for order in ["P 0 1", "R 1", "S 0 1"] {
        assert_eq!(refused(&["W 2", order, "M 1"]), (3, 3));
        assert_eq!(refused(&["W 2", "T a 0", order, "M 1"]), (3, 4));
        assert_eq!(refused(&["W 2", "T a 0", "M 1", order, "M 1"]), (3, 5));
        assert!(accepted(&["W 2", "T a 0", "M 1", order]));
        assert_eq!(refused(&["W 2", "T a 0", "M 1", order, "T b 0"]), (3, 5));
    }
    let both = ["W 2", "T a 0", "M 1", "T b 0", "T c 0 r5", "M 3", "R 1"];
    assert!(accepted(&both));
    assert!(accepted(&both[..3]));
    // A W line again, behind an M line.
    assert_eq!(refused(&["W 2", "T a 0", "M 1", "W 2"]), (3, 4));
}

/// Bit i is worker i: for each number of workers, all of them, the last alone, and a
/// worker that there is not, also where a mask of few bits would lose it.
#[test]
fn workers_of_a_mask() {
    for workers in 1..=32u32 {
        let first = format!("W {workers}");
        let with = |mask: &str| {
            let line = format!("M {mask}");
            let read = check(&lines(&[&first, "T a 0", &line]));
            read.map(|plan| plan.tasks[0].mask.unwrap())
                .map_err(|refusal| (refusal.number, refusal.line))
        };
        let above = 1u128 << workers;
        for mask in [1, above / 2, above - 1, above / 2 + 1] {
            let mask = mask.min(above - 1);
            assert_eq!(with(&mask.to_string()), Ok(mask as u64));
        }
        for mask in [
            above,
            above + 1,
            2 * above - 1,
            4 * above,
            1 << 32,
            (1 << 32) + 1,
            1 << 63,
            1 << 64,
            (1 << 64) + 1,
            u128::MAX,
        ] {
            assert_eq!(with(&mask.to_string()), Err((2, 3)), "{workers}, {mask}");
        }
        for digit in ["1", "9"] {
            assert_eq!(with(&digit.repeat(30_000)), Err((2, 3)));
        }
        // 2^128 and 2^128 + 1
        for last in ["6", "7"] {
            let mask = format!("34028236692093846346337460743176821145{last}");
            assert_eq!(with(&mask), Err((2, 3)));
        }
        assert_eq!(with("0"), Err((11, 3)));
    }
}

/// Each pair of faults in one M line: form, place, range, a mask of 0. A mask is never
/// out of its range and 0.
#[test]
fn order_in_a_mask_line() {
    let long = "9".repeat(30_000);
    let behind_task = |line: &str| refused(&["W 2", "T a 0", line]);
    let misplaced = |line: &str| {
        let places = [
            refused(&[line]).0,
            refused(&["W 2", line]).0,
            refused(&["W 2", "T a 0", "R 1", line]).0,
            refused(&["W 2", "T a 0", "M 3", line]).0,
        ];
        assert!(places.iter().all(|&number| number == places[0]), "{line}");
        places[0]
    };
    // 1 and 3
    for line in ["M", "M ", "M 1 1", "M 01", "M -1", "M 0x1"] {
        assert_eq!(misplaced(line), 1, "{line}");
    }
    // 1 and 2, 1 and 11; then with 3 too
    for line in [
        "M 4 1", "M 04", "M 4 ", "M 4x", "M 00", "M 0 ", "M 0 1", "M -0",
    ] {
        assert_eq!(behind_task(line), (1, 3), "{line}");
        assert_eq!(misplaced(line), 1, "{line}");
    }
    assert_eq!(behind_task(&format!("M {long}x")), (1, 3));
    assert_eq!(behind_task(&format!("M {long} 1")), (1, 3));
    // 3 and 2, 3 and 11
    for line in ["M 4", "M 5", "M 18446744073709551616", "M 0"] {
        assert_eq!(misplaced(line), 3, "{line}");
    }
    assert_eq!(misplaced(&format!("M {long}")), 3);
    // alone
    assert_eq!(misplaced("M 3"), 3);
    assert_eq!(behind_task("M 4"), (2, 3));
    assert_eq!(behind_task("M 0"), (11, 3));
    assert!(accepted(&["W 2", "T a 0", "M 3"]));
}

/// An M line among faulty lines, and behind a T line that is at fault itself.
#[test]
fn the_first_faulty_line_with_masks() {
    assert_eq!(refused(&["W 2", "T a 0", "M 0", "X"]), (11, 3));
    assert_eq!(refused(&["W 2", "T a 0", "M 0", "M 1"]), (11, 3));
    assert_eq!(refused(&["W 2", "T a 0", "M 4", "T b 0", "M 0"]), (2, 3));
    assert_eq!(refused(&["W 2", "M 0", "T b 0", "M 4"]), (3, 2));
    assert_eq!(refused(&["W 2", "T a 1001", "M 0"]), (2, 2));
    assert_eq!(refused(&["W 2", "T a 0 r5 r5", "M 0"]), (5, 2));
    assert_eq!(refused(&["W 0", "T a 0", "M 0"]), (2, 1));
    assert_eq!(refused(&["W 4 3 8", "T a 0", "M 0"]), (9, 1));
    assert_eq!(refused(&["W 2", "R 0", "M 0"]), (2, 2));
    assert_eq!(refused(&["W 2", "T a 0", "M 1", "T b 0", "M 0"]), (11, 5));
    assert_eq!(refused_text(b"W\t2\nT\ta\t0\nM\t0\nR\t1"), (11, 3));
}

/// A W line of either form again, after one of either form.
#[test]
fn workers_again() {
    for first in ["W 2", "W 2 2 1"] {
        for again in ["W 2", "W 2 2 1", "W 2 1 1", "W 2 65 1", "W 0 0 0"] {
            assert_eq!(refused(&[first, again]), (3, 2), "{first}, {again}");
            assert_eq!(refused(&[first, "T a 0", "R 1", again]), (3, 4));
        }
        assert_eq!(refused(&[first, "W 2 2"]), (1, 2));
        assert_eq!(refused(&["T a 0", first]), (3, 1));
    }
}

#[test]
fn slots_and_capacity() {
    for line in [
        "W 1 1 1",
        "W 4 4 8",
        "W 31 32 8",
        "W 32 32 1",
        "W 32 64 16",
        "W 1 64 16",
    ] {
        assert!(accepted(&[line]), "{line}");
    }
    for line in [
        "W 4 65 8",
        "W 4 0 8",
        "W 4 4 0",
        "W 4 4 17",
        "W 0 4 8",
        "W 33 64 8",
        "W 4 18446744073709551620 8",
        "W 4 4 18446744073709551617",
        "W 18446744073709551617 64 8",
    ] {
        assert_eq!(refused(&[line]), (2, 1), "{line}");
    }
    for workers in 1..=32 {
        assert!(accepted(&[&format!("W {workers} {workers} 8")]));
        for slots in 1..workers {
            assert_eq!(refused(&[&format!("W {workers} {slots} 8")]), (9, 1));
        }
    }
}

/// Two faults in one W line: form, place, ranges, and then too few slots.
#[test]
fn order_in_a_workers_line() {
    let first = |line: &str| refused(&[line]);
    let again = |line: &str| refused(&["W 4", line]);
    // 1 and 3, 1 and 2, 1 and 9.
    assert_eq!(again("W 4 4"), (1, 2));
    assert_eq!(again("W 4 4 -"), (1, 2));
    assert_eq!(first("W 33 64 -"), (1, 1));
    assert_eq!(first("W 4 65 08"), (1, 1));
    assert_eq!(first("W 4 65"), (1, 1));
    assert_eq!(first("W 4 3 -"), (1, 1));
    assert_eq!(first("W 4 3"), (1, 1));
    assert_eq!(first("W 4 3 8 1"), (1, 1));
    // 3 and 2, 3 and 9.
    assert_eq!(again("W 33 64 8"), (3, 2));
    assert_eq!(again("W 4 65 8"), (3, 2));
    assert_eq!(again("W 4 4 17"), (3, 2));
    assert_eq!(again("W 4 3 8"), (3, 2));
    // 2 and 9, by each of the three numbers.
    assert_eq!(first("W 33 32 8"), (2, 1));
    assert_eq!(first("W 1 0 8"), (2, 1));
    assert_eq!(first("W 4 0 8"), (2, 1));
    assert_eq!(first("W 4 3 0"), (2, 1));
    assert_eq!(first("W 4 3 17"), (2, 1));
    // 9, and a later line at fault too.
    assert_eq!(refused(&["W 4 3 8", "X", "W 4"]), (9, 1));
    assert_eq!(refused_text(b"W\t4\t3\t8\nR\t1"), (9, 1));
}

#[test]
fn ranges() {
    for line in [
        "T a 1001",
        "T a 0 r65536",
        "T a 0 w65536",
        "T a 0 r1 w2 r3 w70000",
        "P 2 1",
        "P 0 0",
        "P 0 4097",
        "P 2 0",
        "R 0",
        "R 1000001",
        "S 18446744073709551616 1",
        "S 0 0",
        "S 0 1000001",
        "S 99999999999999999999999 1",
    ] {
        assert_eq!(second_line(line), 2, "{line}");
    }
    for line in [
        "T a 1000",
        "T a 0 r65535 w0",
        "P 1 4096",
        "P 0 1",
        "R 1",
        "R 1000000",
        "S 18446744073709551615 1000000",
        "S 0 1",
    ] {
        assert!(accepted(&["W 2", line]), "{line}");
    }
}

/// Numbers that wrap around 2^64 to a small value are out of range too.
#[test]
fn no_wrapping() {
    assert_eq!(refused(&["W 18446744073709551617"]), (2, 1));
    assert_eq!(second_line("R 18446744073709551617"), 2);
    assert_eq!(second_line("R 340282366920938463463374607431768211457"), 2);
    assert_eq!(second_line("T a 0 r18446744073709551621"), 2);
}

#[test]
fn amounts_and_repeats() {
    assert_eq!(second_line("T a 0 r1 r2 r3 r4 r5"), 4);
    assert_eq!(second_line("T a 0 r1 r2 r3 r4 r1"), 4);
    assert_eq!(second_line("T a 0 r1 r2 r3 r4 r5 r6 r7 r8 r9"), 4);
    assert_eq!(second_line("T a 0 r1 r2 r3 r4 x"), 1);
    assert_eq!(second_line("T a 0 r1 r2 r3 r4 r65536"), 2);
    assert_eq!(second_line("T a 1001 r1 r2 r3 r4 r5"), 2);
    assert_eq!(second_line("T a 0 r5 w5"), 5);
    assert_eq!(second_line("T a 0 r1 w2 r3 w1"), 5);
    assert_eq!(second_line("T a 0 r65536 r65536"), 2);
    assert_eq!(second_line("T a 1001 r5 r5"), 2);
    assert!(accepted(&["W 1", "T a 0 r1 w2 r3 w4", "T b 0 r1 w2 r3 w4"]));
}

#[test]
fn the_129th_task() {
    let with = |last: &[&str]| {
        let mut plan = vec!["W 1"];
        plan.extend(["T a 0"; 128]);
        plan.extend_from_slice(last);
        plan.into_iter().map(String::from).collect::<Vec<_>>()
    };
    let refused = |last: &[&str]| {
        let plan = with(last);
        let plan: Vec<&str> = plan.iter().map(String::as_str).collect();
        check(&lines(&plan))
            .map(|plan| plan.tasks.len())
            .map_err(|r| (r.number, r.line))
    };
    assert_eq!(refused(&[]), Ok(128));
    assert_eq!(refused(&["R 1"]), Ok(128));
    assert_eq!(refused(&["T a 0"]), Err((4, 130)));
    assert_eq!(refused(&["T a"]), Err((1, 130)));
    assert_eq!(refused(&["T a 1001"]), Err((2, 130)));
    assert_eq!(refused(&["T a 0 r5 r5"]), Err((4, 130)));
    assert_eq!(refused(&["R 1", "T a 0"]), Err((3, 131)));
    assert_eq!(refused(&["T a 0", "x"]), Err((4, 130)));
    // M lines are no tasks.
    assert_eq!(refused(&["M 1"]), Ok(128));
    assert_eq!(refused(&["M 1", "T a 0"]), Err((4, 131)));
    assert_eq!(refused(&["M 0", "T a 0"]), Err((11, 130)));
    assert_eq!(refused(&["T a 0", "M 0"]), Err((4, 130)));
}

#[test]
fn the_first_faulty_line_decides() {
    assert_eq!(refused(&["W 1", "T a 0 r5 r5", "X"]), (5, 2));
    assert_eq!(refused(&["W 1", "T a 0 r1 r2 r3 r4 r5", "T a"]), (4, 2));
    assert_eq!(refused(&["W 0", "W 0"]), (2, 1));
    assert_eq!(refused(&["W 1", "P 1 1", "T"]), (2, 2));
    assert_eq!(refused(&["W 1", "R 1", "R 1", "R 0"]), (2, 4));
}

#[test]
fn numbers_of_forty_thousand_digits() {
    let nines = "9".repeat(40_000);
    let zeros = "0".repeat(40_000);
    let one_and_zeros = format!("1{}", "0".repeat(39_999));
    for digits in [&nines, &one_and_zeros] {
        for line in ["W #", "W # 64 8", "W 4 # 8", "W 4 4 #", "W 4 3 #"] {
            assert_eq!(refused(&[&line.replace('#', digits)]), (2, 1), "{line}");
        }
        for line in [
            "T a #", "T a 0 r#", "P # 1", "P 0 #", "R #", "S # 1", "S 1 #",
        ] {
            assert_eq!(second_line(&line.replace('#', digits)), 2, "{line}");
        }
        assert_eq!(second_line(&format!("W {digits}")), 3);
        assert_eq!(second_line(&format!("W 2 {digits} 8")), 3);
        assert_eq!(second_line(&format!("R {digits}x")), 1);
        assert_eq!(second_line(&format!("T {digits} 0")), 1);
        assert_eq!(second_line(&format!("T a 0 r1 r2 r3 r4 r{digits}")), 2);
    }
    assert_eq!(second_line(&format!("R {zeros}")), 1);
    let unended = format!("W\t1\nR\t{nines}");
    assert_eq!(refused_text(unended.as_bytes()), (1, 2));
}

/// `W 1` and rounds up to the wanted size.
fn text_of(size: usize) -> Vec<u8> {
    let mut text = b"W\t1\n".to_vec();
    while text.len() + 8 <= size {
        text.extend(b"R\t1\n");
    }
    let digits = "1".repeat(size - text.len() - 3);
    text.extend(format!("R\t{digits}\n").bytes());
    assert_eq!(text.len(), size);
    text
}

#[test]
fn sizes() {
    assert!(check(&text_of(65_535)).is_ok());
    assert!(check(&text_of(65_536)).is_ok());
    assert_eq!(refused_text(&text_of(65_537)), (6, 0));
    assert_eq!(refused_text(&vec![b'x'; 65_536]), (1, 1));
    assert_eq!(refused_text(&vec![b'x'; 65_537]), (6, 0));
    assert_eq!(refused_text(&vec![b'\n'; 200_000]), (6, 0));
    let mut cut = text_of(65_536);
    cut.pop();
    let last_line = cut.iter().filter(|&&byte| byte == b'\n').count() as u64 + 1;
    assert_eq!(refused_text(&cut), (1, last_line));
}

#[test]
fn printed_refusals() {
    assert_eq!(answer_bytes(b"", u64::MAX), b"X\t3\t1\n");
    assert_eq!(answer_bytes(&text_of(65_537), u64::MAX), b"X\t6\t0\n");
    assert_eq!(
        answer_bytes(&lines(&["W 1", "T a 0 r5 r5"]), 0),
        b"X\t5\t2\n"
    );
    assert_eq!(answer_bytes(&lines(&["W 4 3 8"]), 0), b"X\t9\t1\n");
    assert_eq!(
        answer_bytes(&lines(&["W 4", "T a 0", "M 0"]), 0),
        b"X\t11\t3\n"
    );
}
