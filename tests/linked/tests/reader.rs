//! The proved reader beside the second implementation's, and its looks at bytes.

use linked::bench::{check, Checked};
use linked::check::{compare_many, compare_text};
use linked::difference::shown;
use second::plan::Refusal;
use second::random::{plan_of_size, Rng};
use second::text::with_every_byte;

/// Plans with every kind of line, the last one with the longest fields.
const PLANS: [&str; 4] = [
    "W\t2\nT\ta-1\t10\tr5\tw7\nP\t1\t3\nR\t2\nS\t9\t4\n",
    "W\t2\t10\t8\nT\ta-1\t10\tr5\tw7\nP\t1\t3\nR\t2\nS\t9\t4\n",
    "W\t4\nT\ta-1\t10\tr5\tw7\nM\t10\nT\tb\t0\nT\tc\t1\nM\t3\nP\t1\t3\n",
    "W\t32\t64\t16\nT\t0123456789abcdef\t1000\tr65535\tw0\tr10\tw11\nM\t4294967295\n\
     S\t18446744073709551615\t1000000\nP\t31\t4096\nR\t1000000\n",
];

fn same(text: &[u8]) {
    if let Err(what) = compare_text(text) {
        panic!("{what}: {}", shown(text));
    }
}

/// An accepted text has as many looks as bytes.
fn accepted(text: &[u8]) {
    same(text);
    let (verdict, looks) = (Ok(()), text.len() as u64);
    assert_eq!(check(text), Checked { verdict, looks }, "{}", shown(text));
}

/// Refused with this number and line, after so many looks.
fn refused(text: &[u8], number: u8, line: u64, looks: u64) {
    same(text);
    let verdict = Err(Refusal { number, line });
    assert_eq!(check(text), Checked { verdict, looks }, "{}", shown(text));
}

#[test]
fn random_and_damaged_texts() {
    match compare_many(20_000, 4) {
        Ok(counts) => {
            let tried = |&number: &usize| counts.refused[number] >= 500;
            let all = [1, 2, 3, 4, 5, 6, 9, 11].iter().all(tried) && counts.accepted >= 500;
            assert!(all, "each answer is tried: {counts:?}");
            let tied = counts.with_masks >= 500 && counts.in_masks >= 2_000;
            assert!(tied, "M lines are tried: {counts:?}");
            let (several, before) = (counts.of_several, counts.before_the_last);
            assert!(several >= 5_000 && before >= 5_000, "{counts:?}");
        }
        Err(difference) => panic!("{difference}"),
    }
}

#[test]
fn hostile_sizes() {
    for size in [0, 1, 65_535, 65_536, 65_537, 70_000, 1_000_000] {
        let mut text = b"W\t2\n".to_vec();
        while text.len() < size {
            text.extend_from_slice(b"P\t1\t7\n");
        }
        text.truncate(size);
        same(&text);
        for byte in [0, 9, 10, b'0', b'W', 255] {
            same(&vec![byte; size]);
        }
    }
}

#[test]
fn long_fields() {
    for digit in [b'0', b'1', b'9'] {
        let digits = vec![digit; 40_000];
        for (before, after) in [
            ("W\t", "\n"),
            ("W\t", "\t64\t8\n"),
            ("W\t4\t", "\t8\n"),
            ("W\t4\t3\t", "\n"),
            ("W\t1\nW\t1\t", "\t8\n"),
            ("W\t1\nT\ta\t", "\n"),
            ("W\t1\nT\ta\t0\tr", "\n"),
            ("W\t1\nT\ta\t0\tw1\tr", "\tx\n"),
            ("W\t1\nT\t", "\t0\n"),
            ("W\t1\nT\ta\t0\nM\t", "\n"),
            ("W\t32\nT\ta\t0\nM\t", "\n"),
            ("W\t1\nT\ta\t0\nM\t", "\t1\n"),
            ("W\t1\nT\ta\t0\nM\t", ""),
            ("W\t1\nM\t", "\n"),
            ("W\t1\nP\t", "\t1\n"),
            ("W\t1\nP\t0\t", "\n"),
            ("W\t1\nR\t", "\n"),
            ("W\t1\nS\t", "\t1\n"),
            ("W\t1\nS\t0\t", ""),
            ("", "\t1\n"),
        ] {
            same(&[before.as_bytes(), &digits, after.as_bytes()].concat());
        }
    }
}

#[test]
fn every_byte_in_every_place() {
    for plan in PLANS {
        for text in with_every_byte(plan.as_bytes()) {
            same(&text);
        }
    }
}

/// Where no line feed is put in or taken away, all lines end where they did: so do the
/// looks, whatever in the refused line is at fault.
#[test]
fn looks_with_another_byte_in_a_line() {
    for plan in PLANS {
        let ends: Vec<usize> = plan.match_indices('\n').map(|(at, _)| at + 1).collect();
        let mut refusals = 0;
        for (line, &end) in ends.iter().enumerate() {
            let start = if line == 0 { 0 } else { ends[line - 1] };
            for place in start..end - 1 {
                for byte in (0..=255).filter(|&byte| byte != b'\n') {
                    let mut text = plan.as_bytes().to_vec();
                    text[place] = byte;
                    let Checked { verdict, looks } = check(&text);
                    let Err(refused) = verdict else {
                        assert_eq!(looks, plan.len() as u64, "{}", shown(&text));
                        continue;
                    };
                    refusals += 1;
                    assert!(refused.line > line as u64, "{}", shown(&text));
                    let end = ends[refused.line as usize - 1];
                    assert_eq!(looks, end as u64, "{}", shown(&text));
                }
            }
        }
        assert!(refusals > 200 * (plan.len() - ends.len()));
    }
}

/// A prefix is looked at whole: it is accepted, or its last line has no line feed.
#[test]
fn looks_at_every_prefix() {
    for plan in PLANS {
        refused(b"", 3, 1, 0);
        for length in 1..=plan.len() {
            let text = &plan.as_bytes()[..length];
            let lines = text.iter().filter(|&&byte| byte == b'\n').count() as u64;
            if text.ends_with(b"\n") {
                accepted(text);
            } else {
                refused(text, 1, lines + 1, length as u64);
            }
        }
    }
}

/// The looks end with the refused line, whatever is behind it.
#[test]
fn looks_at_refused_texts() {
    for (text, number, line, looks) in [
        ("", 3, 1, 0),
        // the last line without a line feed: what there is of it
        ("W", 1, 1, 1),
        ("W\t2", 1, 1, 3),
        ("W\t2\nR\t1", 1, 2, 7),
        ("W\t2\nR\t1\nP\t0\t", 1, 3, 12),
        ("W\t2\nR\t0\nR\t1", 2, 2, 8),
        // an empty line: its line feed, and not a byte more
        ("\n", 1, 1, 1),
        ("\nW\t2\n", 1, 1, 1),
        ("W\t2\n\nR\t1\n", 1, 2, 5),
        ("W\t2\n\n\n", 1, 2, 5),
        ("W\t2\nR\t1\n\n", 1, 3, 9),
        // a line that ends too early
        ("W\nR\t1\n", 1, 1, 2),
        ("W\t\nR\t1\n", 1, 1, 3),
        ("W\t1\t2\n", 1, 1, 6),
        ("W\t1\t2\nR\t1\n", 1, 1, 6),
        ("W\t1\t2\t\nR\t1\n", 1, 1, 7),
        ("W\t2\nW\t1\t2\nR\t1\n", 1, 2, 10),
        ("W\t2\nT\nR\t1\n", 1, 2, 6),
        ("W\t2\nT\ta\nR\t1\n", 1, 2, 8),
        ("W\t2\nT\ta\t\nR\t1\n", 1, 2, 9),
        ("W\t2\nT\ta\t0\t\nR\t1\n", 1, 2, 11),
        ("W\t2\nT\ta\t0\tr\nR\t1\n", 1, 2, 12),
        ("W\t2\nP\t0\nR\t1\n", 1, 2, 8),
        ("W\t2\nP\t0\t\nR\t1\n", 1, 2, 9),
        ("W\t2\nR\t\nR\t1\n", 1, 2, 7),
        // a label of 17 bytes, at the end of its line and within it
        ("W\t2\nT\t0123456789abcdefg\n", 1, 2, 24),
        ("W\t2\nT\t0123456789abcdefg\nR\t1\n", 1, 2, 24),
        ("W\t2\nT\t0123456789abcdefg\t0\nR\t1\n", 1, 2, 26),
        // a fault in the middle of a line
        ("X\t2\nR\t1\n", 1, 1, 4),
        ("WW\t2\nR\t1\n", 1, 1, 5),
        ("W\t2\nR\t1x1\nR\t1\n", 1, 2, 10),
        ("W\t2\nR\t01\nR\t1\n", 1, 2, 9),
        ("W\t2\nR\t1\t1\nR\t1\n", 1, 2, 10),
        // form, place and values: a number out of its range waits for both
        ("W\t33\t65\t-\nR\t1\n", 1, 1, 10),
        ("W\t33\t65\t17\nR\t1\n", 2, 1, 11),
        ("W\t4\t3\t8\nR\t1\n", 9, 1, 8),
        ("W\t2\nP\t9\tx\nR\t1\n", 1, 2, 10),
        ("W\t2\nP\t9\t0\nR\t1\n", 2, 2, 10),
        ("W\t2\nW\t0\nR\t1\n", 3, 2, 8),
        ("R\t0\nW\t2\n", 3, 1, 4),
        ("W\t2\nR\t1\nT\ta\t1001\nR\t1\n", 3, 3, 17),
        ("W\t2\nT\ta\t1001\tr5\tr5\nR\t1\n", 2, 2, 19),
        ("W\t2\nT\ta\t0\tr1\tr2\tr3\tr4\tr1\nR\t1\n", 4, 2, 25),
        ("W\t2\nT\ta\t0\tr5\tr5\nR\t1\n", 5, 2, 16),
        ("W\t2\nR\t1\nR\t0\nR\t0\nR\t1\n", 2, 3, 12),
        // M lines: of another form, in another place, out of range, of nobody
        ("W\t2\nT\ta\t0\nM\nR\t1\n", 1, 3, 12),
        ("W\t2\nT\ta\t0\nM\t\nR\t1\n", 1, 3, 13),
        ("W\t2\nT\ta\t0\nM\t1", 1, 3, 13),
        ("W\t2\nT\ta\t0\nM\t1\t\nR\t1\n", 1, 3, 15),
        ("W\t2\nT\ta\t0\nM\t4\t1\nR\t1\n", 1, 3, 16),
        ("W\t2\nT\ta\t0\nM\t00\nR\t1\n", 1, 3, 15),
        ("W\t2\nT\ta\t0\nM\t-1\nR\t1\n", 1, 3, 15),
        ("M\t1\nW\t2\n", 3, 1, 4),
        ("W\t2\nM\t0\nT\ta\t0\n", 3, 2, 8),
        ("W\t2\nT\ta\t0\nM\t1\nM\t4\nR\t1\n", 3, 4, 18),
        ("W\t2\nT\ta\t0\nR\t1\nM\t1\nR\t1\n", 3, 4, 18),
        ("W\t2\nT\ta\t0\nM\t4\nR\t1\n", 2, 3, 14),
        ("W\t2\nT\ta\t0\nM\t18446744073709551617\nR\t1\n", 2, 3, 33),
        ("W\t2\nT\ta\t0\nM\t0\nR\t1\n", 11, 3, 14),
        ("W\t2\nT\ta\t0\nM\t0\nM\t0\n", 11, 3, 14),
    ] {
        refused(text.as_bytes(), number, line, looks);
    }
}

/// A fault in a long line, with more lines behind it.
#[test]
fn looks_at_a_long_line() {
    let (digits, accesses) = ("1".repeat(20_000), "\tr5".repeat(6_000));
    for (line, number) in [
        (format!("R\t{digits}x{digits}\n"), 1),
        (format!("R\t{digits}\t{digits}\n"), 1),
        (format!("S\t{digits}\t{digits}\n"), 2),
        (format!("T\ta\t0{accesses}x{accesses}\n"), 1),
        (format!("T\ta\t0{accesses}{accesses}\n"), 4),
        (format!("T\ta\t{digits}{accesses}\n"), 2),
        (format!("T\t{digits}\t0{accesses}\n"), 1),
        (format!("W\t2\t{digits}\t{digits}\n"), 3),
        (format!("M\t{digits}\n"), 3),
        (format!("M\t{digits}x\n"), 1),
        (format!("{digits}\t{digits}\n"), 1),
    ] {
        for behind in ["", "R\t1\n", "\n\n", "R\t0\nX"] {
            let text = format!("W\t2\n{line}{behind}");
            refused(text.as_bytes(), number, 2, 4 + line.len() as u64);
        }
    }
}

/// A mask of many digits, behind its T line.
#[test]
fn looks_at_a_long_mask() {
    let digits = "1".repeat(30_000);
    for (field, number) in [
        (digits.clone(), 2),
        (format!("0{digits}"), 1),
        (format!("{digits}\t{digits}"), 1),
        (format!("{digits}x"), 1),
    ] {
        for behind in ["", "R\t1\n", "M\t1\n", "X"] {
            let line = format!("M\t{field}\n");
            let text = format!("W\t32\nT\ta\t0\n{line}{behind}");
            refused(text.as_bytes(), number, 3, 11 + line.len() as u64);
        }
    }
}

/// All bytes of the longest text, where it is accepted or at fault at its end; none of
/// a longer one.
#[test]
fn looks_by_the_size_of_a_text() {
    for size in [65_535, 65_536] {
        let plan = plan_of_size(&mut Rng::new(3), size);
        accepted(&plan);
        let lines = plan.iter().filter(|&&byte| byte == b'\n').count() as u64;
        refused(&[&plan[..size - 1], b" "].concat(), 1, lines, size as u64);
        refused(&[b"\n", &plan[1..]].concat(), 1, 1, 1);
        refused(&vec![b'W'; size], 1, 1, size as u64);
        refused(&vec![b'\n'; size], 1, 1, 1);
    }
    for size in [65_537, 70_000] {
        refused(&plan_of_size(&mut Rng::new(3), size), 6, 0, 0);
        refused(&vec![b'\n'; size], 6, 0, 0);
    }
}

/// Every three numbers that a W line may have, and those next to their ends.
#[test]
fn all_sizes() {
    for workers in 0..=33 {
        for slots in 0..=65 {
            for capacity in 0..=17 {
                same(format!("W\t{workers}\t{slots}\t{capacity}\n").as_bytes());
            }
        }
    }
}

/// Every mask of up to six workers, and those next to its end; for more workers those
/// next to both ends.
#[test]
fn all_masks() {
    let with = |workers: u32, mask: u128| {
        same(format!("W\t{workers}\nT\ta\t0\nM\t{mask}\nT\tb\t0\nR\t1\n").as_bytes());
    };
    for workers in 1..=6 {
        (0..=4 << workers).for_each(|mask| with(workers, mask));
    }
    for workers in 7..=32 {
        let above = 1 << workers;
        (0..4).for_each(|mask| with(workers, mask));
        (above - 3..above + 4).for_each(|mask| with(workers, mask));
        for bit in 0..128 {
            with(workers, 1 << bit);
            with(workers, (1 << bit) | 1);
            with(workers, (1 << bit) - 1);
        }
    }
}

/// Each pair of faults in one M line, in every place that it can have.
#[test]
fn two_faults_in_a_mask_line() {
    for field in [
        "1",
        "15",
        "0",
        "16",
        "00",
        "01",
        "016",
        "-",
        "-1",
        "",
        "0x1",
        "1\t",
        "0\t0",
        "16\t1",
        "18446744073709551617",
        "18446744073709551616",
    ] {
        for before in [
            "",
            "W\t4\n",
            "W\t4\nT\ta\t0\n",
            "W\t4\nT\ta\t0\nM\t1\n",
            "W\t4\nT\ta\t0\nM\t1\nT\tb\t0\n",
            "W\t4\nT\ta\t0\nR\t1\n",
            "W\t4\nT\ta\t0\nM\t1\nR\t1\n",
            "W\t4\nP\t0\t1\n",
            "W\t4\nS\t0\t1\n",
        ] {
            for behind in ["\n", "\nT\tc\t0\n", "\nR\t1\n", "\nM\t1\n", "\nR\t0\n", ""] {
                same(format!("{before}M\t{field}{behind}").as_bytes());
            }
        }
    }
}

/// Each pair of faults in one W line, first and again.
#[test]
fn two_faults_in_a_workers_line() {
    let fields = [
        "4",
        "0",
        "3",
        "33",
        "65",
        "17",
        "04",
        "-",
        "",
        "18446744073709551620",
    ];
    for workers in fields {
        for slots in fields {
            for capacity in fields {
                for line in [
                    format!("W\t{workers}\t{slots}\t{capacity}\n"),
                    format!("W\t{workers}\t{slots}\t{capacity}\t1\n"),
                    format!("W\t{workers}\t{slots}\n"),
                ] {
                    same(line.as_bytes());
                    same(format!("W\t4\n{line}").as_bytes());
                    same(format!("W\t4\t4\t1\n{line}").as_bytes());
                }
            }
        }
    }
}

#[test]
fn ends_of_ranges() {
    for number in [
        "0",
        "1",
        "8",
        "9",
        "16",
        "17",
        "31",
        "32",
        "33",
        "63",
        "64",
        "65",
        "1000",
        "1001",
        "4096",
        "4097",
        "65535",
        "65536",
        "1000000",
        "1000001",
        "18446744073709551615",
        "18446744073709551616",
        "00",
        "01",
    ] {
        for (before, after) in [
            ("W\t", "\n"),
            ("W\t", "\t32\t1\n"),
            ("W\t9\t", "\t1\n"),
            ("W\t9\t9\t", "\n"),
            ("W\t9\nT\ta\t", "\n"),
            ("W\t9\nT\ta\t0\tr", "\n"),
            ("W\t6\nT\ta\t0\nM\t", "\n"),
            ("W\t16\nT\ta\t0\nM\t", "\n"),
            ("W\t9\nP\t", "\t1\n"),
            ("W\t32\nP\t8\t", "\n"),
            ("W\t9\nR\t", "\n"),
            ("W\t9\nS\t", "\t1\n"),
            ("W\t9\nS\t0\t", "\n"),
        ] {
            same(format!("{before}{number}{after}").as_bytes());
        }
    }
}
