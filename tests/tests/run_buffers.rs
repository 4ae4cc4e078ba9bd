//! What a run does with the store, the output and the limit.

use second::plan::Refusal;
use second::random::{damaged, plan, Rng, Shape};
use second::run::{answer_bytes, run, Reported};
use second::text::lines;

const STORE: usize = 8_192;
const USED: u64 = 0xdead_beef_0bad_cafe;

fn listing() -> Vec<u8> {
    lines(&["W 2", "T a 0", "P 1 3", "P 0 5", "P 1 4", "P 0 2"])
}

fn refusal(number: u8, line: u64) -> Result<Reported, Refusal> {
    Err(Refusal { number, line })
}

/// Runs with a used store and output and checks all that isn't the report.
fn checked(
    text: &[u8],
    limit: u64,
    store_size: usize,
    output_size: usize,
) -> Result<Reported, Refusal> {
    let mut store = vec![USED; store_size];
    let mut output = vec![b'#'; output_size];
    let result = run(text, limit, &mut store, &mut output);
    let untouched = matches!(result, Err(Refusal { number: 6 | 7, .. }));
    let cleared = if untouched { 0 } else { STORE };
    assert!(store[..cleared].iter().all(|&number| number == 0));
    assert!(store[cleared..].iter().all(|&number| number == USED));
    let written = result.map_or(0, |reported| reported.length);
    assert!(output[written..].iter().all(|&byte| byte == b'#'));
    if written > 0 {
        assert_eq!(output[..written], answer_bytes(text, limit)[..]);
    }
    result
}

#[test]
fn a_run() {
    let expected = Ok(Reported {
        picks: 14,
        length: 47,
    });
    assert_eq!(checked(&listing(), u64::MAX, STORE, 100), expected);
    assert_eq!(checked(&listing(), u64::MAX, STORE + 3, 1_000), expected);
}

#[test]
fn output_of_the_exact_length() {
    assert_eq!(
        checked(&listing(), u64::MAX, STORE, 47).map(|r| r.length),
        Ok(47)
    );
    assert_eq!(checked(&listing(), u64::MAX, STORE, 46), refusal(8, 0));
    assert_eq!(checked(&listing(), u64::MAX, STORE, 0), refusal(8, 0));
}

#[test]
fn store_sizes() {
    assert_eq!(checked(&listing(), u64::MAX, STORE - 1, 100), refusal(7, 0));
    assert_eq!(checked(&listing(), u64::MAX, 0, 100), refusal(7, 0));
    assert!(checked(&listing(), u64::MAX, STORE + 1, 100).is_ok());
}

#[test]
fn order_of_refusals() {
    let long = vec![b'x'; 65_537];
    assert_eq!(checked(&long, u64::MAX, 0, 0), refusal(6, 0));
    assert_eq!(checked(&long, u64::MAX, STORE, 100), refusal(6, 0));
    assert_eq!(checked(b"", u64::MAX, STORE - 1, 0), refusal(7, 0));
    assert_eq!(checked(b"", u64::MAX, STORE, 0), refusal(3, 1));
    assert_eq!(checked(b"W\t0\n", u64::MAX, STORE, 0), refusal(2, 1));
    assert_eq!(
        checked(&lines(&["W 1", "T a 0 r5 r5"]), u64::MAX, STORE, 0),
        refusal(5, 2)
    );
    assert_eq!(checked(b"W\t1\n", u64::MAX, STORE, 0), refusal(8, 0));
    let few_slots = lines(&["W 4 3 8"]);
    assert_eq!(checked(&few_slots, u64::MAX, STORE - 1, 0), refusal(7, 0));
    assert_eq!(checked(&few_slots, u64::MAX, STORE, 0), refusal(9, 1));
    let sized = lines(&["W 4 4 8"]);
    assert_eq!(checked(&sized, u64::MAX, STORE, 0), refusal(8, 0));
    let nobody = lines(&["W 4", "T a 0", "M 0"]);
    assert_eq!(checked(&nobody, u64::MAX, STORE - 1, 0), refusal(7, 0));
    assert_eq!(checked(&nobody, u64::MAX, STORE, 0), refusal(11, 3));
    let tied = lines(&["W 4", "T a 0", "M 5"]);
    assert_eq!(checked(&tied, u64::MAX, STORE, 0), refusal(8, 0));
}

#[test]
fn limits() {
    let report = |limit: u64| String::from_utf8(answer_bytes(&listing(), limit)).unwrap();
    assert_eq!(
        report(0),
        "E\topen\t0\t2\nT\t0\ta\tnew\t-\t-\t-\t-\nL\t64\t65\t-\n"
    );
    assert_eq!(
        report(13),
        "E\topen\t13\t2\nT\t0\ta\trun\t0\t13\t-\t1\nL\t66\t66\t1\n"
    );
    assert_eq!(report(14), report(u64::MAX));
    assert_eq!(report(15), report(u64::MAX));
    for limit in 0..20 {
        let picks = checked(&listing(), limit, STORE, 100).map(|reported| reported.picks);
        assert_eq!(picks, Ok(limit.min(14)));
    }
    assert_eq!(
        answer_bytes(b"W\t1\nR\t5\n", 0),
        b"E\tfinished\t0\t0\nL\t64\t65\t-\n"
    );
}

/// The end of the order stops a run that is still open.
#[test]
fn end_of_the_order() {
    let text = lines(&["W 3", "T a 0", "R 2", "P 1 1"]);
    assert_eq!(
        checked(&text, u64::MAX, STORE, 100).map(|reported| reported.picks),
        Ok(7)
    );
}

#[test]
fn random_texts() {
    let rng = &mut Rng::new(5);
    for round in 0..2_000 {
        let text = match round % 4 {
            0 => damaged(rng),
            1 => plan(rng, Shape::Medium),
            _ => plan(rng, Shape::Small),
        };
        let limit = rng.choose(&[0, 1, 20, 100, u64::MAX]);
        let exact = answer_bytes(&text, limit).len();
        let result = checked(&text, limit, STORE, exact);
        if result.is_ok() {
            assert_eq!(result.map(|reported| reported.length), Ok(exact));
            assert_eq!(checked(&text, limit, STORE + 1, exact - 1), refusal(8, 0));
        }
        assert_eq!(checked(&text, limit, STORE, exact + 50), result);
    }
}
