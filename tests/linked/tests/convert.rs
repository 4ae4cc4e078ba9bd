//! The proved converters: results, refusals and what they leave in the output, held
//! to the second implementation and to the paper's own words.

use linked::beside::agreed;
use linked::moved::{compare, Way, CONVERTERS, TO_FIRST, TO_SECOND};
use second::random::{first_form, plan_of_size, with_sizes, Rng};
use second::text::lines;
use second::used::{assert_fits, used_output, Refused};

const REST: [&str; 5] = ["T a-1 10 r5 w7", "M 1", "P 0 3", "R 2", "S 9 4"];

fn with_rest(first: &str) -> Vec<u8> {
    lines(&[&[first], &REST[..]].concat())
}

/// Compares one call with an output of this length, and gives the answer.
fn converted(way: &Way, text: &[u8], room: usize) -> Result<Vec<u8>, Refused> {
    agreed(text, compare(way, text, &used_output(room, 77)))
}

/// Compares both ways with all outputs that matter.
fn same(text: &[u8]) {
    CONVERTERS.assert_same(text);
}

#[test]
fn there_and_back() {
    for workers in 1..=32 {
        let first = with_rest(&format!("W {workers}"));
        let second = with_rest(&format!("W {workers} 64 8"));
        assert_eq!(converted(&TO_SECOND, &first, 100), Ok(second.clone()));
        assert_eq!(converted(&TO_SECOND, &second, 100), Ok(second.clone()));
        assert_eq!(converted(&TO_FIRST, &second, 100), Ok(first.clone()));
        assert_eq!(converted(&TO_FIRST, &first, 100), Ok(first));
    }
}

#[test]
fn output_lengths() {
    let (first, second) = (with_rest("W 2"), with_rest("W 2 64 8"));
    for (way, text, wanted) in [
        (&TO_SECOND, &first, &second),
        (&TO_SECOND, &second, &second),
        (&TO_FIRST, &second, &first),
        (&TO_FIRST, &first, &first),
    ] {
        assert_fits(wanted, 40, |room| converted(way, text, room));
    }
}

/// The reader's refusals, then 10, then 6 by the result, then 8.
#[test]
fn order_of_refusals() {
    let other = with_rest("W 4 63 8");
    assert_eq!(converted(&TO_FIRST, &other, 0), Err((10, 1)));
    let faulty = [&other[..], b"R\t0\n"].concat();
    assert_eq!(converted(&TO_FIRST, &faulty, 100), Err((2, 7)));
    assert_eq!(converted(&TO_SECOND, &faulty, 0), Err((2, 7)));
    let nobody = b"W\t4\t63\t8\nT\ta\t0\nM\t0\n";
    assert_eq!(converted(&TO_FIRST, nobody, 0), Err((11, 3)));
    assert_eq!(converted(&TO_SECOND, nobody, 0), Err((11, 3)));
    assert_eq!(converted(&TO_FIRST, b"W\t4\t3\t7\n", 0), Err((9, 1)));
    let long = sized(65_532);
    assert_eq!(converted(&TO_SECOND, &long, 0), Err((6, 0)));
    assert_eq!(
        converted(&TO_SECOND, &long[..65_531], 0),
        Err((1, line_count(&long)))
    );
    assert_eq!(
        converted(&TO_FIRST, &with_sizes(&long, 64, 9), 0),
        Err((6, 0))
    );
    let full = with_sizes(&sized(65_531), 64, 9);
    assert_eq!(converted(&TO_FIRST, &full, 0), Err((10, 1)));
    assert_eq!(converted(&TO_FIRST, b"", 0), Err((3, 1)));
    assert_eq!(converted(&TO_FIRST, b"W\t4\n", 3), Err((8, 0)));
}

fn line_count(text: &[u8]) -> u64 {
    text.iter().filter(|&&byte| byte == b'\n').count() as u64
}

/// A plan of the first form of so many bytes.
fn sized(size: usize) -> Vec<u8> {
    first_form(&mut Rng::new(7), |rng| plan_of_size(rng, size))
}

/// Texts and results around the longest.
#[test]
fn sizes_of_texts() {
    for size in 65_525..=65_540 {
        let text = sized(size);
        assert_eq!(text.len(), size);
        let answer = converted(&TO_SECOND, &text, 65_536).map(|result| result.len());
        let expected = if size + 5 <= 65_536 {
            Ok(size + 5)
        } else {
            Err((6, 0))
        };
        assert_eq!(answer, expected);
        same(&text);
        same(&with_sizes(&text, 64, 8));
        same(&with_sizes(&text, 64, 9));
    }
}

/// Every three numbers that a W line may have, and those next to their ends; the
/// same line with a fault behind it.
#[test]
fn all_sizes() {
    for workers in [0, 1, 2, 9, 10, 31, 32, 33] {
        for slots in 0..=65 {
            for capacity in 0..=17 {
                let first = format!("W {workers} {slots} {capacity}");
                same(&lines(&[&first]));
                same(&lines(&[&first, "R 0"]));
            }
        }
    }
}

#[test]
fn every_byte_in_every_place() {
    for first in ["W 2", "W 2 10 8", "W 12 64 8"] {
        CONVERTERS.assert_same_near(&with_rest(first));
    }
}

#[test]
fn random_texts() {
    CONVERTERS.assert_many(3_000, 2_027, 20);
}
