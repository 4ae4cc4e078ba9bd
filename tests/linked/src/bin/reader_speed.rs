//! reader_speed: the proved check beside the second implementation's on the
//! same texts, in one run: plans of 65,536 bytes, and short texts, accepted
//! and refused in their last line. Neither clears any buffer between. No text has an M
//! line, of which a plan has few, so older builds read them too.

use linked::bench;
use linked::speed::shortest;
use second::random::{plan, without_masks, Rng, Shape};
use std::hint::black_box;

/// Calls that one measured time of a short text holds.
const CALLS: usize = 10_000;
const ROUNDS: usize = 300;

/// Reads all texts.
fn pass(texts: &[Vec<u8>], accepted: bool, read: impl Fn(&[u8]) -> bool) {
    for text in texts {
        assert_eq!(black_box(read(black_box(text))), accepted);
    }
}

/// The shortest passes of the proved reader and of the second implementation's.
fn passes(texts: &[Vec<u8>], accepted: bool) -> [f64; 2] {
    let mut proved = |_| pass(texts, accepted, |text| bench::check(text).verdict.is_ok());
    let mut second = |_| pass(texts, accepted, |text| second::plan::check(text).is_ok());
    shortest(ROUNDS, [&mut proved, &mut second])
}

/// A plan of 100 bytes.
fn short() -> Vec<u8> {
    let text = b"W\t4\nT\tloading\t20\tw7\nT\tstep\t300\tr7\tw8\nT\tsaving\t15\tr8\nP\t0\t40\nR\t100\nS\t18446744073709551615\t1000\nP\t3\t40\n";
    assert_eq!(text.len(), 100);
    text.to_vec()
}

fn main() {
    let mut rng = Rng::new(65_536);
    let mut texts: Vec<Vec<u8>> = Vec::new();
    while texts.len() < 16 {
        let text = without_masks(&mut rng, |rng| plan(rng, Shape::Full));
        if text.len() == 65_536 {
            texts.push(text);
        }
    }
    let bytes = (texts.len() * 65_536) as f64;
    let [proved, second] = passes(&texts, true);
    println!("proved reader:         {:7.1} MB/s", bytes / proved / 1e6);
    println!("second implementation: {:7.1} MB/s", bytes / second / 1e6);
    println!("ratio of times:        {:7.2}", proved / second);

    let accepted = short();
    let mut refused = short();
    *refused.last_mut().expect("a byte") = b' ';
    for (name, text, ok) in [
        ("100 bytes, accepted", accepted, true),
        ("100 bytes, refused in the last line", refused, false),
    ] {
        let [proved, second] = passes(&vec![text; CALLS], ok);
        let each = |time: f64| time / CALLS as f64 * 1e9;
        println!(
            "{name}: {:.0} ns, second implementation {:.0} ns, ratio {:.2}",
            each(proved),
            each(second),
            proved / second
        );
    }
}
