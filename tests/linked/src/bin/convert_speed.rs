//! convert_speed: the proved check and converters beside the second
//! implementation's on the same plans, in one run: plans of the first form of
//! 65,000 bytes without M lines, and the same ones moved to the second.
//!
//! A converter checks its text and then copies it. Its speed beyond the check is that
//! of the time which it takes longer than the check of the same text.

use linked::convert;
use linked::speed::beside_the_check;
use second::plan::TEXT_LIMIT;
use second::random::{first_form, plan_of_size, without_masks, Rng};
use second::tool::Tool;
use std::hint::black_box;

const PLANS: usize = 16;
const SIZE: usize = 65_000;
const ROUNDS: usize = 300;
/// Bytes by which the output lies further on in each of so many rounds: where it
/// lies to the text has an effect of its own.
const STEP: usize = 72;
const STEPS: usize = 64;

/// Converts all texts, into an output of its own.
fn pass(convert: Tool, texts: &[Vec<u8>]) -> impl FnMut(usize) + '_ {
    let mut room = vec![0; TEXT_LIMIT + STEP * STEPS];
    move |round| {
        let output = &mut room[round % STEPS * STEP..];
        for text in texts {
            assert!(black_box(convert(black_box(text), output)).is_ok());
        }
    }
}

/// The result of a converter.
fn moved(convert: Tool, text: &[u8]) -> Vec<u8> {
    let mut output = vec![0; TEXT_LIMIT];
    let length = convert(text, &mut output).expect("a result");
    output.truncate(length);
    output
}

/// Measures a converter and the check, the proved ones and the second
/// implementation's, on these texts.
fn measure(name: &str, texts: &[Vec<u8>], proved: Tool, second: Tool) {
    let [proved, second] = beside_the_check(ROUNDS, proved, second, |tool| pass(tool, texts));
    let bytes: usize = texts.iter().map(Vec::len).sum();
    println!("{name}, {} bytes", bytes / texts.len());
    for (what, times) in [("proved", &proved), ("second implementation", &second)] {
        let each = |time: f64| time / texts.len() as f64 * 1e9;
        let beyond = times.tool - times.check;
        // less than a twentieth of the check can't be told from its own spread
        let speed = if beyond * 20.0 > times.check {
            format!("{:.0} MB/s", bytes as f64 / beyond / 1e6)
        } else {
            "too fast to tell".to_string()
        };
        println!(
            "  {what:22} check {:7.0} ns, conversion {:7.0} ns, beyond the check {:6.0} ns, {speed}",
            each(times.check),
            each(times.tool),
            each(beyond)
        );
    }
    println!(
        "  ratio of times: check {:.2}, conversion {:.2}",
        proved.check / second.check,
        proved.tool / second.tool
    );
}

fn main() {
    let mut rng = Rng::new(SIZE as u64);
    let draw = |rng: &mut Rng| without_masks(rng, |rng| plan_of_size(rng, SIZE));
    let plans = (0..PLANS).map(|_| first_form(&mut rng, draw));
    let first: Vec<Vec<u8>> = plans.collect();
    let second = first.iter().map(|text| moved(convert::to_second, text));
    let second: Vec<Vec<u8>> = second.collect();
    measure(
        "to-second",
        &first,
        convert::to_second,
        second::convert::to_second,
    );
    measure(
        "to-first",
        &second,
        convert::to_first,
        second::convert::to_first,
    );
}
