//! `generate SHAPE SEED` prints one random plan text.
//! Shapes: small, medium, large, full, damaged, sample.

use std::io::{self, Write};
use std::process::ExitCode;

use second::random::{damaged, plan, sample, Rng, Shape};

fn text(shape: &str, seed: u64) -> Option<Vec<u8>> {
    let rng = &mut Rng::new(seed);
    Some(match shape {
        "small" => plan(rng, Shape::Small),
        "medium" => plan(rng, Shape::Medium),
        "large" => plan(rng, Shape::Large),
        "full" => plan(rng, Shape::Full),
        "damaged" => damaged(rng),
        "sample" => sample(seed),
        _ => return None,
    })
}

fn main() -> ExitCode {
    let arguments: Vec<String> = std::env::args().skip(1).collect();
    let text = match arguments.as_slice() {
        [shape, seed] => seed.parse().ok().and_then(|seed| text(shape, seed)),
        _ => None,
    };
    match text {
        Some(text) if io::stdout().write_all(&text).is_ok() => ExitCode::SUCCESS,
        Some(_) => ExitCode::FAILURE,
        None => {
            eprintln!("usage: generate small|medium|large|full|damaged|sample SEED");
            ExitCode::FAILURE
        }
    }
}
