//! What is given to the programs.

use std::process::exit;

/// The two numbers that a comparison takes: how many cases, and the first seed.
pub fn count_and_seed(program: &str) -> (u64, u64) {
    let words = std::env::args().skip(1).map(|word| word.parse());
    match words.collect::<Result<Vec<u64>, _>>().as_deref() {
        Ok(&[count, seed]) => (count, seed),
        _ => {
            eprintln!("usage: {program} COUNT SEED");
            exit(2);
        }
    }
}
