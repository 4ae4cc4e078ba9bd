//! Comparisons on many random texts, and the text on which something differs.

use second::random::Rng;
use std::fmt;

/// The text on which something differs, and what.
pub struct Difference {
    pub text: Vec<u8>,
    pub what: String,
}

impl fmt::Display for Difference {
    fn fmt(&self, out: &mut fmt::Formatter) -> fmt::Result {
        write!(out, "{}: {}", self.what, shown(&self.text))
    }
}

/// A text for a message, cut where it is long.
pub fn shown(text: &[u8]) -> String {
    let shown = &text[..text.len().min(300)];
    format!("{:?}", String::from_utf8_lossy(shown))
}

/// Compares on so many random texts, and gives what was seen of them.
pub fn compare_many<S>(
    texts: u64,
    seed: u64,
    random_text: impl Fn(&mut Rng) -> Vec<u8>,
    mut seen: S,
    compare_text: impl Fn(&[u8], &mut Rng, &mut S) -> Result<(), String>,
) -> Result<S, Difference> {
    let mut rng = Rng::new(seed);
    for _ in 0..texts {
        let text = random_text(&mut rng);
        if let Err(what) = compare_text(&text, &mut rng, &mut seen) {
            return Err(Difference { text, what });
        }
    }
    Ok(seen)
}
