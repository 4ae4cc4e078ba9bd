//! A proved tool beside the second implementation's: the same answer and the same
//! output, nothing changed around it, and the text as it was; in one call, and on
//! many texts.

use crate::difference::{compare_many, shown, Difference};
use crate::fence::Fenced;
use crate::seen::Seen;
use second::plan::Refusal;
use second::random::Rng;
use second::text::with_every_byte;
use second::tool::Tool;
use second::used::Refused;
use std::hint::black_box;
use std::ops::Range;

/// The result of a call, or its refusal.
pub type Answer = Result<Vec<u8>, Refusal>;

/// The answer to one call, or else what differs. The second implementation's is what
/// it does with the output.
pub fn compare(
    proved: Tool,
    second: impl FnOnce(&mut [u8]) -> Result<usize, Refusal>,
    text: &[u8],
    output: &[u8],
) -> Result<Answer, String> {
    let lent = Fenced::new(text, |place| b"\t1\nT"[place % 4]);
    let mut fenced = Fenced::new(output, |place| place as u8 ^ 0xa5);
    let answer = proved(lent.inside(), fenced.lend());
    let mut wanted = output.to_vec();
    let expected = second(&mut wanted);
    // the text was lent as one that isn't changed, and might not be looked at again
    let lent = black_box(lent);
    let what = if answer != expected {
        format!("answer {answer:?}, expected {expected:?}")
    } else if let Some(place) = fenced.difference(&wanted) {
        format!("byte {place} of the output")
    } else if !fenced.stands() {
        "what stands around the output".to_string()
    } else if lent.inside() != text || !lent.stands() {
        "the text".to_string()
    } else {
        return Ok(expected.map(|length| fenced.inside()[..length].to_vec()));
    };
    Err(format!("output of {}: {what}", output.len()))
}

/// The answer to a call on a text that was compared. Panics at a difference.
pub fn agreed(text: &[u8], compared: Result<Answer, String>) -> Result<Vec<u8>, Refused> {
    let answer = compared.unwrap_or_else(|what| panic!("{what}: {}", shown(text)));
    answer.map_err(|refusal| (refusal.number, refusal.line))
}

/// Lengths of outputs around that of a result.
pub fn around(length: usize) -> Range<usize> {
    length.saturating_sub(2)..length + 3
}

/// How a tool is compared on texts.
pub struct Comparison {
    /// What is said to differ.
    pub name: &'static str,
    /// All kinds of texts and calls, none of them met.
    pub nothing_seen: fn() -> Seen,
    pub random_text: fn(&mut Rng) -> Vec<u8>,
    /// Compares the calls on a text with all outputs that matter, and adds their kinds.
    pub compare_text: fn(&[u8], &mut Rng, &mut Seen) -> Result<(), String>,
}

impl Comparison {
    /// Compares on so many random texts.
    pub fn many(&self, texts: u64, seed: u64) -> Result<Seen, Difference> {
        let seen = (self.nothing_seen)();
        compare_many(texts, seed, self.random_text, seen, self.compare_text)
    }

    /// Panics at a difference, and where a kind was met less often than this.
    pub fn assert_many(&self, texts: u64, seed: u64, times: u64) {
        match self.many(texts, seed) {
            Ok(seen) => assert_eq!(seen.rarer_than(times), [""; 0], "{seen:?}"),
            Err(difference) => panic!("{difference}"),
        }
    }

    /// Panics at a difference on this text.
    pub fn assert_same(&self, text: &[u8]) {
        let (rng, seen) = (&mut Rng::new(1), &mut (self.nothing_seen)());
        let compared = (self.compare_text)(text, rng, seen);
        compared.unwrap_or_else(|what| panic!("{what}: {}", shown(text)));
    }

    /// The same of the text with every byte in every place, and of all its beginnings.
    pub fn assert_same_near(&self, text: &[u8]) {
        for changed in with_every_byte(text) {
            self.assert_same(&changed);
        }
        for end in 0..text.len() {
            self.assert_same(&text[..end]);
        }
    }
}
