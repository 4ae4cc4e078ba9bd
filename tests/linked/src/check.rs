//! The proved reader beside the second implementation's, on random texts: the same
//! answers, and as many looks at bytes of a text as there have to be.

use crate::bench::{check, Checked};
use crate::difference::{self, Difference};
use second::looks::bounds;
use second::plan::Refusal;
use second::random::{damaged, has_masks, plan, Rng, Shape};

/// A random text: mostly a damaged one, else a plan, now and then one of 65,536 bytes.
pub fn random_text(rng: &mut Rng) -> Vec<u8> {
    match rng.below(40) {
        0 => plan(rng, Shape::Full),
        1..=2 => plan(rng, Shape::Large),
        3..=5 => plan(rng, Shape::Medium),
        6..=11 => plan(rng, Shape::Small),
        _ => damaged(rng),
    }
}

/// The looks of a check that gives this verdict, counted byte by byte: at all bytes of
/// an accepted text; else at those of its lines up to the refused one, with their line
/// feeds, and so at none where the refusal has line 0.
pub fn counted_looks(text: &[u8], verdict: Result<(), Refusal>) -> u64 {
    let Err(refused) = verdict else {
        return text.len() as u64;
    };
    let (mut looks, mut ended) = (0, 0);
    while looks < text.len() && ended < refused.line {
        ended += u64::from(text[looks] == b'\n');
        looks += 1;
    }
    looks as u64
}

/// The verdict on a text, or what differs: the verdict, looks that the second
/// implementation doesn't allow, or another number than is counted.
pub fn compare_text(text: &[u8]) -> Result<Result<(), Refusal>, String> {
    let Checked { verdict, looks } = check(text);
    let expected = second::plan::check(text).map(|_| ());
    let allowed = bounds(text, expected);
    let counted = counted_looks(text, expected);
    if verdict != expected {
        Err(format!("answer {verdict:?}, expected {expected:?}"))
    } else if !allowed.contains(&looks) {
        Err(format!("{looks} looks, allowed {allowed:?}"))
    } else if looks != counted {
        Err(format!("{looks} looks, counted {counted}"))
    } else {
        Ok(verdict)
    }
}

/// How often texts were answered in which way.
#[derive(Clone, Copy, Debug, Default, PartialEq, Eq)]
pub struct Counts {
    pub accepted: u64,
    /// Of these with M lines.
    pub with_masks: u64,
    /// By the refusal's number.
    pub refused: [u64; 12],
    /// Refused in an M line.
    pub in_masks: u64,
    /// Refused in one of several lines, and of these not in the last.
    pub of_several: u64,
    pub before_the_last: u64,
}

impl Counts {
    fn add(&mut self, text: &[u8], verdict: Result<(), Refusal>) {
        let Err(Refusal { number, line }) = verdict else {
            self.accepted += 1;
            self.with_masks += u64::from(has_masks(text));
            return;
        };
        self.refused[usize::from(number)] += 1;
        let lines: Vec<&[u8]> = text.split_inclusive(|&byte| byte == b'\n').collect();
        let count = lines.len() as u64;
        self.of_several += u64::from(line > 0 && count > 1);
        self.before_the_last += u64::from(line > 0 && line < count);
        let refused = lines.get((line as usize).wrapping_sub(1));
        self.in_masks += u64::from(refused.is_some_and(|line| has_masks(line)));
    }
}

/// Compares so many random texts, and counts the answers.
pub fn compare_many(texts: u64, seed: u64) -> Result<Counts, Difference> {
    let counts = Counts::default();
    difference::compare_many(texts, seed, random_text, counts, |text, _, counts| {
        counts.add(text, compare_text(text)?);
        Ok(())
    })
}
