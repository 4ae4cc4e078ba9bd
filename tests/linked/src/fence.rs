//! A buffer inside a larger one, so that a write past either end is seen.

/// Elements on each side of the buffer.
const MARGIN: usize = 64;

#[derive(Clone, Debug)]
pub struct Fenced<T> {
    all: Vec<T>,
    /// What the margins must hold.
    around: Vec<T>,
}

impl<T: Copy + PartialEq> Fenced<T> {
    /// `content` with so many elements of `pattern` before and behind it.
    pub fn new(content: &[T], pattern: impl FnMut(usize) -> T) -> Fenced<T> {
        let around: Vec<T> = (0..2 * MARGIN).map(pattern).collect();
        let all = [&around[..MARGIN], content, &around[MARGIN..]].concat();
        Fenced { all, around }
    }

    pub fn inside(&self) -> &[T] {
        &self.all[MARGIN..self.all.len() - MARGIN]
    }

    pub fn lend(&mut self) -> &mut [T] {
        let end = self.all.len() - MARGIN;
        &mut self.all[MARGIN..end]
    }

    /// The first place inside that has another element than here.
    pub fn difference(&self, expected: &[T]) -> Option<usize> {
        let mut both = self.inside().iter().zip(expected);
        both.position(|(a, b)| a != b)
    }

    /// Both margins are as they were made.
    pub fn stands(&self) -> bool {
        self.all[..MARGIN] == self.around[..MARGIN]
            && self.all[self.all.len() - MARGIN..] == self.around[MARGIN..]
    }
}
