//! Kinds of cases, and how often each was met.

#[derive(Debug)]
pub struct Seen(Vec<(String, u64)>);

impl Seen {
    /// These kinds, none of them met.
    pub fn none_of(kinds: Vec<String>) -> Seen {
        Seen(kinds.into_iter().map(|kind| (kind, 0)).collect())
    }

    pub fn add(&mut self, kind: &str) {
        let known = self.0.iter_mut().find(|(known, _)| known == kind);
        known.unwrap_or_else(|| panic!("no kind: {kind}")).1 += 1;
    }

    pub fn all(&self) -> &[(String, u64)] {
        &self.0
    }

    /// Kinds that were met less often than this.
    pub fn rarer_than(&self, times: u64) -> Vec<&str> {
        let rare = self.0.iter().filter(|(_, met)| *met < times);
        rare.map(|(kind, _)| kind.as_str()).collect()
    }
}
