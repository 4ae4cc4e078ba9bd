//! What builds of different age know of plans and reports, so that two of them can be
//! compared by what both know.

use crate::bench::run;
use second::plan::{check, Plan, Refusal};
use second::random::{has_masks, is_first_form, Rng};
use second::run::{play, STORE_SIZE};

/// Each one knows what those before it know.
#[derive(Clone, Copy, Debug, PartialEq, Eq, PartialOrd, Ord)]
pub enum Known {
    FirstForm,
    BothForms,
    /// M lines, and the total of permitted workers in the report.
    Masks,
    /// `>` and a worker in the L line, where the builds before have `-`.
    SpokenFor,
}

const ALL: [(Known, &str); 4] = [
    (Known::FirstForm, "first-form"),
    (Known::BothForms, "both-forms"),
    (Known::Masks, "masks"),
    (Known::SpokenFor, "spoken-for"),
];

impl Known {
    pub fn name(self) -> &'static str {
        ALL[self as usize].1
    }

    pub fn named(name: &str) -> Option<Known> {
        let found = ALL.iter().find(|(_, other)| *other == name);
        found.map(|&(known, _)| known)
    }

    /// What the build knows that is linked here.
    pub fn here() -> Known {
        if shows_who_is_due() {
            Known::SpokenFor
        } else if !malformed(b"W\t1\nT\ta\t0\nM\t1\n") {
            Known::Masks
        } else if !malformed(b"W\t1\t1\t1\n") {
            Known::BothForms
        } else {
            Known::FirstForm
        }
    }

    /// Whether a text means the same, or is refused alike, where no more is known.
    pub fn covers(self, text: &[u8]) -> bool {
        let sizes = self >= Known::BothForms || is_first_form(text);
        let masks = self >= Known::Masks || !has_masks(text);
        sizes && masks
    }

    /// Draws until such a text comes.
    pub fn draw(self, rng: &mut Rng, draw: impl Fn(&mut Rng) -> Vec<u8>) -> Vec<u8> {
        loop {
            let text = draw(rng);
            if self.covers(&text) {
                return text;
            }
        }
    }

    /// The bytes by which the report of a run is shorter where no more is known than where
    /// all is. A text that is refused has no report.
    pub fn missing(self, text: &[u8], limit: u64) -> usize {
        let Ok(plan) = check(text) else { return 0 };
        let mut bytes = 0;
        if self < Known::Masks {
            bytes += total_length(&plan);
        }
        if self < Known::SpokenFor {
            bytes += due_length(&plan, limit);
        }
        bytes
    }

    /// A report of a build that knows what is known `here`, as it is where no more is known.
    pub fn shown(self, report: &[u8], here: Known) -> Vec<u8> {
        let differs = |since: Known| self < since && since <= here;
        let mut shown = report.to_vec();
        if differs(Known::Masks) {
            shown = without_total(&shown);
        }
        if differs(Known::SpokenFor) {
            shown = without_due(&shown);
        }
        shown
    }
}

/// Whether the build refuses a text with 1.
fn malformed(text: &[u8]) -> bool {
    let answer = run(text, 0, &mut [0; STORE_SIZE], &mut [0; 100]);
    matches!(answer, Err(Refusal { number: 1, .. }))
}

/// Whether the build shows whose turn has come before it looks. In this run worker 0
/// creates and adds a task, and takes the first ticket.
fn shows_who_is_due() -> bool {
    let mut output = [0; 100];
    let text = b"W\t1\nT\ta\t0\nR\t4\n";
    let answer = run(text, 4, &mut [0; STORE_SIZE], &mut output);
    answer.is_ok_and(|all| output[..all.length].ends_with(b"\t>0\n"))
}

/// The bytes that M lines brought into a plan's E line: a tab and the total of permitted
/// workers.
fn total_length(plan: &Plan) -> usize {
    1 + plan.permissions().to_string().len()
}

/// The bytes by which `>` and a worker are more than `-`: those of the worker's number.
fn due_length(plan: &Plan, limit: u64) -> usize {
    let due = play(plan, limit).due();
    due.map_or(0, |worker| worker.to_string().len())
}

/// A report without the last field of its E line.
fn without_total(report: &[u8]) -> Vec<u8> {
    let end = report.iter().position(|&byte| byte == b'\n');
    let (first, rest) = report.split_at(end.expect("an E line"));
    let fields = first.split(|&byte| byte == b'\t').count();
    assert_eq!(fields, 4, "the fields of an E line");
    let tab = first.iter().rposition(|&byte| byte == b'\t');
    [&first[..tab.expect("a tab")], rest].concat()
}

/// A report with `-` for the `>` and worker of its L line, if it has them.
fn without_due(report: &[u8]) -> Vec<u8> {
    let tab = report.iter().rposition(|&byte| byte == b'\t');
    let (before, last) = report.split_at(tab.expect("a tab") + 1);
    let last = if last.starts_with(b">") { b"-\n" } else { last };
    [before, last].concat()
}
