//! Programs that compare on many random texts: `PROGRAM COUNT SEED`.

use crate::arguments::count_and_seed;
use crate::beside::Comparison;
use crate::difference::Difference;
use std::io::Write;
use std::process::exit;

/// So many texts must meet every kind of case.
const ENOUGH: u64 = 10_000;

/// How many texts were compared, and what was seen of them. Exits with 1 at a
/// difference of those that have this name.
pub fn compared<S>(
    program: &str,
    name: &str,
    compare_many: impl Fn(u64, u64) -> Result<S, Difference>,
) -> (u64, S) {
    let (count, seed) = count_and_seed(program);
    match compare_many(count, seed) {
        Ok(seen) => {
            println!("{count} texts from seed {seed}, no difference");
            (count, seen)
        }
        Err(Difference { text, what }) => {
            eprintln!("the {name} differ in: {what}\non this text:");
            let _ = std::io::stdout().write_all(&text);
            exit(1);
        }
    }
}

/// Compares a tool, and says how often each kind of case was met. Exits with 1 at a
/// difference too, and where enough texts leave out a kind.
pub fn compare_tool(program: &str, tool: &Comparison) {
    let (count, seen) = compared(program, tool.name, |count, seed| tool.many(count, seed));
    for (kind, times) in seen.all() {
        println!("{times:9} {kind}");
    }
    let missing = seen.rarer_than(1);
    if count >= ENOUGH && !missing.is_empty() {
        eprintln!("never met: {}", missing.join("; "));
        exit(1);
    }
}
