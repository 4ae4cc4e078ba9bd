//! reports KNOWN COUNT SEED [PLAN..]: a line for each plan file and for COUNT random
//! calls of the run, by seeds from SEED up, with texts that mean the same, or are
//! refused alike, in builds that know no more than KNOWN, which is one of first-form,
//! both-forms, masks and spoken-for. A line has name, refusal number and line, picks,
//! length, a hash of the report and all of the store, and whether the output past the
//! report is as it was. The report is taken as builds show it that know no more than
//! KNOWN: before masks without the last field of the E line, before spoken-for with `-`
//! in the L line where it has `>` and a worker. So builds that answer alike but for
//! these print the same.
//!
//! reports known: what the build knows that is linked here.
//!
//! reports show KNOWN SEED: the random call of a seed, and its text.

use linked::bench::{run, REPORT_SIZE};
use linked::known::Known;
use linked::many::{known_call, Call};
use second::random::Rng;
use second::run::STORE_SIZE;
use second::used::{used_output, used_store};
use std::io::{self, Write};
use std::process::exit;

/// FNV-1a over bytes.
fn hash(from: u64, bytes: &[u8]) -> u64 {
    bytes.iter().fold(from, |hash, &byte| {
        (hash ^ u64::from(byte)).wrapping_mul(0x0100_0000_01b3)
    })
}

/// The whole answer to a call of a build that knows what is known `here`. What a refusal
/// has none of is 0. The output is shorter by what the report lacks, so that it is too
/// short in both builds or in none.
fn answer(mut call: Call, known: Known, here: Known) -> String {
    let missing = here.missing(&call.text, call.limit);
    let room = call.output.len().saturating_sub(missing);
    call.output.truncate(room);
    let before = call.output.clone();
    let answer = run(&call.text, call.limit, &mut call.store, &mut call.output);
    let (number, line) = answer.map_or_else(|no| (no.number, no.line), |_| (0, 0));
    let (picks, length) = answer.map_or((0, 0), |all| (all.picks, all.length));
    let report = answer.map_or(Vec::new(), |_| known.shown(&call.output[..length], here));
    let mut left = hash(0xcbf2_9ce4_8422_2325, &report);
    for number in &call.store {
        left = hash(left, &number.to_le_bytes());
    }
    let kept = call.output[length..] == before[length..];
    let past = if kept { "kept" } else { "changed" };
    format!(
        "{number} {line} {picks} {} {left:016x} {past}",
        report.len()
    )
}

fn random_call(known: Known, seed: u64) -> Call {
    known_call(&mut Rng::new(seed), known)
}

/// A plan file with all the room it needs; nothing where it needs more than is known.
fn file_call(known: Known, name: &str) -> Option<Call> {
    let text = std::fs::read(name).unwrap_or_else(|error| {
        eprintln!("{name}: {error}");
        exit(2);
    });
    known.covers(&text).then(|| Call {
        text,
        limit: u64::MAX,
        store: used_store(STORE_SIZE + 7, 7),
        output: used_output(REPORT_SIZE + 7, 7),
    })
}

fn print_all(known: Known, count: u64, seed: u64, plans: &[String]) -> io::Result<()> {
    let mut out = io::stdout().lock();
    let here = Known::here();
    for name in plans {
        if let Some(call) = file_call(known, name) {
            writeln!(out, "{name}: {}", answer(call, known, here))?;
        }
    }
    for seed in seed..seed.saturating_add(count) {
        let call = random_call(known, seed);
        writeln!(out, "seed {seed}: {}", answer(call, known, here))?;
    }
    Ok(())
}

fn show(call: &Call) -> io::Result<()> {
    let (store, output) = (call.store.len(), call.output.len());
    eprintln!("limit {}, store {store}, output {output}", call.limit);
    io::stdout().write_all(&call.text)
}

fn usage() -> ! {
    eprintln!("usage: reports KNOWN COUNT SEED [PLAN..]");
    eprintln!("       reports known");
    eprintln!("       reports show KNOWN SEED");
    exit(2);
}

fn main() {
    let words: Vec<String> = std::env::args().skip(1).collect();
    let number = |at: usize| words.get(at).and_then(|word| word.parse().ok());
    let known = |at: usize| words.get(at).and_then(|word| Known::named(word));
    let first = words.first().map_or("", String::as_str);
    let done = match (first, words.len()) {
        ("known", 1) => writeln!(io::stdout(), "{}", Known::here().name()),
        ("show", 3) => match (known(1), number(2)) {
            (Some(known), Some(seed)) => show(&random_call(known, seed)),
            _ => usage(),
        },
        _ => match (known(0), number(1), number(2)) {
            (Some(known), Some(count), Some(seed)) => print_all(known, count, seed, &words[3..]),
            _ => usage(),
        },
    };
    if let Err(error) = done {
        eprintln!("reports: {error}");
        exit(2);
    }
}
