//! compare COUNT SEED: has the proof checker compute the bench's definitions on COUNT random plans
//! and holds each whole answer to this implementation's: of a check (acceptance or refusal, looks),
//! of a run (report or refusal, picks, store, output) and of both converters (length or refusal,
//! output); and on COUNT smaller ones, whose chains can all be listed, that of the longest chain.
//! Says how many of the plans are accepted with M lines, in how many runs an owner serves or takes
//! otherwise because of them, how many reports have `>` in their L line, and how many chains were
//! chosen among equal sums. The definitions are those of the libraries that stand proved in the
//! crates' folders (`tools/over_proved`).

use second::chain::{longest_chain, LONGEST_LINE};
use second::chosen::Chosen;
use second::convert::{to_first, to_second};
use second::looks::bounds;
use second::machine::{Machine, Place};
use second::order::Picks;
use second::plan::{check, Refusal};
use second::random::Rng;
use second::tool::Tool;
use second::{random, run};
use std::fmt::Write as _;
use std::path::Path;
use std::process::{exit, Command, Output};

const REFUSALS: [&str; 11] = [
    "Malformed",
    "OutOfRange",
    "Misplaced",
    "TooMany",
    "AddressTwice",
    "TextTooLong",
    "StoreTooShort",
    "OutputTooShort",
    "TooFewSlots",
    "OtherSizes",
    "EmptyMask",
];
const STORE: usize = 8192;
const IN_STORE: u64 = 7;
const IN_OUTPUT: u8 = 255;

/// One call of the run function: the caller's side of it is drawn beside the plan.
struct Call {
    text: Vec<u8>,
    limit: u64,
    store: usize,
    output: usize,
}

/// Picks after which a task is held: just before and just after a hand-over to a waiter that is served.
fn held(text: &[u8]) -> Vec<u64> {
    let Ok(plan) = check(text) else {
        return Vec::new();
    };
    let mut machine = Machine::new(&plan);
    let mut picks = Vec::new();
    for worker in Picks::new(&plan) {
        if machine.finished() {
            break;
        }
        if machine.workers[worker].place == Place::HandOver {
            picks.extend([machine.picks, machine.picks + 1]);
        }
        machine.step(worker);
    }
    picks
}

fn draw(seed: u64) -> Call {
    let text = random::sample(seed);
    let mut rng = Rng::new(seed ^ 0x5eed);
    let held = held(&text);
    let ownerless = check(&text).map_or(Vec::new(), |plan| run::without_owner(&plan, 300));
    let limit = match rng.below(5) {
        0 | 1 => u64::MAX,
        2 if !held.is_empty() => rng.choose(&held),
        3 if !ownerless.is_empty() => rng.choose(&ownerless),
        _ => rng.below(200),
    };
    let store = match rng.below(12) {
        0 => STORE - 1,
        1 => 0,
        n => STORE + n as usize % 3,
    };
    let report = run::answer_bytes(&text, limit).len();
    let output = match rng.below(8) {
        0 => report - 1,
        1 => report,
        n => report + n as usize,
    };
    Call {
        text,
        limit,
        store,
        output,
    }
}

fn list<T: std::fmt::Display>(values: &[T], fill: Option<(usize, u64)>) -> String {
    let mut out = String::new();
    for v in values {
        let _ = write!(out, "{v} ∷ ");
    }
    out.push_str("[]");
    match fill {
        Some((n, v)) => format!("({out}) ++ replicate {n} {v}"),
        None => out,
    }
}

/// A refusal as the definitions say it.
fn refuses(no: Refusal) -> String {
    format!("refuses {} {}", REFUSALS[no.number as usize - 1], no.line)
}

/// An output as it was left.
fn left(output: &[u8]) -> String {
    let written = output
        .iter()
        .rposition(|&b| b != IN_OUTPUT)
        .map_or(0, |i| i + 1);
    let later = output.len() - written;
    list(&output[..written], Some((later, IN_OUTPUT.into())))
}

/// The theorem that the check's definition tells for a text what this implementation gives: 0, or
/// the refusal's number and line. Its looks are the most that are allowed: a refused line is looked
/// at to its end.
fn checked(seed: u64) -> String {
    let text = random::sample(seed);
    let answer = check(&text).map(|_| ());
    let looks = *bounds(&text, answer).end();
    let (number, values) = match answer {
        Ok(()) => (0, vec![looks]),
        Err(no) => (no.number, vec![no.line, looks]),
    };
    format!(
        "check-{seed} : told (check ({}))\n    ≡ record {{ number = {number}; values = {} }}\n\
         unfolding computed lines_size\ncheck-{seed} = refl\n\n",
        list(&text, None),
        list(&values, None),
    )
}

/// The theorem that a converter's definition gives for a text what this implementation gives.
fn moved(seed: u64, name: &str, convert: Tool) -> String {
    let unfolds = format!("after_line {name}");
    made(seed, name, &random::sample(seed), convert, &unfolds)
}

/// The same of the longest chain.
fn chained(seed: u64) -> String {
    let text = random::chain_sample(seed);
    made(seed, "chain_of", &text, longest_chain, "computed_chain")
}

/// The theorem that a tool's definition gives for a text what this implementation gives; in an
/// output that is now and then too short.
fn made(seed: u64, name: &str, text: &[u8], tool: Tool, unfolds: &str) -> String {
    let mut rng = Rng::new(seed ^ 0xf0);
    let length = tool(text, &mut vec![0; text.len() + LONGEST_LINE]).unwrap_or(text.len());
    let mut output = vec![IN_OUTPUT; (length + rng.index(12)).saturating_sub(2)];
    let answer = match tool(text, &mut output) {
        Ok(length) => format!("Ok {length}"),
        Err(no) => format!(
            "refused_at {} {}",
            REFUSALS[no.number as usize - 1],
            no.line
        ),
    };
    format!(
        "{name}-{seed} : converted (replicate {} {IN_OUTPUT}) ({name} ({}))\n    ≡ record {{ answer = {answer}; output = {} }}\nunfolding computed converted {unfolds}\n{name}-{seed} = refl\n\n",
        output.len(),
        list(text, None),
        left(&output),
    )
}

/// The theorem that the definition gives for this call what this implementation gives.
fn theorem(seed: u64) -> String {
    let call = draw(seed);
    let mut store = vec![IN_STORE; call.store];
    let mut output = vec![IN_OUTPUT; call.output];
    let answer = match run::run(&call.text, call.limit, &mut store, &mut output) {
        Ok(done) => format!("reports {} {}", done.picks, done.length),
        Err(no) => refuses(no),
    };
    let zeros = store.iter().take_while(|&&n| n == 0).count();
    format!(
        "seed-{seed} : run {} (replicate {} {IN_STORE}) (replicate {} {IN_OUTPUT}) ({})\n    ≡ record {{ answer = {answer}; store = replicate {zeros} 0 ++ replicate {} {IN_STORE}; output = {} }}\nunfolding computed run written played\nseed-{seed} = refl\n\n",
        call.limit,
        call.store,
        call.output,
        list(&call.text, None),
        call.store - zeros,
        left(&output),
    )
}

/// Whether a plan is accepted with M lines, and whether an owner serves or takes otherwise because
/// of them.
fn tied(seed: u64) -> (bool, bool) {
    let call = draw(seed);
    let Ok(plan) = check(&call.text) else {
        return (false, false);
    };
    let counters = run::play(&plan, call.limit).counters;
    let past = counters.served_past + counters.taken_past;
    let none = counters.stopped_serving + counters.left_ready;
    (plan.has_masks(), past + none > 0)
}

/// Whether a run gives a report with `>`, which only its L line can have.
fn spoken_for(seed: u64) -> bool {
    let call = draw(seed);
    let (mut store, mut output) = (vec![IN_STORE; call.store], vec![IN_OUTPUT; call.output]);
    let done = run::run(&call.text, call.limit, &mut store, &mut output);
    done.is_ok_and(|done| output[..done.length].contains(&b'>'))
}

/// Whether a chain is chosen among equal sums.
fn chosen_among_equals(seed: u64) -> bool {
    let plan = check(&random::chain_sample(seed));
    plan.is_ok_and(|plan| Chosen::of(&plan.tasks).among_equals)
}

fn module(first: u64, count: u64) -> String {
    let mut out =
        String::from("use Rattle.std.specs.Prelude.{◌≡◌, Ok, refl, [], ◌∷◌, ◌++◌, replicate}\n");
    let _ = writeln!(
        out,
        "use Rattle.refusals.specs.declared.Refusal.TheVariants.{{{}}}",
        REFUSALS.join(", ")
    );
    out.push_str("use Rattle.play.specs.Outcome.{reports, refuses, written}\nuse Rattle.bench.specs.Answer.{check, run, played}\nuse Rattle.bench.specs.Computed.{computed}\n");
    out.push_str(
        "use Rattle.text.specs.LineEnds.{lines_size}\nuse Rattle.reader.specs.Verdict.{told, refused_at}\n",
    );
    out.push_str("use Rattle.tools.specs.Result.{written as converted}\nuse Rattle.convert.specs.Convert.{after_line, to_second, to_first}\n");
    out.push_str("use Rattle.chain.specs.Longest.{chain_of}\nuse Rattle.chain.specs.Examples.{computed_chain}\n\n");
    for seed in first..first + count {
        out.push_str(&checked(seed));
        out.push_str(&theorem(seed));
        out.push_str(&moved(seed, "to_second", to_second));
        out.push_str(&moved(seed, "to_first", to_first));
        out.push_str(&chained(seed));
    }
    out
}

/// The libraries whose definitions the theorems name.
const LIBRARIES: &str = "text refusals reader play bench tools convert chain";

/// Writes a crate of theorems into a folder.
fn lay_out(room: &Path, text: &str) -> std::io::Result<()> {
    std::fs::create_dir_all(room.join("src"))?;
    std::fs::create_dir_all(room.join("specs"))?;
    std::fs::write(room.join("src/lib.rt"), "// Theorems alone.\n")?;
    std::fs::write(room.join("specs/Lib.antt"), text)
}

/// Has the proof checker check the crate in a folder.
fn checked_in(room: &Path, root: &Path) -> std::io::Result<Output> {
    Command::new(root.join("tools/over_proved"))
        .args([LIBRARIES, "check", "compared"])
        .current_dir(room)
        .output()
}

fn main() {
    let words: Vec<u64> = std::env::args()
        .skip(1)
        .filter_map(|w| w.parse().ok())
        .collect();
    let [count, seed] = words[..] else {
        eprintln!("usage: compare COUNT SEED");
        exit(2);
    };
    let root = Path::new(env!("CARGO_MANIFEST_DIR")).join("..");
    let room = std::env::temp_dir().join(format!("compare-{}", std::process::id()));
    let done = lay_out(&room, &module(seed, count)).and_then(|()| checked_in(&room, &root));
    let _ = std::fs::remove_dir_all(&room);
    let done = match done {
        Ok(done) => done,
        Err(e) => {
            eprintln!("compare: {e}");
            exit(2);
        }
    };
    if done.status.success() {
        let seeds = seed..seed + count;
        let all: Vec<(bool, bool)> = seeds.clone().map(tied).collect();
        println!(
            "compare: {count} plans from seed {seed}, {} with M lines, which changed {} runs, {} reports with `>`, {} chains chosen among equal sums, no difference",
            all.iter().filter(|(masks, _)| *masks).count(),
            all.iter().filter(|(_, changed)| *changed).count(),
            seeds.clone().filter(|&seed| spoken_for(seed)).count(),
            seeds.filter(|&seed| chosen_among_equals(seed)).count()
        );
    } else {
        print!(
            "{}{}",
            String::from_utf8_lossy(&done.stdout),
            String::from_utf8_lossy(&done.stderr)
        );
        println!(
            "compare: the definitions and the second implementation differ, or the check failed"
        );
        exit(1);
    }
}
