//! run_many COUNT SEED: holds the proved run to the second implementation's on
//! COUNT random and damaged plans, with random limits, stores and outputs. Says what M
//! lines did in these runs, and how the lock stood in their reports.

use linked::arguments::count_and_seed;
use std::io::Write;
use std::process::exit;

fn main() {
    let (count, seed) = count_and_seed("run_many");
    match linked::many::compare_many(count, seed) {
        Ok(counts) => {
            let picks = counts.picks;
            println!("{count} runs from seed {seed}, {picks} picks, no difference");
            println!("reports and refusals 1 to 11: {:?}", counts.answers);
            for (times, what) in [
                (counts.with_masks, "reports of plans with M lines"),
                (counts.passed_over, "with a task passed over"),
                (counts.stopped_serving, "that stopped serving"),
                (counts.left_ready, "where an owner left tasks ready"),
                (counts.spoken_for, "reports with `>` in the L line"),
                (counts.unregistered, "with a worker that has not registered"),
                (counts.served_free, "with `-` before a served one looks"),
            ] {
                println!("{times:9} {what}");
            }
        }
        Err((call, what)) => {
            eprintln!(
                "the two runs differ in: {what}\nlimit {}, store {}, output {}, on this plan:",
                call.limit,
                call.store.len(),
                call.output.len()
            );
            let _ = std::io::stdout().write_all(&call.text);
            exit(1);
        }
    }
}
