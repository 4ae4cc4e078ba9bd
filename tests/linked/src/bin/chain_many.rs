//! chain_many COUNT SEED: holds the proved longest chain to the second
//! implementation's on COUNT random plans, of few tasks and many, and damaged texts,
//! with outputs of all lengths around that of the line. Exits with 1 at a difference,
//! and where a count of 10,000 or more leaves out a kind of case.

use linked::chained::CHAINS;
use linked::program::compare_tool;

fn main() {
    compare_tool("chain_many", &CHAINS);
}
