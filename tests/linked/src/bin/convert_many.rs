//! convert_many COUNT SEED: holds the proved converters to the second
//! implementation's on COUNT random and damaged texts of both forms, with outputs
//! of all lengths around that of the result. Exits with 1 at a difference, and
//! where a count of 10,000 or more leaves out a kind of case.

use linked::moved::CONVERTERS;
use linked::program::compare_tool;

fn main() {
    compare_tool("convert_many", &CONVERTERS);
}
