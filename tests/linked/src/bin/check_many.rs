//! check_many COUNT SEED: holds the proved reader to the second implementation's
//! on COUNT random and damaged texts, and its looks at their bytes to a count.

use linked::check::compare_many;
use linked::program::compared;

fn main() {
    let (_, counts) = compared("check_many", "readers", compare_many);
    println!("{:9} accepted", counts.accepted);
    println!("{:9} of these with M lines", counts.with_masks);
    for number in [1, 2, 3, 4, 5, 6, 9, 11] {
        println!("{:9} refused with {number}", counts.refused[number]);
    }
    println!("{:9} refused in an M line", counts.in_masks);
    println!("{:9} refused in one of several lines", counts.of_several);
    println!("{:9} of these not in the last", counts.before_the_last);
}
