//! "A program without input plays this up to time 150 and prints a header line, then the files at
//! 5".

use second::diary::{lines, play, DIARY};
use second::Counts;

fn main() {
    let (words, counts) = play(&Counts::of_each(16));
    print!("{}", lines(&words, &counts, 5, DIARY).unwrap_or_default());
}
