//! The compiled calls against the second implementation, against written lists, and against the published queries.
#![forbid(unsafe_code)]

mod bench;
mod bends;
mod call_words;
mod catalogue;
mod check_limits;
mod check_passes;
mod choices;
mod conformance;
mod contents;
mod costs;
mod from_cases;
mod fuzz;
mod limits;
mod list_bench;
mod moves;
mod one_call;
mod play;
mod player;
mod proved;
mod published;
mod runs;
mod script;
mod sessions;
mod shapes;
mod sqlite;
mod stack;
mod step;
mod tally;
mod timed;
mod unchained;
mod unmarked;

use std::process::ExitCode;

const USAGE: &str = "usage:
  differ fuzz COUNT [SEED]       so many random calls and damaged tables, and more; a find is printed as a list
  differ bounded COUNT SEED      the same with tables at the limits, and every number that a call can give has to be met
  differ unmarked                the cases of the diary session that are not proved
  differ write CASES FOLDER      the lists of conformance/, from the folder of the proved cases and from seeds
  differ play PATH               a list, or a folder of them, against both
  differ sessions PATH COUNT     the same lists and so many random ones, in lists that one call plays, bent in every way
  differ unchained               lists that one call plays on tables that are sound and not chained, made unsound, or of any words
  differ published COUNT         the published queries on SQLite, for so many random catalogues
  differ bench [CALL ..]         the tables of docs/BENCHMARKS.md: times of the calls, as ratios; of lists alone: differ bench lists
  differ costs                   the table of docs/CHECK-TIMES.md: what each call costs beyond the check, in plain passes
  differ check-limits            what the check says of tables at the limits and one past them, from both implementations
  differ check-times             the table of docs/CHECK-TIMES.md: what a check costs on each content, in plain passes
  differ stack                   what each call takes of the stack; fails above 1 MiB";

fn main() -> ExitCode {
    let arguments: Vec<String> = std::env::args().skip(1).collect();
    let words: Vec<&str> = arguments.iter().map(String::as_str).collect();
    let done = match words[..] {
        ["fuzz", count] => fuzz::run(count, None),
        ["fuzz", count, seed] => fuzz::run(count, Some(seed)),
        ["bounded", count, seed] => fuzz::bounded(count, seed),
        ["unmarked"] => unmarked::run(),
        ["write", cases, folder] => conformance::write(cases, folder),
        ["play", path] => conformance::check(path),
        ["sessions", path, count] => sessions::run(path, count),
        ["unchained"] => unchained::run(),
        ["published", count] => published::run(count),
        ["bench", ref calls @ ..] => bench::run(calls),
        ["costs"] => costs::run(),
        ["check-limits"] => check_limits::run(),
        ["check-times"] => check_passes::run(),
        ["stack"] => stack::run(),
        _ => Err(USAGE.to_string()),
    };
    match done {
        Ok(said) => {
            println!("{said}");
            ExitCode::SUCCESS
        }
        Err(how) => {
            println!("{how}");
            ExitCode::FAILURE
        }
    }
}
