//! The words of the command, and its help.

mod changes;
mod others;
mod readings;
mod shared;

pub use changes::lines;
use clap::{Arg, ArgAction, Command};
use std::sync::LazyLock;

const ABOUT: &str = "\
A DuckLake 0.3 snapshot catalogue in a file: which files and rows a snapshot holds.

A catalogue has schemas, tables with columns, data files of rows, and delete files. Each change makes a
snapshot and leaves all earlier ones as they were, so that a list can be read as it was struck, until its
snapshot is expired. The Parquet files themselves are not touched: the catalogue says which there are.";

const LESSON: &str = "\
A first session:
  gukoremo init shop.lake
  gukoremo create-table shop.lake main.diary item:int64 'price:int64?'
  gukoremo insert shop.lake --table main.diary --rows 3 item=1..3 price=9..14
  gukoremo files shop.lake --table main.diary
  gukoremo delete shop.lake --file 0 --positions 1
  gukoremo rows shop.lake --table main.diary
  gukoremo rows shop.lake --table main.diary --at 2

Many changes at once, a line each, with one write of the file:
  gukoremo apply shop.lake changes.txt

Names and ids:
  --schema main, or its id: --schema 0
  --table main.diary, or its id: --table 1. 'diary' alone is main.diary
  digits are an id; a name of digits alone is quoted: --schema '\"7\"'

Times: microseconds since 1970, such as 110; RFC 3339, such as 2026-11-16T09:30:00Z; a date,
  such as 2026-11-16, which is its midnight in UTC; or now.
  Later changes can't have earlier times: a --time more than a day ahead of the clock takes --force.

Exit codes:
  0         done
  1         the answer is no: not sound (check), not the same (diff)
  3         the change was made, but its message could not be written or its folder not synced: don't repeat it
  64        the words of the command are not understood, or not taken: a name in .lock, a time far ahead
  65        a file is damaged or no catalogue; a line of a script is wrong
  66, 73    a file is not there; is there already
  70        more than can be held
  74        reading or writing failed: no room, no right
  75        someone else is changing the catalogue; try again, or --wait
  201..219  refused, by the refusal's number: 208 is refusal 8

A change is made whole or not at all, and is on the disk when the command ends with 0; with any code but 0 and 3 it
was not made. Of a batch (apply) that is refused, the changes before the refused one were made, unless it is --atomic. docs/COMMAND.md plays a session from init to cleanup.";

/// With what the calls are: proved or not.
static VERSION: LazyLock<String> = LazyLock::new(|| format!("{} {}", env!("CARGO_PKG_VERSION"), gukoremo::raw::OVER));

/// All commands.
pub fn command() -> Command {
    Command::new("gukoremo")
        .version(VERSION.as_str())
        .about("A DuckLake 0.3 snapshot catalogue in a file")
        .long_about(ABOUT)
        .after_help("'gukoremo --help' teaches; 'gukoremo COMMAND --help' tells of one command.")
        .after_long_help(LESSON)
        .subcommand_required(true)
        .arg_required_else_help(true)
        .term_width(110)
        .arg(
            Arg::new("timing")
                .long("timing")
                .global(true)
                .action(ArgAction::SetTrue)
                .help("Say on the standard error how long the catalogue's calls took, and all else"),
        )
        .subcommands(changes::all())
        .subcommands(readings::all())
        .subcommands(others::all())
}

#[cfg(test)]
mod tests {
    /// clap's own test of the definitions.
    #[test]
    fn well_formed() {
        super::command().debug_assert();
    }
}
