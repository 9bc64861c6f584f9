//! What `make install` puts beside the command: the man page and the completions of shells, both from the command's own definitions. The commands that print
//! them are not listed in the help.

use crate::arguments;
use crate::failure::Failure;
use crate::manual;
use clap::{value_parser, Arg, ArgMatches, Command};
use clap_complete::Shell;
use std::io::{self, Write};

/// The commands `man` and `completions`.
pub fn commands() -> [Command; 2] {
    let shell = Arg::new("shell").value_name("SHELL").required(true).value_parser(value_parser!(Shell)).help("The shell");
    [
        Command::new("man").hide(true).about("Print the man page, in roff"),
        Command::new("completions").hide(true).about("Print the completions of a shell").arg(shell),
    ]
}

/// Prints what one of them is asked for.
pub fn run(given: &ArgMatches) -> Result<u8, Failure> {
    let text = match given.try_get_one::<Shell>("shell") {
        Ok(Some(shell)) => completions(*shell),
        _ => manual::page().into_bytes(),
    };
    let mut out = io::stdout().lock();
    out.write_all(&text).and_then(|()| out.flush()).map_err(Failure::output)?;
    Ok(0)
}

fn completions(shell: Shell) -> Vec<u8> {
    let mut text = Vec::new();
    clap_complete::generate(shell, &mut arguments::command(), "gukoremo", &mut text);
    text
}
