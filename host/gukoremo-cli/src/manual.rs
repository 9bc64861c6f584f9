//! The man page, gukoremo(1), in roff: what the command's own help says, command by command.

use crate::arguments;
use clap::{Arg, Command};

/// The whole page.
pub fn page() -> String {
    let command = arguments::command();
    let version = command.get_version().unwrap_or_default();
    let mut page = format!(".TH GUKOREMO 1 \"\" \"gukoremo {}\"\n", escaped(version));
    section(&mut page, "NAME", &format!("gukoremo \\- {}\n", escaped(&styled(command.get_about()))));
    section(&mut page, "SYNOPSIS", "\\fBgukoremo\\fR \\fICOMMAND\\fR [\\fIOPTIONS\\fR]\n");
    section(&mut page, "DESCRIPTION", &paragraphs(&styled(command.get_long_about())));
    section(&mut page, "COMMANDS", &command.get_subcommands().filter(|sub| !sub.is_hide_set()).map(of_command).collect::<String>());
    section(&mut page, "OPTIONS OF EVERY COMMAND", &command.get_arguments().map(of_argument).collect::<String>());
    section(&mut page, "NOTES", &as_it_stands(&styled(command.get_after_long_help())));
    page
}

fn section(page: &mut String, name: &str, text: &str) {
    page.push_str(&format!(".SH {name}\n{text}"));
}

/// A command: what it does, its arguments, and the examples of its help.
fn of_command(command: &Command) -> String {
    let (positions, options): (Vec<&Arg>, Vec<&Arg>) = command.get_arguments().partition(|argument| argument.is_positional());
    let line: String =
        positions.iter().chain(options.iter().filter(|option| option.is_required_set())).map(|argument| format!(" {}", shape(argument))).collect();
    let arguments: String = positions.into_iter().chain(options).map(of_argument).collect();
    let name = escaped(command.get_name());
    let about = paragraphs(&styled(command.get_about()));
    let after = as_it_stands(&styled(command.get_after_help()));
    format!(".SS {name}\n\\fBgukoremo {name}\\fR{line}\n.PP\n{about}{arguments}.PP\n{after}")
}

fn of_argument(argument: &Arg) -> String {
    format!(".TP\n{}\n{}", shape(argument), paragraphs(&styled(argument.get_help())))
}

/// How it is written: `--rows N`, or `FILE`.
fn shape(argument: &Arg) -> String {
    let values =
        || argument.get_value_names().unwrap_or_default().iter().map(|name| format!("\\fI{}\\fR", escaped(name))).collect::<Vec<_>>().join(" ");
    match argument.get_long() {
        Some(long) if argument.get_action().takes_values() => format!("\\fB\\-\\-{}\\fR {}", escaped(long), values()),
        Some(long) => format!("\\fB\\-\\-{}\\fR", escaped(long)),
        None => values(),
    }
}

fn styled(text: Option<&clap::builder::StyledStr>) -> String {
    text.map(|text| text.to_string()).unwrap_or_default()
}

/// Text that is filled, with a paragraph for each empty line.
fn paragraphs(text: &str) -> String {
    text.lines().map(|line| if line.is_empty() { ".PP\n".to_string() } else { format!("{}\n", escaped(line)) }).collect()
}

/// Text whose lines stay as they are.
fn as_it_stands(text: &str) -> String {
    match text.is_empty() {
        true => String::new(),
        false => format!(".nf\n{}.fi\n", text.lines().map(|line| format!("{}\n", escaped(line))).collect::<String>()),
    }
}

/// Text that roff prints as it is: no escapes, no request at a line's start.
fn escaped(text: &str) -> String {
    let text = text.replace('\\', "\\e").replace('-', "\\-");
    match text.starts_with(['.', '\'']) {
        true => format!("\\&{text}"),
        false => text,
    }
}

#[cfg(test)]
mod tests {
    use super::{escaped, page, shape};
    use clap::{Arg, ArgAction};

    #[test]
    fn nothing_is_taken_for_roff() {
        assert_eq!(escaped("a-b\\c"), "a\\-b\\ec");
        assert_eq!(escaped(".lock"), "\\&.lock");
        assert_eq!(escaped("'gukoremo help'"), "\\&'gukoremo help'");
    }

    #[test]
    fn an_argument_as_it_is_written() {
        assert_eq!(shape(&Arg::new("rows").long("rows").value_name("N")), "\\fB\\-\\-rows\\fR \\fIN\\fR");
        assert_eq!(shape(&Arg::new("csv").long("csv").action(ArgAction::SetTrue)), "\\fB\\-\\-csv\\fR");
        assert_eq!(shape(&Arg::new("file").value_name("FILE")), "\\fIFILE\\fR");
    }

    #[test]
    fn every_command_has_its_part() {
        let page = page();
        for command in crate::arguments::command().get_subcommands() {
            assert!(page.contains(&format!(".SS {}\n", escaped(command.get_name()))), "{}", command.get_name());
        }
    }
}
