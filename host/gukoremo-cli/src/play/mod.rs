//! `play`: the raw calls from a script, a line each. Any line gets an answer, or the script ends with a message and the line's number.

mod calls;
mod line;
mod stage;

use crate::failure::{code, Failure};
use clap::ArgMatches;
use stage::Stage;
use std::fs::File;
use std::io::{self, BufRead, BufReader, Write};
use std::path::PathBuf;

pub const HELP: &str = "\
Lines; # begins a comment:
  lend RUN LENGTH [FILL]       lend a run of so many words (bytes, for names), filled with FILL, else 0
  set RUN INDEX VALUE ..       words, or for names text, from an index on
  counts N N N N N N N N N     the catalogue record: snapshots schemas tables columns data_files delete_files
                               positions statistics scheduled
  area LENGTH [FILL]           the answer area
  dump                         the runs, the counts and the area as they are
  = NUMBER PLACE LENGTH ..     the last call gave this line, else the script ends here
  list, end                    the calls on the lines between these are played as one call: a line for each, number, place,
                               length, the answer's words; then how many were played, the words of all answers, the nine
                               counts. The answers lie in the area one behind another
  sum HEXADECIMAL              the runs and the area have this sum (conformance/README.md), else the script ends here
Runs: snapshots schemas schema_names tables table_names columns column_names data_files delete_files positions
      statistics scheduled. A run that was not lent has length 0.
Calls:
  fresh TIME                                   create_schema TIME NAME
  drop_schema TIME SCHEMA                      create_table TIME SCHEMA NAME [WORD ..] [PLACE ..]
  drop_table TIME TABLE                        insert TIME TABLE ROWS UUID_HIGH UUID_LOW [WORD ..]
  expire [ID ..] TIME                          delete TIME FILE UUID_HIGH UUID_LOW [POSITION ..]
  cleanup TIME                                 list_schemas SNAPSHOT
  list_tables SNAPSHOT SCHEMA                  list_columns SNAPSHOT TABLE
  list_files SNAPSHOT TABLE                    list_filtered_files SNAPSHOT TABLE COLUMN SCALAR
  list_rows SNAPSHOT TABLE                     table_by_name SNAPSHOT SCHEMA NAME
  snapshot_by_time TIME                        copy_file FILE
Lists stand in brackets, which are there also when the list is empty: [] or [4 0 4 1].
Words: decimal, 0x.. hexadecimal, a negative number as its two's complement, or absent.
Names: text, or x and pairs of hexadecimal digits; 'x' alone is no byte. A name that would read as hexadecimal is written so.
A PLACE that is text is filled with zero bytes to 32; hexadecimal is taken as it is.
After each call one line: number, place, length, the nine counts, the answer's words.";

pub fn run(given: &ArgMatches) -> Result<u8, Failure> {
    let path = given.get_one::<PathBuf>("script").filter(|path| path.as_os_str() != "-");
    let lines: Box<dyn BufRead> = match path {
        None => Box::new(io::stdin().lock()),
        Some(path) => Box::new(BufReader::new(File::open(path).map_err(|error| Failure::io(path, "read", error))?)),
    };
    let mut out = io::BufWriter::new(io::stdout().lock());
    let played = play(lines, &mut out);
    out.flush().map_err(Failure::output)?;
    played.map(|()| 0)
}

/// Plays the lines. Input need not be text: what is not UTF-8 is a wrong line.
pub fn play(lines: impl BufRead, out: &mut dyn Write) -> Result<(), Failure> {
    let mut stage = Stage::default();
    let mut last = 0;
    for (at, line) in lines.split(b'\n').enumerate() {
        last = at + 1;
        let wrong =
            |why: String| Failure::new(code::DATA, format!("line {}: {why}.", at + 1)).advice("see 'gukoremo play --help' for what a line may be.");
        let line = line.map_err(|error| wrong(format!("it could not be read; the system says: {error}")))?;
        let line = std::str::from_utf8(&line).map_err(|_| wrong("it is not UTF-8 text".to_string()))?;
        let words = line::words(line).map_err(wrong)?;
        stage.play(&words, out).map_err(|fault| match fault {
            line::Fault::Wrong(why) => wrong(why),
            line::Fault::Output(error) => Failure::output(error),
        })?;
    }
    match stage.list {
        None => Ok(()),
        Some(_) => Err(Failure::new(code::DATA, format!("line {last}: the script ends within a list.")).advice("put 'end' after its last call.")),
    }
}
