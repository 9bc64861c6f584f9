//! Answers as JSON, with a space after each comma and colon.

use crate::list::Cell;
use serde::{Serialize, Serializer as Into};
use serde_json::ser::Formatter;
use serde_json::Serializer;
use std::io::{self, Write};

/// A value, and the end of the line.
pub fn write(cell: &Cell, out: &mut dyn Write) -> io::Result<()> {
    value(cell, out)?;
    writeln!(out)
}

/// A list of values, a line each.
pub fn write_lines(cells: impl Iterator<Item = Cell>, out: &mut dyn Write) -> io::Result<()> {
    write!(out, "[")?;
    for (at, cell) in cells.enumerate() {
        write!(out, "{}\n  ", if at == 0 { "" } else { "," })?;
        value(&cell, out)?;
    }
    writeln!(out, "\n]")
}

fn value(cell: &Cell, out: &mut dyn Write) -> io::Result<()> {
    Ok(cell.serialize(&mut Serializer::with_formatter(out, Spaced))?)
}

impl Serialize for Cell {
    fn serialize<To: Into>(&self, to: To) -> Result<To::Ok, To::Error> {
        match self {
            Cell::Number(number) => to.serialize_u64(*number),
            Cell::Signed(number) => to.serialize_i64(*number),
            Cell::Flag(flag) => to.serialize_bool(*flag),
            Cell::Text(text) => to.serialize_str(text),
            Cell::Nothing => to.serialize_none(),
            Cell::Many(cells) => to.collect_seq(cells),
            Cell::Record(fields) => to.collect_map(fields.iter().map(|(name, cell)| (name, cell))),
        }
    }
}

struct Spaced;

impl Formatter for Spaced {
    fn begin_array_value<Out: ?Sized + Write>(&mut self, out: &mut Out, first: bool) -> io::Result<()> {
        out.write_all(if first { b"" } else { b", " })
    }

    fn begin_object_key<Out: ?Sized + Write>(&mut self, out: &mut Out, first: bool) -> io::Result<()> {
        self.begin_array_value(out, first)
    }

    fn begin_object_value<Out: ?Sized + Write>(&mut self, out: &mut Out) -> io::Result<()> {
        out.write_all(b": ")
    }
}

#[cfg(test)]
mod tests {
    use super::*;

    #[test]
    fn values() {
        let text = |cell: Cell| {
            let mut out = Vec::new();
            write(&cell, &mut out).expect("written");
            String::from_utf8(out).expect("text")
        };
        assert_eq!(text(Cell::Text("a\"\n".to_string())), "\"a\\\"\\n\"\n");
        let fields = vec![("a", Cell::Number(1)), ("b", Cell::end(None)), ("c", Cell::numbers(&[2, 3])), ("d", Cell::Signed(-4))];
        assert_eq!(text(Cell::Record(fields)), "{\"a\": 1, \"b\": null, \"c\": [2, 3], \"d\": -4}\n");
    }

    #[test]
    fn lines() {
        for (count, expected) in [(0, "[\n]\n"), (2, "[\n  0,\n  1\n]\n")] {
            let mut out = Vec::new();
            write_lines((0..count).map(Cell::Number), &mut out).expect("written");
            assert_eq!(String::from_utf8(out).expect("text"), expected);
        }
    }
}
