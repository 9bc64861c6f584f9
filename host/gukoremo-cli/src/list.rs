//! Answers: a list as a table for a terminal, as CSV or as JSON; a change as a sentence, or as one record of these.

use crate::failure::Failure;
use crate::json;
use gukoremo::SnapshotId;
use std::fs::{self, File};
use std::io::{self, Read, Write};
use std::os::fd::AsFd;
use std::os::unix::fs::{FileTypeExt, MetadataExt};

#[derive(Clone, Copy, Debug, PartialEq, Eq)]
pub enum Form {
    Terminal,
    Csv,
    Json,
}

#[derive(Clone, Debug, PartialEq, Eq)]
pub enum Cell {
    Number(u64),
    Signed(i64),
    Flag(bool),
    Text(String),
    Nothing,
    Many(Vec<Cell>),
    Record(Fields),
}

/// Names with their values, in order.
pub type Fields = Vec<(&'static str, Cell)>;

impl Cell {
    /// The end of a life; nothing where it is open.
    pub fn end(end: Option<SnapshotId>) -> Cell {
        end.map_or(Cell::Nothing, |end| Cell::Number(end.0))
    }

    pub fn numbers(numbers: &[u64]) -> Cell {
        Cell::Many(numbers.iter().copied().map(Cell::Number).collect())
    }

    pub fn plain(&self) -> String {
        match self {
            Cell::Number(number) => number.to_string(),
            Cell::Signed(number) => number.to_string(),
            Cell::Flag(flag) => flag.to_string(),
            Cell::Text(text) => text.clone(),
            Cell::Nothing => String::new(),
            Cell::Many(cells) => cells.iter().map(Cell::plain).collect::<Vec<String>>().join(" "),
            Cell::Record(fields) => fields.iter().map(|(name, cell)| format!("{name} {}", cell.plain())).collect::<Vec<String>>().join(", "),
        }
    }
}

pub struct List {
    pub columns: Vec<&'static str>,
    pub rows: Vec<Vec<Cell>>,
    /// Said on a terminal, below the rows.
    pub note: &'static str,
}

impl List {
    pub fn new(columns: &[&'static str]) -> List {
        List { columns: columns.to_vec(), rows: Vec::new(), note: "" }
    }

    pub fn print(&self, form: Form) -> Result<(), Failure> {
        output(|out| self.write(form, out))
    }

    pub fn write(&self, form: Form, out: &mut dyn Write) -> io::Result<()> {
        match form {
            Form::Terminal => self.terminal(out),
            Form::Csv => self.csv(out),
            Form::Json => self.json(out),
        }
    }

    fn csv(&self, out: &mut dyn Write) -> io::Result<()> {
        let mut csv = csv::Writer::from_writer(out);
        csv.write_record(&self.columns)?;
        self.rows.iter().try_for_each(|row| csv.write_record(row.iter().map(Cell::plain)))?;
        csv.flush()
    }

    fn json(&self, out: &mut dyn Write) -> io::Result<()> {
        let records = self.rows.iter().map(|row| Cell::Record(self.columns.iter().copied().zip(row.iter().cloned()).collect()));
        json::write_lines(records, out)
    }

    /// Columns as wide as what stands in them, numbers to the right.
    fn terminal(&self, out: &mut dyn Write) -> io::Result<()> {
        let shown: Vec<Vec<String>> = self.rows.iter().map(|row| row.iter().map(Cell::plain).collect()).collect();
        let width = |at: usize| shown.iter().map(|row| row[at].chars().count()).chain([self.columns[at].len()]).max().unwrap_or(0);
        let widths: Vec<usize> = (0..self.columns.len()).map(width).collect();
        let right: Vec<bool> =
            (0..self.columns.len()).map(|at| self.rows.iter().any(|row| matches!(row[at], Cell::Number(_) | Cell::Signed(_)))).collect();
        let mut line = |cells: &[&str]| {
            let mut text = String::new();
            for (at, cell) in cells.iter().enumerate() {
                let pad = " ".repeat(widths[at].saturating_sub(cell.chars().count()));
                let (before, after) = if right[at] { (pad.as_str(), "") } else { ("", pad.as_str()) };
                text.push_str(&format!("{before}{cell}{after}  "));
            }
            writeln!(out, "{}", text.trim_end())
        };
        line(&self.columns)?;
        for row in &shown {
            line(&row.iter().map(String::as_str).collect::<Vec<&str>>())?;
        }
        if !self.note.is_empty() && !self.rows.is_empty() {
            writeln!(out, "{}", self.note)?;
        }
        Ok(())
    }
}

/// What a change says: a sentence for a terminal, its fields for a program.
pub struct Said {
    pub sentence: String,
    pub fields: Fields,
}

impl Said {
    pub fn print(&self, form: Form) -> Result<(), Failure> {
        match form {
            Form::Terminal => output(|out| writeln!(out, "{}", self.sentence)),
            Form::Csv => {
                let (columns, row): (Vec<&'static str>, Vec<Cell>) = self.fields.iter().cloned().unzip();
                List { rows: vec![row], ..List::new(&columns) }.print(form)
            }
            Form::Json => output(|out| json::write(&Cell::Record(self.fields.clone()), out)),
        }
    }
}

/// Writes to the standard output, all of it or an error.
pub fn output(write: impl FnOnce(&mut dyn Write) -> io::Result<()>) -> Result<(), Failure> {
    written(write).map(|_| ()).map_err(Failure::output)
}

/// Writes an answer to where it stays before anything is done about it: a file is synced, and an output that is closed is an error. Gives why it could not.
pub fn hand_out(write: impl FnOnce(&mut dyn Write) -> io::Result<()>) -> Result<(), String> {
    let says = |error: io::Error| format!("the system says: {error}");
    if is_closed(&standard_output().map_err(says)?) {
        return Err("the standard output is closed".to_string());
    }
    let out = written(write).map_err(says)?;
    match out.metadata() {
        Ok(of_file) if of_file.is_file() => out.sync_all().map_err(says),
        _ => Ok(()),
    }
}

fn written(write: impl FnOnce(&mut dyn Write) -> io::Result<()>) -> io::Result<File> {
    let mut out = io::BufWriter::with_capacity(1 << 16, standard_output()?);
    write(&mut out)?;
    out.into_inner().map_err(io::IntoInnerError::into_error)
}

/// The standard output as a file: std's own takes one that can't be written for one that swallows what it is given.
fn standard_output() -> io::Result<File> {
    io::stdout().as_fd().try_clone_to_owned().map(File::from)
}

/// Whether it was closed when the command began. Rust's start has then put /dev/null there, open for reading too, which that of a `> /dev/null` is not.
fn is_closed(mut out: &File) -> bool {
    let null = fs::metadata("/dev/null").and_then(|null| Ok((null.rdev(), out.metadata()?)));
    null.is_ok_and(|(null, own)| own.file_type().is_char_device() && own.rdev() == null) && out.read(&mut [0]).is_ok()
}
