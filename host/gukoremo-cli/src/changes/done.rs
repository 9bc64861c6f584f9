//! What a change did, and how it is said.

use crate::list::{Cell, Fields, Form, List, Said};
use crate::refused::ranges;
use crate::storage;
use gukoremo::Handed;
use std::io::{self, Write};

pub enum Done {
    Commit(Said),
    /// The snapshots that went, and the files that are now scheduled, with the paths that they had on record: an expiry is the last to know their tables.
    Expiry {
        snapshots: Vec<u64>,
        scheduled: Vec<(u64, String)>,
    },
    Cleanup(Vec<Handed>),
}

impl Done {
    /// In a sentence.
    pub fn sentence(&self) -> String {
        match self {
            Done::Commit(said) => said.sentence.clone(),
            Done::Expiry { snapshots, scheduled } => {
                let ids: Vec<u64> = scheduled.iter().map(|(id, _)| *id).collect();
                let files = if ids.is_empty() { "no file is scheduled".to_string() } else { format!("files scheduled: {}", ranges(&ids)) };
                format!("expired {}; {files}", ranges(snapshots))
            }
            Done::Cleanup(handed) => format!("files handed out: {}", handed.len()),
        }
    }

    /// For a program.
    pub fn fields(&self) -> Fields {
        match self {
            Done::Commit(said) => said.fields.clone(),
            Done::Expiry { snapshots, scheduled } => {
                let file = |(id, path): &(u64, String)| Cell::Record(vec![("file", Cell::Number(*id)), ("path", Cell::Text(path.clone()))]);
                vec![("expired", Cell::numbers(snapshots)), ("scheduled", Cell::Many(scheduled.iter().map(file).collect()))]
            }
            Done::Cleanup(_) => {
                let List { columns, rows, .. } = self.list();
                let files = rows.into_iter().map(|row| Cell::Record(columns.iter().copied().zip(row).collect()));
                vec![("files", Cell::Many(files.collect()))]
            }
        }
    }

    /// The same as rows.
    fn list(&self) -> List {
        match self {
            Done::Commit(said) => {
                let (columns, row): (Vec<&'static str>, Vec<Cell>) = said.fields.iter().cloned().unzip();
                List { rows: vec![row], ..List::new(&columns) }
            }
            Done::Expiry { scheduled, .. } => {
                let rows = scheduled.iter().map(|(id, path)| vec![Cell::Number(*id), Cell::Text(path.clone())]).collect();
                List { rows, ..List::new(&["file", "path"]) }
            }
            Done::Cleanup(handed) => {
                let rows = handed.iter().map(|file| vec![Cell::Number(file.file.0), Cell::Text(file.uuid.path())]).collect();
                List { rows, note: storage::NO_TABLE, ..List::new(&["file", "path_in_table"]) }
            }
        }
    }

    /// As the change alone answers.
    pub fn write(&self, form: Form, out: &mut dyn Write) -> io::Result<()> {
        match (self, form) {
            (Done::Commit(said), Form::Terminal) => writeln!(out, "{}", said.sentence),
            (Done::Expiry { scheduled, .. }, Form::Terminal) => {
                writeln!(out, "{}", self.sentence())?;
                scheduled.iter().try_for_each(|(id, path)| writeln!(out, "  {id}  {path}"))
            }
            (Done::Commit(_) | Done::Expiry { .. }, Form::Json) => crate::json::write(&Cell::Record(self.fields()), out),
            _ => self.list().write(form, out),
        }
    }
}
