//! The picture in characters: a line for each file, a column for each retained snapshot.

use super::{Column, Picture};
use crate::values::times;
use gukoremo::SnapshotId;

pub fn draw(picture: &Picture) -> String {
    let snapshots: Vec<u64> = picture.columns.iter().filter(|column| matches!(column, Column::Snapshot { .. })).map(Column::first).collect();
    let width = snapshots.last().map_or(1, |last| last.to_string().len());
    let mut lines = vec![(picture.title.clone(), snapshots.iter().map(u64::to_string).collect())];
    for (table, bars) in &picture.tables {
        lines.push((table.clone(), Vec::new()));
        for bar in bars {
            let (indent, mark) = if bar.deletes_of.is_some() { ("    ", "x") } else { ("  ", "#") };
            let cells = snapshots.iter().map(|id| if bar.life.is_live_at(SnapshotId(*id)) { mark.repeat(width) } else { String::new() });
            lines.push((format!("{indent}{} {}", bar.kind(), bar.file), cells.collect()));
        }
    }
    let first = lines.iter().map(|(label, _)| label.chars().count()).max().unwrap_or(0);
    let mut drawn = String::new();
    for (label, cells) in lines {
        let cells: String = cells.iter().map(|cell| format!(" {cell:>width$}")).collect();
        drawn += &format!("{}\n", format!("{label:<first$} {cells}").trim_end());
    }
    for file in &picture.scheduled {
        drawn += &format!("scheduled: file {}, {}, since {}\n", file.file, file.path, times::both(file.time));
    }
    for (first, last) in &picture.gone {
        drawn += &format!("gone: file {}\n", super::range(*first, *last));
    }
    drawn
}
