//! Readings to ask: of every retained snapshot with every id that is or could be, and some more.

use std::collections::BTreeSet;

use super::page::Page;
use super::History;
use crate::calls::Reading;
use crate::lent::ABSENT;
use crate::records::{CatalogId, ColumnId, SnapshotId};

impl History {
    /// All questions at all retained snapshots, and those that take no snapshot.
    pub fn questions(&self) -> Vec<Reading> {
        let mut questions = Vec::new();
        for (snapshot, page) in &self.retained {
            self.at_snapshot(*snapshot, page, &mut questions);
            for t in [page.time.saturating_sub(1), page.time, page.time.saturating_add(1)] {
                questions.push(Reading::ByTime { t });
            }
        }
        for id in (0..=self.book.next_file_id()).chain([ABSENT]) {
            questions.push(Reading::FindFile { id });
        }
        for snapshot in (0..=self.latest + 1).chain([ABSENT]) {
            questions.push(Reading::Schemas { snapshot });
            questions.push(Reading::Rows { snapshot, table: 1 });
        }
        questions
    }

    fn at_snapshot(&self, snapshot: SnapshotId, page: &Page, questions: &mut Vec<Reading>) {
        questions.push(Reading::Schemas { snapshot });
        for id in (0..=self.book.next_catalog_id()).chain([ABSENT]) {
            questions.push(Reading::Tables { snapshot, schema: id });
            questions.push(Reading::Columns { snapshot, table: id });
            questions.push(Reading::Files { snapshot, table: id });
            questions.push(Reading::Rows { snapshot, table: id });
            for name in &self.names {
                let name = name.clone();
                questions.push(Reading::TableByName { snapshot, schema: id, name });
            }
        }
        for (table, shown) in &page.tables {
            for column in 0..=shown.columns + 1 {
                for scalar in scalars(page, *table, column) {
                    let table = *table;
                    questions.push(Reading::FilteredFiles { snapshot, table, column, scalar });
                }
            }
        }
    }
}

/// Both sides of each bound, and the ends of the scale.
fn scalars(page: &Page, table: CatalogId, column: ColumnId) -> BTreeSet<i64> {
    let mut scalars = BTreeSet::from([i64::MIN, 0, i64::MAX]);
    let files = page.tables.get(&table).into_iter().flat_map(|table| table.files.values());
    for bounds in files.filter_map(|file| file.bounds.get(&column)) {
        for bound in [bounds.min, bounds.max].into_iter().flatten() {
            scalars.extend([bound.saturating_sub(1), bound, bound.saturating_add(1)]);
        }
    }
    scalars
}
