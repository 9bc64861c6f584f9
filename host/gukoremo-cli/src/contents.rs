//! What a catalogue holds, as a tree: schemas, their tables, and of each its columns, files, statistics and delete files. At a snapshot it is what the compiled
//! calls list; on record it is every record, with its begin and end.

use crate::ask;
use crate::failure::Failure;
use crate::file::Lake;
use crate::refused::ranges;
use crate::source::{in_one_list, Source, LIST_WORDS};
use crate::storage;
use gukoremo::session::CallRecord;
use gukoremo::{CatalogId, Column, DataFile, DeleteFile, FileId, Life, Schema, Snapshot, SnapshotId, Statistics, Table, Uuid};
use std::collections::{HashMap, HashSet};
use std::hash::Hash;

/// One thing, with what is said of it.
pub struct Node {
    pub kind: &'static str,
    /// The snapshot that shows it; none for a record.
    pub snapshot: Option<u64>,
    /// Where it is: `main.diary`, or a path below the data path.
    pub place: String,
    pub name: String,
    pub id: u64,
    pub fields: Vec<(&'static str, String)>,
    /// Rows or positions, in order.
    pub numbers: Option<(&'static str, Vec<u64>)>,
    pub parts: Vec<Node>,
}

impl Node {
    /// All that is said of it, in a line.
    pub fn summary(&self) -> String {
        let fields = self.fields.iter().map(|(field, value)| format!("{field} {value}"));
        let numbers =
            self.numbers.iter().map(|(what, numbers)| format!("{what} {}", if numbers.is_empty() { "none".to_string() } else { ranges(numbers) }));
        fields.chain(numbers).collect::<Vec<String>>().join(", ")
    }
}

/// The retained snapshots. Refused where the tables are not sound.
pub fn snapshots(lake: &Lake) -> Result<Vec<Node>, Failure> {
    ask::by_time(lake, u64::MAX)?;
    let node = |one: Snapshot| Node {
        kind: "snapshot",
        snapshot: Some(one.id.0),
        place: String::new(),
        name: one.id.0.to_string(),
        id: one.id.0,
        fields: vec![
            ("time", one.time.to_string()),
            ("change", one.change.to_string()),
            ("schema_version", one.schema_version.to_string()),
            ("next_catalog_id", one.next_catalog_id.0.to_string()),
            ("next_file_id", one.next_file_id.0.to_string()),
        ],
        numbers: None,
        parts: Vec::new(),
    };
    Ok(lake.records().snapshots().map(node).collect())
}

/// What a snapshot shows.
pub fn shown(lake: &mut Lake, at: SnapshotId) -> Result<Vec<Node>, Failure> {
    let index = Index::of(lake);
    in_one_list(lake, |from| Reader { from, at: Some(at), index: &index }.schemas())
}

/// Of each snapshot the tables that it shows, each with its rows alone.
pub fn rows(lake: &mut Lake, snapshots: &[SnapshotId]) -> Vec<Result<Vec<Node>, Failure>> {
    let index = Index::of(lake);
    in_one_list(lake, |from| snapshots.iter().map(|at| Reader { from, at: Some(*at), index: &index }.table_rows(*at)).collect())
}

/// How many of the first of these snapshots have their rows listed together, by the words that their lists and answers have: one at least.
pub fn together(lake: &Lake, snapshots: &[SnapshotId]) -> usize {
    let tables = (lake.counts().schemas.min(lake.view().schemas.len()) + lake.counts().tables.min(lake.view().tables.len())) as u64;
    let words = |at: &SnapshotId| {
        let live = lake.records().data_files().filter(|file| file.life.is_live_at(*at));
        live.fold(tables * CallRecord::SIZE as u64, |sum, file| sum.saturating_add(file.record_count))
    };
    let sums = snapshots.iter().map(words).scan(0, |sum: &mut u64, words| {
        *sum = sum.saturating_add(words);
        Some(*sum)
    });
    sums.take_while(|sum| *sum <= LIST_WORDS).count().max(1)
}

/// Everything on record, of tables that a call has accepted.
pub fn on_record(lake: &Lake) -> Result<Vec<Node>, Failure> {
    let index = Index::of(lake);
    let reader = Reader { from: lake, at: None, index: &index };
    let mut all = reader.schemas()?;
    all.extend(lake.records().scheduled().map(|one| {
        let node = reader.node("scheduled file", one.uuid.path(), one.uuid.path(), one.file.0);
        let fields = vec![("path_in_table", one.uuid.path()), ("id", one.file.0.to_string()), ("schedule_start", one.schedule_start.to_string())];
        Node { fields, ..node }
    }));
    Ok(all)
}

/// A value, or none where there is no such.
fn optional(value: Option<impl ToString>) -> String {
    value.map_or("none".to_string(), |value| value.to_string())
}

/// The records, each with what it is a part of.
struct Index {
    schemas: Vec<Schema>,
    /// By schema.
    tables: HashMap<CatalogId, Vec<Table>>,
    /// By table.
    columns: HashMap<CatalogId, Vec<Column>>,
    data_files: HashMap<CatalogId, Vec<DataFile>>,
    /// By data file.
    statistics: HashMap<FileId, Vec<Statistics>>,
    deletes: HashMap<FileId, Vec<(DeleteFile, Vec<u64>)>>,
}

impl Index {
    fn of(lake: &Lake) -> Index {
        let records = lake.records();
        Index {
            schemas: records.schemas().collect(),
            tables: by(records.tables(), |one| one.schema),
            columns: by(records.columns(), |one| one.table),
            data_files: by(records.data_files(), |one| one.table),
            statistics: by(records.statistics(), |one| one.data_file),
            deletes: by(records.deletes().map(|(one, positions)| (one, positions.to_vec())), |(one, _)| one.data_file),
        }
    }
}

/// Records by a key, in their order.
fn by<Key: Eq + Hash, Item>(items: impl Iterator<Item = Item>, key: impl Fn(&Item) -> Key) -> HashMap<Key, Vec<Item>> {
    let mut found: HashMap<Key, Vec<Item>> = HashMap::new();
    items.for_each(|item| found.entry(key(&item)).or_default().push(item));
    found
}

/// Those of a key.
fn of<Key: Eq + Hash, Item>(index: &HashMap<Key, Vec<Item>>, key: Key) -> impl Iterator<Item = &Item> {
    index.get(&key).into_iter().flatten()
}

struct Reader<'a> {
    from: &'a dyn Source,
    /// None is everything on record.
    at: Option<SnapshotId>,
    index: &'a Index,
}

impl Reader<'_> {
    fn node(&self, kind: &'static str, place: String, name: String, id: u64) -> Node {
        Node { kind, snapshot: self.at.map(|at| at.0), place, name, id, fields: Vec::new(), numbers: None, parts: Vec::new() }
    }

    /// A record's first and last words: what it is called, its id, and on record its life. A later snapshot may still end what an earlier one shows.
    fn fields(&self, name: (&'static str, &str), id: u64, own: &[(&'static str, String)], life: Life) -> Vec<(&'static str, String)> {
        let mut fields = vec![(name.0, name.1.to_string()), ("id", id.to_string())];
        fields.extend_from_slice(own);
        if self.at.is_none() {
            fields.extend([("begin", life.begin.to_string()), ("end", optional(life.end))]);
        }
        fields
    }

    /// What a reading lists at the snapshot; none where everything on record is meant.
    fn listed<Id: Eq + Hash>(&self, list: impl FnOnce(SnapshotId) -> Result<Vec<Id>, Failure>) -> Result<Option<HashSet<Id>>, Failure> {
        Ok(self.at.map(list).transpose()?.map(|ids| ids.into_iter().collect()))
    }

    fn schemas(&self) -> Result<Vec<Node>, Failure> {
        let listed = self.listed(|at| ask::schemas(self.from, at))?;
        let mut nodes = Vec::new();
        for one in self.index.schemas.iter().filter(|one| is_in(&listed, &one.id)) {
            let fields = self.fields(("name", &one.name), one.id.0, &[], one.life);
            let parts = self.tables(one)?;
            nodes.push(Node { fields, parts, ..self.node("schema", one.name.clone(), one.name.clone(), one.id.0) });
        }
        Ok(nodes)
    }

    fn listed_tables(&self, schema: &Schema) -> Result<Vec<&Table>, Failure> {
        let listed = self.listed(|at| ask::tables(self.from, at, schema.id))?;
        Ok(of(&self.index.tables, schema.id).filter(|one| is_in(&listed, &one.id)).collect())
    }

    fn rows(&self, table: &Table) -> Result<Option<(&'static str, Vec<u64>)>, Failure> {
        let listed = self.at.map(|at| ask::rows(self.from, at, table.id)).transpose()?;
        Ok(listed.map(|rows| ("rows", rows.into_iter().map(|row| row.0).collect())))
    }

    fn table_rows(&self, at: SnapshotId) -> Result<Vec<Node>, Failure> {
        let mut all = Vec::new();
        for schema in self.index.schemas.iter().filter(|schema| schema.life.is_live_at(at)) {
            for table in self.listed_tables(schema)? {
                let node = self.node("table", format!("{}.{}", schema.name, table.name), table.name.clone(), table.id.0);
                all.push(Node { numbers: self.rows(table)?, ..node });
            }
        }
        Ok(all)
    }

    fn tables(&self, schema: &Schema) -> Result<Vec<Node>, Failure> {
        let mut nodes = Vec::new();
        for one in self.listed_tables(schema)? {
            // inserts after a snapshot move it
            let next_row_id = [("next_row_id", one.next_row_id.0.to_string())];
            let own = if self.at.is_none() { &next_row_id[..] } else { &[] };
            let fields = self.fields(("name", &one.name), one.id.0, own, one.life);
            let place = format!("{}.{}", schema.name, one.name);
            let mut parts = self.columns(one, &place)?;
            parts.extend(self.data_files(one, &storage::folder(&schema.name, &one.name))?);
            nodes.push(Node { fields, numbers: self.rows(one)?, parts, ..self.node("table", place, one.name.clone(), one.id.0) });
        }
        Ok(nodes)
    }

    fn columns(&self, table: &Table, table_place: &str) -> Result<Vec<Node>, Failure> {
        let listed = self.listed(|at| ask::columns(self.from, at, table.id))?;
        let node = |one: &Column| {
            let own = [("order", one.order.to_string()), ("type", one.column_type.to_string()), ("nulls_allowed", one.nulls_allowed.to_string())];
            let fields = self.fields(("name", &one.name), one.id, &own, one.life);
            Node { fields, ..self.node("column", format!("{table_place}.{}", one.name), one.name.clone(), one.id) }
        };
        Ok(of(&self.index.columns, table.id).filter(|one| is_in(&listed, &one.id)).map(node).collect())
    }

    fn data_files(&self, table: &Table, folder: &str) -> Result<Vec<Node>, Failure> {
        let pairs = self.at.map(|at| ask::files(self.from, at, table.id, None)).transpose()?;
        let listed: Option<HashSet<FileId>> =
            pairs.map(|pairs| pairs.iter().flat_map(|pair| [Some(pair.data_file), pair.delete_file]).flatten().collect());
        let node = |one: &DataFile| {
            let mut parts = self.statistics(one, folder);
            let deletes = of(&self.index.deletes, one.id).filter(|(deletes, _)| is_in(&listed, &deletes.id));
            parts.extend(deletes.map(|(deletes, positions)| self.delete_file(deletes, positions, folder)));
            let own = [("record_count", one.record_count.to_string()), ("row_id_start", one.row_id_start.0.to_string())];
            let fields = self.fields(("path", &one.uuid.path()), one.id.0, &own, one.life);
            Node { fields, parts, ..self.file("data file", one.uuid, folder, one.id.0) }
        };
        Ok(of(&self.index.data_files, table.id).filter(|one| is_in(&listed, &one.id)).map(node).collect())
    }

    fn file(&self, kind: &'static str, uuid: Uuid, folder: &str, id: u64) -> Node {
        self.node(kind, format!("{folder}{}", uuid.path()), uuid.path(), id)
    }

    fn delete_file(&self, one: &DeleteFile, positions: &[u64], folder: &str) -> Node {
        let own = [("delete_count", one.delete_count.to_string())];
        let fields = self.fields(("path", &one.uuid.path()), one.id.0, &own, one.life);
        Node { fields, numbers: Some(("positions", positions.to_vec())), ..self.file("delete file", one.uuid, folder, one.id.0) }
    }

    /// A record for each column; a column's life is its table's.
    fn statistics(&self, file: &DataFile, folder: &str) -> Vec<Node> {
        let column_name = |id: u64| {
            let found = of(&self.index.columns, file.table).find(|column| column.id == id);
            found.map_or(id.to_string(), |column| column.name.clone())
        };
        let node = |one: &Statistics| {
            let name = column_name(one.column);
            let fields = vec![("null_count", one.null_count.to_string()), ("min", optional(one.min)), ("max", optional(one.max))];
            Node { fields, ..self.node("statistics", format!("{folder}{}, column {name}", file.uuid.path()), name, one.column) }
        };
        of(&self.index.statistics, file.id).map(node).collect()
    }
}

/// Whether something is listed; where nothing was asked, all is.
fn is_in<Id: Eq + Hash>(listed: &Option<HashSet<Id>>, id: &Id) -> bool {
    listed.as_ref().is_none_or(|ids| ids.contains(id))
}
