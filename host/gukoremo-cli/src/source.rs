//! Where answers come from: a compiled call for each reading, or one list of all that will be asked, for which the tables are judged once.

use crate::ask::timed;
use crate::file::Lake;
use gukoremo::number::COLUMN_LIMIT;
use gukoremo::{raw, CallList, CatalogId, Column, Counts, Life, Outcome, Refusal, SnapshotId, Table, TablesView};
use std::cell::{OnceCell, RefCell};
use std::collections::{HashMap, HashSet};

/// As many words as one answer can have: 2 GiB of them.
pub const MOST_WORDS: u64 = 1 << 28;

/// As many words as the answers of a list have room for: 32 MiB. A longer answer is asked for by itself.
pub const LIST_WORDS: u64 = 1 << 22;

/// A reading, with what it takes.
#[derive(Clone, Debug, PartialEq, Eq, Hash)]
pub enum Reading {
    ByTime(u64),
    Schemas(SnapshotId),
    Tables(SnapshotId, CatalogId),
    Columns(SnapshotId, CatalogId),
    TableByName(SnapshotId, CatalogId, String),
    /// With a column and a value those that may hold a row with it.
    Files(SnapshotId, CatalogId, Option<(u64, i64)>),
    Rows(SnapshotId, CatalogId),
}

impl Reading {
    fn call(&self, lent: TablesView<'_>, counts: Counts, area: &mut [u64]) -> Outcome {
        match self {
            Reading::ByTime(time) => raw::snapshot_by_time(lent, counts, *time, area),
            Reading::Schemas(at) => raw::list_schemas(lent, counts, *at, area),
            Reading::Tables(at, schema) => raw::list_tables(lent, counts, *at, *schema, area),
            Reading::Columns(at, table) => raw::list_columns(lent, counts, *at, *table, area),
            Reading::TableByName(at, schema, name) => raw::table_by_name(lent, counts, *at, *schema, name.as_bytes(), area),
            Reading::Files(at, table, None) => raw::list_files(lent, counts, *at, *table, area),
            Reading::Files(at, table, Some((column, scalar))) => raw::list_filtered_files(lent, counts, *at, *table, *column, *scalar, area),
            Reading::Rows(at, table) => raw::list_rows(lent, counts, *at, *table, area),
        }
    }

    fn push(&self, list: &mut CallList) {
        match self {
            Reading::ByTime(time) => list.push_snapshot_by_time(*time),
            Reading::Schemas(at) => list.push_list_schemas(*at),
            Reading::Tables(at, schema) => list.push_list_tables(*at, *schema),
            Reading::Columns(at, table) => list.push_list_columns(*at, *table),
            Reading::TableByName(at, schema, name) => list.push_table_by_name(*at, *schema, name),
            Reading::Files(at, table, None) => list.push_list_files(*at, *table),
            Reading::Files(at, table, Some((column, scalar))) => list.push_list_filtered_files(*at, *table, *column, *scalar),
            Reading::Rows(at, table) => list.push_list_rows(*at, *table),
        }
    }

    /// Words that the answer has at most; tables that are not sound are refused whatever the area.
    pub fn most(&self, sizes: &Sizes) -> u64 {
        let files = |table: &CatalogId| sizes.files.get(table).map_or(&[][..], Vec::as_slice);
        match self {
            Reading::ByTime(_) | Reading::TableByName(..) => 1,
            Reading::Schemas(_) => sizes.schemas,
            Reading::Tables(_, schema) => sizes.tables.get(schema).copied().unwrap_or(0),
            Reading::Columns(..) => COLUMN_LIMIT as u64,
            Reading::Files(_, table, _) => 2 * files(table).len() as u64,
            Reading::Rows(at, table) => {
                let live = files(table).iter().filter(|(life, _)| life.is_live_at(*at));
                live.fold(0, |sum: u64, (_, rows)| sum.saturating_add(*rows))
            }
        }
    }
}

/// How much of everything there is on record.
pub struct Sizes {
    schemas: u64,
    /// By schema.
    tables: HashMap<CatalogId, u64>,
    /// By table: the life of each data file, and its rows.
    files: HashMap<CatalogId, Vec<(Life, u64)>>,
}

impl Sizes {
    pub fn of(lake: &Lake) -> Sizes {
        let records = lake.records();
        let mut sizes = Sizes { schemas: records.schemas().count() as u64, tables: HashMap::new(), files: HashMap::new() };
        records.tables().for_each(|table| *sizes.tables.entry(table.schema).or_default() += 1);
        records.data_files().for_each(|file| sizes.files.entry(file.table).or_default().push((file.life, file.record_count)));
        sizes
    }
}

/// A catalogue that answers readings.
pub trait Source {
    fn lake(&self) -> &Lake;

    fn answer(&self, reading: &Reading) -> Result<Vec<u64>, Refusal>;
}

/// A call for each reading, with an area that has room for any answer, so that one is enough.
impl Source for Lake {
    fn lake(&self) -> &Lake {
        self
    }

    fn answer(&self, reading: &Reading) -> Result<Vec<u64>, Refusal> {
        // more than can be held is asked for with no room at all: if nothing else is amiss, that is the answer
        let most = reading.most(&Sizes::of(self));
        let mut area = vec![0; if most <= MOST_WORDS { most as usize } else { 0 }];
        let given = Refusal::judge(timed(|| reading.call(self.view(), self.counts(), &mut area)))?;
        area.truncate(given.length);
        Ok(area)
    }
}

/// Reads with few calls. What will be asked is found by reading once from [`Guess`], whose answers nobody sees; then it is asked in a list, and what is given
/// is read from those answers. A reading that was not foreseen is a call by itself, so the guesses decide how many calls there are and nothing else.
pub fn in_one_list<Given>(lake: &mut Lake, read: impl Fn(&dyn Source) -> Given) -> Given {
    let guess = Guess::new(lake);
    read(&guess);
    let asked = guess.asked.into_inner();
    let answers = if asked.len() > 1 { play(lake, &asked) } else { HashMap::new() };
    read(&Known { lake, answers })
}

/// The answers of a list: of a few lists where they have no room in one.
fn play(lake: &mut Lake, asked: &[Reading]) -> HashMap<Reading, Result<Vec<u64>, Refusal>> {
    let sizes = Sizes::of(lake);
    let sized = asked.iter().map(|reading| (reading, reading.most(&sizes)));
    let sized: Vec<(&Reading, u64)> = sized.filter(|(_, most)| *most <= LIST_WORDS).collect();
    let mut answers = HashMap::new();
    let mut rest = &sized[..];
    while !rest.is_empty() {
        let (mut list, mut room) = (CallList::new(), 0);
        for (reading, most) in rest {
            if room + most > LIST_WORDS {
                break;
            }
            room += most;
            reading.push(&mut list);
        }
        let mut area = vec![0; room as usize];
        let given = timed(|| lake.play(&list, &mut area));
        let (played, later) = rest.split_at(list.len());
        // what found no room is asked for by itself
        let given = played.iter().zip(given).filter(|(_, given)| *given != Err(Refusal::ShortAnswerArea));
        answers.extend(given.map(|((reading, _), given)| ((*reading).clone(), given.map(<[u64]>::to_vec))));
        rest = later;
    }
    answers
}

/// The answers of a list, and calls for what it did not ask.
struct Known<'a> {
    lake: &'a Lake,
    answers: HashMap<Reading, Result<Vec<u64>, Refusal>>,
}

impl Source for Known<'_> {
    fn lake(&self) -> &Lake {
        self.lake
    }

    fn answer(&self, reading: &Reading) -> Result<Vec<u64>, Refusal> {
        self.answers.get(reading).cloned().unwrap_or_else(|| self.lake.answer(reading))
    }
}

/// What the records say as they lie, sound or not: the ids that another reading may take, and no files or rows. It notes what it is asked.
struct Guess<'a> {
    lake: &'a Lake,
    /// Read where they are needed, and once.
    tables: OnceCell<Vec<Table>>,
    columns: OnceCell<Vec<Column>>,
    seen: RefCell<HashSet<Reading>>,
    asked: RefCell<Vec<Reading>>,
}

impl Guess<'_> {
    fn new(lake: &Lake) -> Guess<'_> {
        Guess { lake, tables: OnceCell::new(), columns: OnceCell::new(), seen: RefCell::default(), asked: RefCell::default() }
    }

    fn tables(&self, at: SnapshotId, schema: CatalogId) -> impl Iterator<Item = &Table> {
        let tables = self.tables.get_or_init(|| self.lake.records().tables().collect());
        tables.iter().filter(move |table| table.schema == schema && table.life.is_live_at(at))
    }

    fn columns(&self, at: SnapshotId, table: CatalogId) -> impl Iterator<Item = &Column> {
        let columns = self.columns.get_or_init(|| self.lake.records().columns().collect());
        columns.iter().filter(move |column| column.table == table && column.life.is_live_at(at))
    }
}

impl Source for Guess<'_> {
    fn lake(&self) -> &Lake {
        self.lake
    }

    fn answer(&self, reading: &Reading) -> Result<Vec<u64>, Refusal> {
        if self.seen.borrow_mut().insert(reading.clone()) {
            self.asked.borrow_mut().push(reading.clone());
        }
        let one = |found: Option<u64>, refusal: Refusal| found.map(|id| vec![id]).ok_or(refusal);
        match reading {
            Reading::ByTime(time) => {
                let found = self.lake.records().snapshots().rev().find(|snapshot| snapshot.time <= *time);
                one(found.map(|snapshot| snapshot.id.0), Refusal::NoSnapshotByThen)
            }
            Reading::Schemas(at) => {
                let live = self.lake.records().schemas().filter(|schema| schema.life.is_live_at(*at));
                Ok(live.map(|schema| schema.id.0).collect())
            }
            Reading::Tables(at, schema) => Ok(self.tables(*at, *schema).map(|table| table.id.0).collect()),
            Reading::Columns(at, table) => Ok(self.columns(*at, *table).map(|column| column.id).collect()),
            Reading::TableByName(at, schema, name) => {
                one(self.tables(*at, *schema).find(|table| table.name == *name).map(|table| table.id.0), Refusal::NotLive)
            }
            Reading::Files(..) | Reading::Rows(..) => Ok(Vec::new()),
        }
    }
}
