//! The compiled calls on tables of their own, each run lent between words that no call may touch.

use crate::catalogue::Catalogue;
use crate::runs::{self, FIRST_NAMES, SIZES};
use crate::step::Step;
use gukoremo::{raw, CallList, Catalog, CatalogId, FileId, Session, SnapshotId, Tables, TablesView, Uuid};
use second::{Call, Counts, Outcome, Reading};

const MARGIN: usize = 4;
const MARGIN_WORD: u64 = 0xa5a5_a5a5_a5a5_a5a5;
const MARGIN_BYTE: u8 = 0xa5;

/// A run between its margins.
#[derive(Clone)]
struct Lent<W> {
    words: Vec<W>,
    margin: W,
}

impl<W: Copy + PartialEq> Lent<W> {
    fn new(length: usize, fill: W, margin: W) -> Lent<W> {
        let mut words = vec![margin; length + 2 * MARGIN];
        words[MARGIN..MARGIN + length].fill(fill);
        Lent { words, margin }
    }

    fn of(run: &[W], margin: W) -> Lent<W> {
        Lent { words: [&[margin; MARGIN], run, &[margin; MARGIN]].concat(), margin }
    }

    fn run(&self) -> &[W] {
        &self.words[MARGIN..self.words.len() - MARGIN]
    }

    fn run_mut(&mut self) -> &mut [W] {
        let end = self.words.len() - MARGIN;
        &mut self.words[MARGIN..end]
    }

    fn margins_hold(&self) -> bool {
        let (front, back) = (&self.words[..MARGIN], &self.words[self.words.len() - MARGIN..]);
        front.iter().chain(back).all(|word| *word == self.margin)
    }
}

#[derive(Clone)]
pub struct Proved {
    words: [Lent<u64>; 9],
    names: [Lent<u8>; 3],
    counts: Counts,
    /// Whether no call has written beside a run or beside its area.
    margins_hold: bool,
}

impl Default for Proved {
    fn default() -> Proved {
        Proved {
            words: std::array::from_fn(|_| Lent::new(0, 0, MARGIN_WORD)),
            names: std::array::from_fn(|_| Lent::new(0, 0, MARGIN_BYTE)),
            counts: Counts::default(),
            margins_hold: true,
        }
    }
}

impl Proved {
    pub fn words(&self, run: usize) -> &[u64] {
        self.words[run].run()
    }

    pub fn bytes(&self, run: usize) -> &[u8] {
        self.names[run - FIRST_NAMES].run()
    }

    pub fn margins_hold(&self) -> bool {
        self.margins_hold
    }

    /// Which line of 'Sound tables' fails first, or 0.
    pub fn first_unsound(&self) -> u64 {
        raw::first_unsound(self.view(), counts_to(&self.counts))
    }

    fn tables(&mut self) -> Tables<'_> {
        let [snapshots, schemas, tables, columns, data_files, delete_files, positions, statistics, scheduled] =
            self.words.each_mut().map(Lent::run_mut);
        let [schema_names, table_names, column_names] = self.names.each_mut().map(Lent::run_mut);
        Tables {
            snapshots,
            schemas,
            schema_names,
            tables,
            table_names,
            columns,
            column_names,
            data_files,
            delete_files,
            positions,
            statistics,
            scheduled,
        }
    }

    fn view(&self) -> TablesView<'_> {
        view(self.words.each_ref().map(Lent::run), self.names.each_ref().map(Lent::run))
    }

    /// The answer area lent between margins for a call, and given back as it was left.
    fn on_area<R>(&mut self, area: &mut [u64], call: impl FnOnce(&mut Self, &mut [u64]) -> R) -> R {
        let mut lent = Lent::of(area, MARGIN_WORD);
        let given = call(self, lent.run_mut());
        area.copy_from_slice(lent.run());
        self.margins_hold = self.margins_hold && lent.margins_hold();
        given
    }

    /// After a call that may have written the runs: the counts that it handed back, and what lies beside the runs.
    fn changed(&mut self, counts: Counts) {
        let margins_hold = self.words.iter().all(Lent::margins_hold) && self.names.iter().all(Lent::margins_hold);
        self.margins_hold = self.margins_hold && margins_hold;
        self.counts = counts;
    }

    /// Words of an area that a list's answers have room in.
    pub fn room_for(&mut self, list: &CallList) -> usize {
        let counts = counts_to(&self.counts);
        Catalog::resume(self.tables(), counts).room_for(list)
    }

    /// Plays a list of calls and readings as one call; gives how many of its records were played, and the words of their answers.
    pub fn play(&mut self, list: &CallList, area: &mut [u64], told: &mut [u64]) -> (usize, usize) {
        let session = self.on_area(area, |this, area| this.on_area(told, |this, told| this.bare_play(list, area, told)));
        self.changed(counts_of(session.counts));
        (session.played, session.answered)
    }

    fn call(&mut self, call: &Call, area: &mut [u64]) -> gukoremo::Outcome {
        let counts = counts_to(&self.counts);
        let lent = self.tables();
        match call {
            Call::Fresh { time } => raw::fresh(lent, counts, *time, area),
            Call::CreateSchema { time, name } => raw::create_schema(lent, counts, *time, name, area),
            Call::DropSchema { time, schema } => raw::drop_schema(lent, counts, *time, CatalogId(*schema), area),
            Call::CreateTable { time, schema, name, columns, column_names } => {
                raw::create_table(lent, counts, *time, CatalogId(*schema), name, columns, column_names, area)
            }
            Call::DropTable { time, table } => raw::drop_table(lent, counts, *time, CatalogId(*table), area),
            Call::Insert { time, table, record_count, uuid, statistics } => {
                raw::insert(lent, counts, *time, CatalogId(*table), *record_count, uuid_of(*uuid), statistics, area)
            }
            Call::Delete { time, data_file, uuid, positions } => {
                raw::delete(lent, counts, *time, FileId(*data_file), uuid_of(*uuid), positions, area)
            }
            Call::Expire { ids, time } => raw::expire(lent, counts, ids, *time, area),
            Call::Cleanup { t } => raw::cleanup(lent, counts, *t, area),
        }
    }

    fn reading(&self, reading: &Reading, area: &mut [u64]) -> gukoremo::Outcome {
        let counts = counts_to(&self.counts);
        let lent = self.view();
        match reading {
            Reading::Schemas { snapshot } => raw::list_schemas(lent, counts, SnapshotId(*snapshot), area),
            Reading::Tables { snapshot, schema } => raw::list_tables(lent, counts, SnapshotId(*snapshot), CatalogId(*schema), area),
            Reading::Columns { snapshot, table } => raw::list_columns(lent, counts, SnapshotId(*snapshot), CatalogId(*table), area),
            Reading::TableByName { snapshot, schema, name } => {
                raw::table_by_name(lent, counts, SnapshotId(*snapshot), CatalogId(*schema), name, area)
            }
            Reading::Files { snapshot, table } => raw::list_files(lent, counts, SnapshotId(*snapshot), CatalogId(*table), area),
            Reading::FilteredFiles { snapshot, table, column, scalar } => {
                raw::list_filtered_files(lent, counts, SnapshotId(*snapshot), CatalogId(*table), *column, *scalar, area)
            }
            Reading::Rows { snapshot, table } => raw::list_rows(lent, counts, SnapshotId(*snapshot), CatalogId(*table), area),
            Reading::ByTime { t } => raw::snapshot_by_time(lent, counts, *t, area),
            Reading::FindFile { id } => raw::copy_file(lent, counts, FileId(*id), area),
        }
    }

    /// A step and nothing beside it, to be timed: the area is not lent between margins, the counts are not those of the next call.
    pub fn bare(&mut self, step: &Step, area: &mut [u64]) -> u64 {
        match step {
            Step::Call(call) => self.call(call, area).number,
            Step::Reading(reading) => self.reading(reading, area).number,
        }
    }

    /// A list of calls likewise.
    pub fn bare_play(&mut self, list: &CallList, area: &mut [u64], told: &mut [u64]) -> Session {
        let counts = counts_to(&self.counts);
        raw::play(self.tables(), counts, &list.calls, &list.lists, &list.names, area, told)
    }

    /// The words and bytes of another's runs in the places of these, which are as long.
    pub fn write_over(&mut self, other: &Proved) {
        for (run, from) in self.words.iter_mut().zip(&other.words) {
            run.words.copy_from_slice(&from.words);
        }
        for (run, from) in self.names.iter_mut().zip(&other.names) {
            run.words.copy_from_slice(&from.words);
        }
    }

    /// The sum of every used word and name byte.
    pub fn sum(&self) -> u64 {
        let used = runs::counts(&self.counts);
        let length = |run: usize| used[runs::table_of(run)] as usize * SIZES[run];
        let words = (0..FIRST_NAMES).flat_map(|run| &self.words(run)[..length(run)]);
        let bytes = (FIRST_NAMES..SIZES.len()).flat_map(|run| &self.bytes(run)[..length(run)]);
        let sum = words.fold(0_u64, |sum, word| sum.wrapping_add(*word));
        bytes.fold(sum, |sum, byte| sum.wrapping_add(u64::from(*byte)))
    }
}

impl Catalogue for Proved {
    fn lend(&mut self, run: usize, length: usize, fill: u64) {
        match run {
            0..FIRST_NAMES => self.words[run] = Lent::new(length, fill, MARGIN_WORD),
            _ => self.names[run - FIRST_NAMES] = Lent::new(length, fill as u8, MARGIN_BYTE),
        }
    }

    fn set(&mut self, run: usize, index: usize, value: u64) {
        match run {
            0..FIRST_NAMES => {
                if let Some(word) = self.words[run].run_mut().get_mut(index) {
                    *word = value;
                }
            }
            _ => {
                if let Some(byte) = self.names[run - FIRST_NAMES].run_mut().get_mut(index) {
                    *byte = value as u8;
                }
            }
        }
    }

    fn set_counts(&mut self, counts: Counts) {
        self.counts = counts;
    }

    fn perform(&mut self, call: &Call, area: &mut [u64]) -> Outcome {
        let given = outcome_of(self.on_area(area, |this, area| this.call(call, area)));
        self.changed(given.counts);
        given
    }

    fn read(&mut self, reading: &Reading, area: &mut [u64]) -> Outcome {
        outcome_of(self.on_area(area, |this, area| this.reading(reading, area)))
    }

    fn counts(&self) -> Counts {
        self.counts
    }

    fn each_word(&self, take: &mut dyn FnMut(u64)) {
        self.words.iter().flat_map(Lent::run).for_each(|word| take(*word));
        self.names.iter().flat_map(Lent::run).for_each(|byte| take(u64::from(*byte)));
    }
}

/// The compiled check on runs that lie anywhere: which line of 'Sound tables' fails first, or 0.
pub fn first_unsound(words: [&[u64]; 9], names: [&[u8]; 3], counts: &Counts) -> u64 {
    raw::first_unsound(view(words, names), counts_to(counts))
}

fn view<'a>(words: [&'a [u64]; 9], names: [&'a [u8]; 3]) -> TablesView<'a> {
    let [snapshots, schemas, tables, columns, data_files, delete_files, positions, statistics, scheduled] = words;
    let [schema_names, table_names, column_names] = names;
    TablesView {
        snapshots,
        schemas,
        schema_names,
        tables,
        table_names,
        columns,
        column_names,
        data_files,
        delete_files,
        positions,
        statistics,
        scheduled,
    }
}

fn uuid_of((high, low): (u64, u64)) -> Uuid {
    Uuid { high, low }
}

fn counts_to(c: &Counts) -> gukoremo::Counts {
    gukoremo::Counts {
        snapshots: c.snapshots,
        schemas: c.schemas,
        tables: c.tables,
        columns: c.columns,
        data_files: c.data_files,
        delete_files: c.delete_files,
        positions: c.positions,
        statistics: c.statistics,
        scheduled: c.scheduled,
    }
}

fn counts_of(c: gukoremo::Counts) -> Counts {
    Counts {
        snapshots: c.snapshots,
        schemas: c.schemas,
        tables: c.tables,
        columns: c.columns,
        data_files: c.data_files,
        delete_files: c.delete_files,
        positions: c.positions,
        statistics: c.statistics,
        scheduled: c.scheduled,
    }
}

fn outcome_of(given: gukoremo::Outcome) -> Outcome {
    Outcome { number: given.number, place: given.place, length: given.length, counts: counts_of(given.counts) }
}
