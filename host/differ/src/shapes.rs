//! Tables near the limits as calls leave them: ids with gaps where something has expired, names, UUIDs and positions by dice, files in no order of their tables.

use crate::runs::{COLUMNS, DATA_FILES, DELETE_FILES, FIRST_NAMES, POSITIONS, SCHEDULED, SCHEMAS, SIZES, SNAPSHOTS, STATISTICS, TABLES};
use crate::script::Line;
use second::commits::CHANGE_KINDS;
use second::dice::Dice;
use second::lent::{COLUMN_LIMIT, NAME_SIZE, POSITION_LIMIT, RECORD_LIMIT};
use second::types::Type;
use second::ABSENT;

/// How the files lie, and what has ended.
#[derive(Clone, Copy, PartialEq, Eq)]
pub enum Shape {
    /// Each table has one column, one data file, one delete file; all of them are live.
    FileEach,
    /// One table of one column has all the files; the other tables have sixteen columns each.
    OneTable,
    /// As `FileEach`, but half of all has ended, and nothing is scheduled.
    HalfEnded,
    /// As `FileEach`, but one delete file holds most of the positions.
    LongDelete,
}

pub const SHAPES: [Shape; 4] = [Shape::FileEach, Shape::OneTable, Shape::HalfEnded, Shape::LongDelete];

/// Positions of each delete file, but for the first data file's, which has one less.
const DELETED: usize = POSITION_LIMIT / RECORD_LIMIT;

/// Rows of a data file.
const ROWS: u64 = 2 * DELETED as u64;

/// Of `LongDelete`: the rows of the one data file, and the positions of its delete file. As many again have room, beside those that stay on record.
const LONG_ROWS: u64 = POSITION_LIMIT as u64;
const LONG_DELETED: usize = 20_000;

impl Shape {
    /// Words for a table of measurements.
    pub fn says(self) -> &'static str {
        match self {
            Shape::FileEach => "a file each",
            Shape::OneTable => "all files in one",
            Shape::HalfEnded => "half ended",
            Shape::LongDelete => "a long delete file",
        }
    }

    fn deleted(self, data_file: usize) -> usize {
        match (self, data_file) {
            (Shape::LongDelete, 0) => LONG_DELETED,
            (Shape::LongDelete, _) => 1,
            (_, 0) => DELETED - 1,
            _ => DELETED,
        }
    }

    fn rows(self, data_file: usize) -> u64 {
        match (self, data_file) {
            (Shape::LongDelete, 0) => LONG_ROWS,
            _ => ROWS,
        }
    }
}

/// Tables of a shape that use so many records of each sort, on runs with so many places, as the lines that write them.
pub fn tables(shape: Shape, used: usize, places: usize) -> Vec<Line> {
    let mut draft = Draft::new(shape, used);
    draft.snapshots_and_schemas();
    draft.tables_and_columns();
    draft.files();
    draft.lines(places)
}

/// The runs while they are written, names as bytes in words; and what the records are drawn from.
struct Draft {
    shape: Shape,
    used: usize,
    dice: Dice,
    runs: [Vec<u64>; 12],
    snapshots: Vec<u64>,
    catalog_ids: Vec<u64>,
    file_ids: Vec<u64>,
    /// The end of each table and of what is in it.
    ends: Vec<u64>,
}

impl Draft {
    fn new(shape: Shape, used: usize) -> Draft {
        let mut dice = Dice(used as u64);
        let snapshots = ascending(&mut dice, used);
        let (catalog_ids, file_ids) = (ascending(&mut dice, 2 * used), ascending(&mut dice, 3 * used));
        let mut ends = vec![ABSENT; used];
        if shape == Shape::HalfEnded {
            let last_quarter = &snapshots[used - used / 4..];
            for table in shuffled(&mut dice, used).into_iter().filter(|table| *table > 0).take(used / 2) {
                ends[table] = last_quarter[dice.index(last_quarter.len())];
            }
        }
        Draft { shape, used, dice, runs: Default::default(), snapshots, catalog_ids, file_ids, ends }
    }

    fn push(&mut self, run: usize, record: &[u64]) {
        self.runs[run].extend(record);
    }

    fn name(&mut self, run: usize) {
        let letters = b"abcdefghijklmnopqrstuvwxyzABCDEFGHIJKLMNOPQRSTUVWXYZ0123456789_";
        let length = NAME_SIZE / 4 + self.dice.index(NAME_SIZE - NAME_SIZE / 4 + 1);
        for at in 0..NAME_SIZE {
            let byte = if at < length { letters[self.dice.index(letters.len())] } else { 0 };
            self.runs[run].push(u64::from(byte));
        }
    }

    /// The snapshot at which a place of a table's records begins: those of a later quarter begin later, and all before the last.
    fn begin(&self, quarter: usize, place: usize) -> u64 {
        self.snapshots[(quarter * self.used + place) / 4]
    }

    /// Schemas and tables take turns in drawing their ids; tables are in the first schema, so the others can be dropped, and half of them were.
    fn snapshots_and_schemas(&mut self) {
        for place in 0..self.used {
            let (id, time) = (self.snapshots[place], 1_000 * place as u64 + self.dice.below(1_000));
            let (next_catalog_id, next_file_id) = (self.catalog_ids[2 * place + 1] + 1, self.file_ids[3 * place + 2] + 1);
            let kind = CHANGE_KINDS[self.dice.index(CHANGE_KINDS.len())];
            self.push(SNAPSHOTS, &[id, time, place as u64 / 2, next_catalog_id, next_file_id, kind, self.catalog_ids[2 * place + 1]]);
            self.push(SCHEMAS, &[self.catalog_ids[2 * place], self.begin(0, place), self.ends[place]]);
            self.name(FIRST_NAMES);
        }
    }

    fn table_id(&self, table: usize) -> u64 {
        self.catalog_ids[2 * table + 1]
    }

    fn tables_and_columns(&mut self) {
        let is_one = self.shape == Shape::OneTable;
        let tables = if is_one { 1 + (self.used - 1) / COLUMN_LIMIT } else { self.used };
        let rows: u64 = (0..self.used).map(|file| self.shape.rows(file)).sum();
        for table in 0..tables {
            let (id, begin, end) = (self.table_id(table), self.begin(0, table), self.ends[table]);
            self.push(TABLES, &[id, begin, end, self.catalog_ids[0], rows]);
            self.name(FIRST_NAMES + 1);
            let columns = if is_one && table > 0 { COLUMN_LIMIT as u64 } else { 1 };
            for column in 1..=columns {
                self.push(COLUMNS, &[column, id, begin, end, column - 1, Type::Int64 as u64, 1]);
                self.name(FIRST_NAMES + 2);
            }
        }
    }

    /// Data files, delete files and scheduled files take turns in drawing their ids.
    fn files(&mut self) {
        let tables = match self.shape {
            Shape::OneTable => vec![0; self.used],
            _ => shuffled(&mut self.dice, self.used),
        };
        let mut row = 0;
        for file in 0..self.used {
            let (id, table, end) = (self.file_ids[3 * file], self.table_id(tables[file]), self.ends[tables[file]]);
            let rows = self.shape.rows(file);
            let uuid = (self.dice.word(), self.dice.word());
            self.push(DATA_FILES, &[id, table, self.begin(1, file), end, rows, row, uuid.0, uuid.1]);
            row += rows;
            let (nulls, min, width) = (self.dice.below(rows), self.dice.below(1_000), self.dice.below(1_000));
            self.push(STATISTICS, &[id, 1, nulls, 1, 1, min, min + width]);
            if self.shape != Shape::HalfEnded {
                let record = [self.file_ids[3 * file + 2], self.dice.word(), self.dice.word(), self.dice.below(1_000)];
                self.push(SCHEDULED, &record);
            }
        }
        for (place, file) in shuffled(&mut self.dice, self.used).into_iter().enumerate() {
            let (table, end) = (self.table_id(tables[file]), self.ends[tables[file]]);
            let (id, data_file) = (self.file_ids[3 * place + 1], self.file_ids[3 * file]);
            let deleted = self.shape.deleted(file);
            let uuid = (self.dice.word(), self.dice.word());
            self.push(DELETE_FILES, &[id, table, self.begin(2, place), end, data_file, deleted as u64, uuid.0, uuid.1]);
            let positions = chosen(&mut self.dice, deleted, self.shape.rows(file));
            self.push(POSITIONS, &positions);
        }
    }

    fn lines(&self, places: usize) -> Vec<Line> {
        let mut lines = Vec::new();
        for (run, words) in self.runs.iter().enumerate() {
            let records = if run == POSITIONS { DELETED * places } else { places };
            lines.push(Line::Lend { run, length: records * SIZES[run], fill: 0 });
            let written = words.iter().enumerate().filter(|(_, value)| **value != 0);
            lines.extend(written.map(|(index, value)| Line::Set { run, index, value: *value }));
        }
        lines.push(Line::Counts(std::array::from_fn(|run| (self.runs[run].len() / SIZES[run]) as u64)));
        lines
    }
}

/// So many numbers from 0 on, with gaps of up to two.
fn ascending(dice: &mut Dice, count: usize) -> Vec<u64> {
    let mut next = 0;
    let mut draw = || {
        let number = next;
        next += 1 + dice.below(3);
        number
    };
    (0..count).map(|_| draw()).collect()
}

fn shuffled(dice: &mut Dice, count: usize) -> Vec<usize> {
    let mut places: Vec<usize> = (0..count).collect();
    for at in (1..count).rev() {
        places.swap(at, dice.index(at + 1));
    }
    places
}

/// So many of the numbers below the limit, ascending.
fn chosen(dice: &mut Dice, count: usize, limit: u64) -> Vec<u64> {
    let mut left = count as u64;
    let mut is_chosen = |number: &u64| {
        let is_chosen = dice.below(limit - number) < left;
        left -= u64::from(is_chosen);
        is_chosen
    };
    (0..limit).filter(|number| is_chosen(number)).collect()
}
