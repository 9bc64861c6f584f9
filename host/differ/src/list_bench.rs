//! Lists of a thousand inserts, and of a thousand readings of each kind, as one call plays them: beside the check, a plain pass, the same calls one by one, and
//! SQLite with statements that are prepared once.

use crate::call_words::push;
use crate::catalogue::Catalogue;
use crate::limits;
use crate::play::Pair;
use crate::proved::Proved;
use crate::published;
use crate::runs::{DATA_FILES, SIZES};
use crate::shapes::Shape;
use crate::sqlite::{Prepared, INDEXES};
use crate::step::{self, Step};
use crate::timed::{time, Timed};
use gukoremo::session::TOLD_SIZE;
use gukoremo::CallList;
use second::dice::Dice;
use second::lent::RECORD_LIMIT;
use second::{load, Call, Catalog, Reading};
use std::fmt::Write as _;
use std::time::Duration;

/// Calls, or readings, of a list.
const LENGTH: usize = 1_000;

/// Rounds of the list and of SQLite, and of the check and the pass by turns: the least is taken. The calls one by one have one round.
const ROUNDS: usize = 3;
const PASSES: usize = 400;

/// Words that all answers of a list have room in: two for each data file.
const ROOM: usize = LENGTH * 2 * RECORD_LIMIT;

/// The readings that are asked where all files are in one table.
const OF_ONE_TABLE: [&str; 2] = ["list_files", "list_filtered_files"];

/// Records of each sort on which so many inserts have room, and a sixteenth of the limit; those of the readings.
const BEFORE_INSERTS: [usize; 2] = [RECORD_LIMIT - LENGTH, RECORD_LIMIT / 16];
const BEFORE_READINGS: [usize; 2] = [RECORD_LIMIT, RECORD_LIMIT / 16];

/// A table of ratios.
pub fn run() -> Result<String, String> {
    let mut text = format!(
        "Lists of {LENGTH}, measured in one run: the least of {ROUNDS} rounds of list and SQLite, and of {PASSES} passes and checks; one round of the calls one by \
         one.\n\n\
         | {LENGTH} of | tables | records | checks | plain passes | one by one | SQLite | SQLite, indexed |\n|---|---|---|---|---|---|---|---|\n"
    );
    for records in BEFORE_INSERTS {
        let mut tables = Tables::new(Shape::FileEach, records, records + LENGTH)?;
        let steps = inserts(&tables.catalog);
        let _ = writeln!(text, "{}", tables.row(&steps)?);
    }
    for records in BEFORE_READINGS {
        for shape in [Shape::FileEach, Shape::OneTable] {
            let mut tables = Tables::new(shape, records, records)?;
            for steps in readings(&tables.catalog) {
                if shape == Shape::FileEach || OF_ONE_TABLE.contains(&step::name(&steps[0])) {
                    let _ = writeln!(text, "{}", tables.row(&steps)?);
                }
            }
        }
    }
    Ok(text.trim_end().to_string())
}

/// Tables of a shape; the least times of a check of them and of a pass over them.
struct Tables {
    shape: Shape,
    records: usize,
    full: Pair,
    catalog: Catalog,
    check: Duration,
    pass: Duration,
    area: Vec<u64>,
}

impl Tables {
    fn new(shape: Shape, records: usize, places: usize) -> Result<Tables, String> {
        let (full, _) = limits::full(shape, records, places)?;
        let catalog = load(&full.second.words, &full.second.counts).map_err(|unsound| format!("{unsound:?}"))?;
        let mut timed = Timed::new(full.proved.clone());
        let (mut check, mut pass) = (Duration::MAX, Duration::MAX);
        for _ in 0..PASSES {
            check = check.min(timed.check());
            pass = pass.min(timed.pass());
        }
        Ok(Tables { shape, records, full, catalog, check, pass, area: vec![1; ROOM] })
    }

    fn row(&mut self, steps: &[Step]) -> Result<String, String> {
        let (name, shape, records) = (step::name(&steps[0]), self.shape.says(), self.records);
        let (list, answered, after) = self.list(steps)?;
        let one_by_one = self.one_by_one(steps)?;
        let ratio = |time: Duration, to: Duration| format!("{:.2}", time.as_secs_f64() / to.as_secs_f64());
        let mut row = format!("| `{name}` | {shape} | {records} |");
        for ratio in [ratio(list, self.check), ratio(list, self.pass), ratio(one_by_one, list)] {
            let _ = write!(row, " {ratio} |");
        }
        for indexes in ["", INDEXES] {
            let sqlite = match &steps[0] {
                Step::Call(_) => Some(self.sqlite_inserts(steps, &after, indexes)?),
                Step::Reading(reading) => published::prepared(reading).map(|_| self.sqlite_readings(steps, answered, indexes)).transpose()?,
            };
            let _ = write!(row, " {} |", sqlite.map_or("–".to_string(), |time| ratio(time, list)));
        }
        Ok(row)
    }

    /// The list as one call, each time on a copy written just before; the words of its answers, and the tables that it leaves. Every step must be accepted.
    fn list(&mut self, steps: &[Step]) -> Result<(Duration, usize, Proved), String> {
        let mut list = CallList::new();
        steps.iter().for_each(|step| push(&mut list, step));
        let mut told = vec![1; steps.len() * TOLD_SIZE];
        let mut copy = self.full.proved.clone();
        let (mut least, mut session) = (Duration::MAX, None);
        for _ in 0..ROUNDS {
            copy.write_over(&self.full.proved);
            least = least.min(time(|| session = Some(copy.bare_play(&list, &mut self.area, &mut told))));
        }
        let session = session.ok_or("no round")?;
        match told.chunks(TOLD_SIZE).position(|told| told[0] != 0) {
            Some(at) => Err(format!("{:?} gives {} in the list", steps[at], told[TOLD_SIZE * at])),
            None if session.played != steps.len() => Err(format!("{} of {} steps were played", session.played, steps.len())),
            None => Ok((least, session.answered, copy)),
        }
    }

    /// The same steps as single calls, each on what the one before left.
    fn one_by_one(&mut self, steps: &[Step]) -> Result<Duration, String> {
        let mut tables = self.full.proved.clone();
        let area = &mut self.area[..limits::ROOM];
        let mut refused = 0;
        let took = time(|| {
            for step in steps {
                refused += match step {
                    Step::Call(call) => tables.perform(call, &mut []).number,
                    Step::Reading(_) => tables.bare(step, area),
                };
            }
        });
        match refused {
            0 => Ok(took),
            _ => Err(format!("a {} by itself is refused", step::name(&steps[0]))),
        }
    }

    /// The query of each reading. It must give as many rows as the list gives answers, of one word or, of files, of two.
    fn sqlite_readings(&self, steps: &[Step], answered: usize, indexes: &str) -> Result<Duration, String> {
        let queries: Vec<_> =
            steps.iter().filter_map(|step| if let Step::Reading(reading) = step { published::prepared(reading) } else { None }).collect();
        let words = if OF_ONE_TABLE.contains(&step::name(&steps[0])) { 2 } else { 1 };
        let prepared = Prepared::new(&self.full.second, indexes)?;
        let mut least = Duration::MAX;
        for _ in 0..ROUNDS {
            let mut rows = Ok(0);
            least = least.min(prepared.timed(&queries[0].0, |statement| rows = queries.iter().map(|(_, values)| statement.rows(values)).sum())?);
            if rows.as_ref() != Ok(&(answered / words)) {
                return Err(format!("{}: {rows:?} rows, and {} answers", queries[0].0, answered / words));
            }
        }
        Ok(least)
    }

    /// The statements of each insert, all in one transaction. The data files must be those that the list leaves, with the same first rows.
    fn sqlite_inserts(&self, steps: &[Step], after: &Proved, indexes: &str) -> Result<Duration, String> {
        let statements = published::insert_statements(&self.catalog, steps);
        let mut least = Duration::MAX;
        for _ in 0..ROUNDS {
            let prepared = Prepared::new(&self.full.second, indexes)?;
            least = least.min(prepared.transaction(&statements)?);
            let files = self.records + steps.len();
            let left = after.words(DATA_FILES).chunks(SIZES[DATA_FILES]).take(files).map(|file| (file[0] as i64, file[5] as i64));
            if !prepared.first_rows()?.into_iter().eq(left) {
                return Err("SQLite has other data files than the list leaves".to_string());
            }
        }
        Ok(least)
    }
}

/// Inserts into tables by dice, of rows, UUIDs and bounds by dice.
fn inserts(catalog: &Catalog) -> Vec<Step> {
    let mut dice = Dice(LENGTH as u64);
    let tables: Vec<u64> = catalog.tables.keys().copied().collect();
    let mut time = catalog.latest().1.time;
    let mut insert = || {
        time += dice.below(1_000);
        let (table, record_count) = (tables[dice.index(tables.len())], 1 + dice.below(1_000));
        let (uuid, min) = ((dice.word(), dice.word()), dice.below(1_000));
        let statistics = vec![1, dice.below(record_count), 1, 1, min, min + dice.below(1_000)];
        Step::Call(Call::Insert { time, table, record_count, uuid, statistics })
    };
    (0..LENGTH).map(|_| insert()).collect()
}

/// Of each kind a list of readings, by dice: of tables, files, times and scalars, at snapshots of the last quarter, where all is live.
fn readings(catalog: &Catalog) -> Vec<Vec<Step>> {
    let mut dice = Dice(LENGTH as u64);
    let snapshots: Vec<u64> = catalog.snapshots.keys().copied().collect();
    let late = &snapshots[snapshots.len() - snapshots.len() / 4..];
    let tables: Vec<(u64, u64, Vec<u8>)> = catalog.tables.iter().map(|(id, table)| (*id, table.schema, published::name(table))).collect();
    let files: Vec<u64> = catalog.data_files.keys().chain(catalog.delete_files.keys()).copied().collect();
    let times: Vec<u64> = catalog.snapshots.values().map(|snapshot| snapshot.time).collect();
    let mut of_kind = |kind: usize| {
        let snapshot = late[dice.index(late.len())];
        let (table, schema, name) = tables[dice.index(tables.len())].clone();
        let busiest = if catalog.data_files.values().all(|file| file.table == tables[0].0) { tables[0].0 } else { table };
        match kind {
            0 => Reading::Schemas { snapshot },
            1 => Reading::Tables { snapshot, schema },
            2 => Reading::Columns { snapshot, table },
            3 => Reading::TableByName { snapshot, schema, name },
            4 => Reading::Files { snapshot, table: busiest },
            5 => Reading::FilteredFiles { snapshot, table: busiest, column: 1, scalar: dice.below(2_000) as i64 },
            6 => Reading::Rows { snapshot, table },
            7 => Reading::ByTime { t: times[0] + dice.below(times[times.len() - 1] - times[0]) },
            _ => Reading::FindFile { id: files[dice.index(files.len())] },
        }
    };
    (0..9).map(|kind| (0..LENGTH).map(|_| Step::Reading(of_kind(kind))).collect()).collect()
}
