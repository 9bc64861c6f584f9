//! Tables with all but a few of the records that are allowed, on runs that lend more. Calls of every sort on them, compared.

use crate::play::{self, Pair};
use crate::script::{self, Line};
use crate::shapes::{self, Shape};
use crate::step::Step;
use crate::tally::Tally;
use second::diary::name_places;
use second::lent::{COLUMN_LIMIT, RECORD_LIMIT};
use second::{load, Call, Catalog, Reading, ABSENT};
use std::collections::BTreeMap;

/// Words of an area that every answer on such tables fits in, 16 rows of each data file among them.
pub const ROOM: usize = 16 * RECORD_LIMIT;

/// What calls on such tables name, all of it live at the latest snapshot.
struct Named {
    snapshot: u64,
    /// The table with the most data files, the one with the most columns, the last.
    busiest: u64,
    widest: u64,
    last: u64,
    /// A schema without tables.
    empty: u64,
    /// The first data file with its deleted positions.
    data_file: u64,
    deleted: Vec<u64>,
    rows: u64,
    delete_file: u64,
}

fn named(catalog: &Catalog) -> Option<Named> {
    let snapshot = catalog.latest_id();
    let live = || catalog.tables.iter().filter(|(_, table)| table.life.is_live_at(snapshot)).map(|(id, _)| *id);
    let mut files = BTreeMap::new();
    for file in catalog.data_files.values().filter(|file| file.life.is_live_at(snapshot)) {
        *files.entry(file.table).or_insert(0) += 1;
    }
    let (data_file, record) = catalog.data_files.iter().find(|(_, file)| file.life.is_live_at(snapshot))?;
    let delete_file = catalog.delete_files_at(snapshot).get(data_file).copied()?;
    let mut schemas = catalog.schemas.iter().filter(|(_, schema)| schema.life.is_live_at(snapshot)).map(|(id, _)| *id);
    Some(Named {
        snapshot,
        busiest: live().max_by_key(|table| files.get(table).copied().unwrap_or(0))?,
        widest: live().max_by_key(|table| catalog.columns_of(*table).count())?,
        last: live().next_back()?,
        empty: schemas.rfind(|schema| catalog.tables.values().all(|table| table.schema != *schema))?,
        data_file: *data_file,
        deleted: catalog.delete_files[&delete_file].positions.iter().copied().collect(),
        rows: record.record_count,
        delete_file,
    })
}

/// Calls of every sort; of each that such tables can accept the costliest first.
fn calls(catalog: &Catalog, named: &Named) -> Vec<Call> {
    let (time, uuid) = (ABSENT, (9, 9));
    let schema = catalog.tables[&named.last].schema;
    let create_table = |columns: usize| {
        let names: Vec<String> = (0..columns).map(|column| format!("column{column}")).collect();
        let names: Vec<&str> = names.iter().map(String::as_str).collect();
        Call::CreateTable { time, schema, name: b"more".to_vec(), columns: [4, 1].repeat(columns), column_names: name_places(&names) }
    };
    let fresh: Vec<u64> = (0..named.rows).filter(|position| named.deleted.binary_search(position).is_err()).collect();
    let delete = |positions: &[u64]| Call::Delete { time, data_file: named.data_file, uuid, positions: positions.to_vec() };
    let statistics = catalog.columns_of(named.widest).flat_map(|(column, _)| [column, 1, 0, 0, 0, 0]).collect();
    let snapshots: Vec<u64> = catalog.snapshots.keys().copied().collect();
    let middle = catalog.scheduled.iter().map(|record| record.schedule_start).sum::<u64>() / catalog.scheduled.len().max(1) as u64;
    vec![
        Call::CreateSchema { time, name: b"more".to_vec() },
        create_table(COLUMN_LIMIT),
        create_table(2),
        create_table(1),
        Call::Insert { time, table: named.widest, record_count: 1, uuid, statistics },
        delete(&fresh[..named.deleted.len().min(fresh.len())]),
        delete(&fresh[..3]),
        delete(&fresh[..2]),
        delete(&fresh[..1]),
        delete(&named.deleted[..1]),
        Call::DropTable { time, table: named.busiest },
        Call::DropSchema { time, schema: named.empty },
        Call::DropSchema { time, schema },
        Call::Expire { ids: snapshots[..snapshots.len() - 1].to_vec(), time: 5 },
        Call::Expire { ids: snapshots.iter().copied().step_by(2).filter(|id| *id != named.snapshot).collect(), time: 5 },
        Call::Expire { ids: snapshots, time: 5 },
        Call::Cleanup { t: middle },
        Call::Cleanup { t: ABSENT },
    ]
}

fn readings(catalog: &Catalog, named: &Named) -> Vec<Reading> {
    let Named { snapshot, busiest: table, widest, delete_file, .. } = *named;
    let last = &catalog.tables[&named.last];
    let name = last.name.place().into_iter().take_while(|byte| *byte != 0).collect();
    vec![
        Reading::Schemas { snapshot },
        Reading::Tables { snapshot, schema: last.schema },
        Reading::Columns { snapshot, table: widest },
        Reading::TableByName { snapshot, schema: last.schema, name },
        Reading::Files { snapshot, table },
        Reading::FilteredFiles { snapshot, table, column: 1, scalar: 1_000 },
        Reading::Rows { snapshot, table },
        Reading::ByTime { t: ABSENT },
        Reading::FindFile { id: delete_file },
    ]
}

/// Calls and readings of every sort on tables of a shape.
pub fn steps(catalog: &Catalog) -> Result<Vec<Step>, String> {
    let named = named(catalog).ok_or("the tables have nothing to name")?;
    let calls = calls(catalog, &named).into_iter().map(Step::Call);
    Ok(calls.chain(readings(catalog, &named).into_iter().map(Step::Reading)).collect())
}

/// Tables of a shape, and the steps on them.
pub fn full(shape: Shape, used: usize, places: usize) -> Result<(Pair, Vec<Step>), String> {
    let mut pair = Pair::default();
    for line in shapes::tables(shape, used, places) {
        pair.take(&line)?;
    }
    let catalog = load(&pair.second.words, &pair.second.counts).map_err(|unsound| format!("tables '{}' are not sound: {unsound:?}", shape.says()))?;
    let steps = steps(&catalog)?;
    Ok((pair, steps))
}

/// Each of them by itself on tables of a shape, and a call leaves them sound. What a cleanup hands out is asked for on an area one word too short as well.
/// An error has the step, not the lines that write the tables, which are the same in each run.
pub fn play(shape: Shape, free: usize, tally: &mut Tally) -> Result<(), String> {
    let used = RECORD_LIMIT - free;
    let (full, steps) = full(shape, used, RECORD_LIMIT + 4)?;
    for what in steps {
        let length = play::step(&mut full.proved.clone(), &what, &mut vec![0; ROOM]).length;
        let is_call = matches!(what, Step::Call(_));
        let rooms = if is_call && length > 0 { vec![length - 1, length] } else { vec![length] };
        for length in rooms {
            let lines = [Line::Area { length, fill: 1 }, Line::Step(what.clone())];
            let number = play_lines(&mut full.clone(), &lines)
                .map_err(|how| format!("# on tables '{}' of {used} records of each sort\n{}differ: {how}", shape.says(), script::text(&lines)))?;
            tally.count(&what, number);
        }
    }
    Ok(())
}

/// The number that comes of the last line.
fn play_lines(pair: &mut Pair, lines: &[Line]) -> Result<u64, String> {
    let mut number = 1;
    for line in lines {
        number = pair.take(line)?.map_or(number, |played| played.outcome.number);
    }
    if number == 1 || !pair.is_sound() {
        return Err("tables at the limits are not sound".to_string());
    }
    Ok(number)
}
