//! Each rule of 'Sound tables' broken by a small edit of sound tables; which rule is named, and
//! where.

mod common;

use common::World;
use second::diary::{bounded, name_places};
use second::lent::NUMBER_LIMIT;
use second::{load, Call, Reading, Run, Unsound, ABSENT};

const PAST: u64 = NUMBER_LIMIT + 1;

fn create_table(time: u64, schema: u64, name: &str, columns: &[u64], names: &[&str]) -> Call {
    let (name, column_names) = (name.as_bytes().to_vec(), name_places(names));
    Call::CreateTable { time, schema, name, columns: columns.to_vec(), column_names }
}

fn insert(time: u64, table: u64, record_count: u64, low: u64, records: &[[u64; 6]]) -> Call {
    let (uuid, statistics) = ((0, low), records.concat());
    Call::Insert { time, table, record_count, uuid, statistics }
}

fn delete(time: u64, data_file: u64, low: u64, positions: &[u64]) -> Call {
    Call::Delete { time, data_file, uuid: (0, low), positions: positions.to_vec() }
}

/// Snapshots 0 to 11 and 13. Schema 0 `main`, 1 `attic` from 1 to 10, 4 `attic` from 11. Table 2
/// `diary` in 0 from 2, table 3 `old` in 1 from 7 to 9. Data files 0 and 1 in table 2, 4 in table
/// 3. Delete files 2 and 3 of file 0, 6 of file 1; 5, which was of file 1, is scheduled.
fn sound() -> World {
    let mut world = World::fresh(20);
    let item = |min, max| bounded(1, 0, min, max);
    let price = |nulls, min, max| bounded(2, nulls, min, max);
    let calls = [
        Call::CreateSchema { time: 101, name: b"attic".to_vec() },
        create_table(102, 0, "diary", &[4, 0, 4, 1], &["item", "price"]),
        insert(103, 2, 3, 1, &[item(1, 3), price(0, 9, 14)]),
        insert(104, 2, 2, 2, &[item(4, 5), price(1, 20, 20)]),
        delete(105, 0, 3, &[1]),
        delete(106, 0, 4, &[0]),
        create_table(107, 1, "old", &[1, 1], &["a"]),
        insert(108, 3, 1, 5, &[[1, 1, 0, 0, 0, 0]]),
        Call::DropTable { time: 109, table: 3 },
        Call::DropSchema { time: 110, schema: 1 },
        Call::CreateSchema { time: 111, name: b"attic".to_vec() },
        delete(112, 1, 6, &[0]),
        delete(113, 1, 7, &[1]),
        Call::Expire { ids: vec![12], time: 114 },
    ];
    for call in calls {
        world.must(&call);
    }
    assert!(load(&world.words, &world.counts).is_ok());
    world
}

/// An edit, and what it breaks. No call but Fresh is accepted then.
fn breaks(rule: u8, table: Run, record: Option<usize>, edit: impl Fn(&mut World)) {
    let mut world = sound();
    edit(&mut world);
    let found = load(&world.words, &world.counts).err();
    assert_eq!(found, Some(Unsound { rule, table, record }));
    assert_eq!(world.number(&Call::Cleanup { t: 0 }), 1);
    assert_eq!(world.number(&Call::CreateSchema { time: ABSENT, name: b"more".to_vec() }), 1);
    assert_eq!(world.read(&Reading::Schemas { snapshot: 0 }), Err(1));
    assert_eq!(world.number(&Call::Fresh { time: 0 }), 0);
}

/// A word set in a record's field breaks a rule at that record.
fn word_breaks(rule: u8, table: Run, record: usize, field: usize, word: u64) {
    breaks(rule, table, Some(record), |world| set(world, table, record, field, word));
}

fn set(world: &mut World, table: Run, record: usize, field: usize, word: u64) {
    let (run, size) = match table {
        Run::Snapshots => (&mut world.words.snapshots, 7),
        Run::Schemas => (&mut world.words.schemas, 3),
        Run::Tables => (&mut world.words.tables, 5),
        Run::Columns => (&mut world.words.columns, 7),
        Run::DataFiles => (&mut world.words.data_files, 8),
        Run::DeleteFiles => (&mut world.words.delete_files, 8),
        Run::Positions => (&mut world.words.positions, 1),
        Run::Statistics => (&mut world.words.statistics, 7),
        Run::Scheduled => (&mut world.words.scheduled, 4),
    };
    run[size * record + field] = word;
}

/// Moves the records from one on by a place, for one more at the gap.
fn open_gap(run: &mut [u64], size: usize, used: usize, at: usize, record: &[u64]) {
    run.copy_within(size * at..size * used, size * (at + 1));
    run[size * at..size * (at + 1)].copy_from_slice(record);
}

#[test]
fn the_tables_are_as_described() {
    let world = sound();
    let used = world.counts.by_run().map(|(_, used)| used);
    assert_eq!(used, [13, 3, 2, 3, 3, 3, 5, 5, 1]);
    assert_eq!(world.words.positions[..5], [1, 0, 1, 0, 1]);
}

// "used counts fit the lent lengths and the limits; every field is in its range; padding is zero"

#[test]
fn rule_1_counts() {
    for (run, _) in sound().counts.by_run() {
        for count in [21, 4_097, 65_537, usize::MAX] {
            breaks(1, run, None, |world| {
                let counts = &mut world.counts;
                let used = match run {
                    Run::Snapshots => &mut counts.snapshots,
                    Run::Schemas => &mut counts.schemas,
                    Run::Tables => &mut counts.tables,
                    Run::Columns => &mut counts.columns,
                    Run::DataFiles => &mut counts.data_files,
                    Run::DeleteFiles => &mut counts.delete_files,
                    Run::Positions => &mut counts.positions,
                    Run::Statistics => &mut counts.statistics,
                    Run::Scheduled => &mut counts.scheduled,
                };
                *used = count;
            });
        }
    }
    // A ragged tail and a name place too few are no places.
    breaks(1, Run::Snapshots, None, |world| world.words.snapshots.truncate(13 * 7 - 1));
    breaks(1, Run::Schemas, None, |world| world.words.schema_names.truncate(3 * 32 - 1));
    breaks(1, Run::Positions, None, |world| world.words.positions.truncate(4));
}

#[test]
fn rule_1_limits() {
    let mut world = World::fresh(4_098);
    world.words.scheduled = (0..4_097).flat_map(|id| [id, 1, id, 0]).collect();
    set(&mut world, Run::Snapshots, 0, 4, 4_097);
    world.counts.scheduled = 4_096;
    assert!(load(&world.words, &world.counts).is_ok());
    world.counts.scheduled = 4_097;
    let found = load(&world.words, &world.counts).err();
    assert_eq!(found, Some(Unsound { rule: 1, table: Run::Scheduled, record: None }));
}

#[test]
fn rule_1_fields() {
    for field in [0, 2, 3, 4] {
        word_breaks(1, Run::Snapshots, 12, field, PAST);
    }
    word_breaks(1, Run::Schemas, 2, 0, PAST);
    for field in [0, 3, 4] {
        word_breaks(1, Run::Tables, 1, field, PAST);
    }
    for field in [0, 1, 4, 5, 6] {
        word_breaks(1, Run::Columns, 2, field, PAST);
    }
    for (field, word) in [(5, 0), (5, 9), (6, 2)] {
        word_breaks(1, Run::Columns, 2, field, word);
    }
    for field in [0, 1, 4, 5] {
        word_breaks(1, Run::DataFiles, 2, field, PAST);
    }
    word_breaks(1, Run::DataFiles, 2, 4, 0);
    word_breaks(1, Run::DataFiles, 2, 4, 1_048_577);
    for field in [0, 1, 4] {
        word_breaks(1, Run::DeleteFiles, 2, field, PAST);
    }
    for field in [0, 1] {
        word_breaks(1, Run::Statistics, 4, field, PAST);
    }
    word_breaks(1, Run::Scheduled, 0, 0, PAST);
}

#[test]
fn rule_1_names() {
    breaks(1, Run::Schemas, Some(1), |world| world.words.schema_names[32] = 0);
    breaks(1, Run::Schemas, Some(1), |world| world.words.schema_names[34] = b'-');
    breaks(1, Run::Tables, Some(0), |world| world.words.table_names[31] = b'x');
    breaks(1, Run::Columns, Some(2), |world| world.words.column_names[2 * 32 + 9] = 1);
}

// "at least one snapshot; snapshot ids ascend strictly; times, schema versions and next ids never
// fall; change kinds are those below"

#[test]
fn rule_2() {
    breaks(2, Run::Snapshots, None, |world| world.counts.snapshots = 0);
    word_breaks(2, Run::Snapshots, 5, 0, 4);
    word_breaks(2, Run::Snapshots, 5, 0, 3);
    word_breaks(2, Run::Snapshots, 5, 1, 103);
    word_breaks(2, Run::Snapshots, 2, 2, 0);
    word_breaks(2, Run::Snapshots, 2, 3, 1);
    word_breaks(2, Run::Snapshots, 4, 4, 0);
    for kind in [0, 5, 8, ABSENT] {
        word_breaks(2, Run::Snapshots, 3, 5, kind);
    }
    // The next catalog id is 5.
    word_breaks(2, Run::Snapshots, 8, 6, 5);
    word_breaks(2, Run::Snapshots, 12, 6, PAST);
}

// "each begin and each end that isn't ABSENT is at most the latest snapshot id; begin < end; every
// record is live at some retained snapshot"

#[test]
fn rule_3() {
    word_breaks(3, Run::Schemas, 2, 1, 14);
    word_breaks(3, Run::Tables, 1, 2, 14);
    word_breaks(3, Run::Columns, 2, 2, 9);
    word_breaks(3, Run::Columns, 2, 2, 10);
    word_breaks(3, Run::DataFiles, 2, 3, 7);
    word_breaks(3, Run::DeleteFiles, 0, 3, 5);
    word_breaks(3, Run::DeleteFiles, 2, 2, NUMBER_LIMIT);
    for (table, record, begin) in [(Run::Schemas, 2, 1), (Run::Tables, 1, 1), (Run::Columns, 2, 2)]
    {
        word_breaks(3, table, record, begin, PAST);
        word_breaks(3, table, record, begin + 1, PAST);
    }
    for table in [Run::DataFiles, Run::DeleteFiles] {
        word_breaks(3, table, 2, 2, PAST);
        word_breaks(3, table, 2, 3, PAST);
    }
    // "ABSENT [...] elsewhere that word is a plain value"
    word_breaks(3, Run::Tables, 1, 1, ABSENT);
    // Live at 12 alone, which is expired.
    for (table, record) in [(Run::Schemas, 2), (Run::Columns, 1), (Run::DataFiles, 1)] {
        breaks(3, table, Some(record), |world| {
            let begin = if table == Run::Schemas { 1 } else { 2 };
            set(world, table, record, begin, 12);
            set(world, table, record, begin + 1, 13);
        });
    }
}

// "ids ascend strictly in schema, table, data file and delete file, columns by (table id, column
// id), statistics by (data file id, column id)"

#[test]
fn rule_4() {
    word_breaks(4, Run::Schemas, 1, 0, 0);
    word_breaks(4, Run::Tables, 1, 0, 1);
    word_breaks(4, Run::Tables, 1, 0, 2);
    word_breaks(4, Run::Columns, 1, 0, 1);
    word_breaks(4, Run::Columns, 2, 1, 1);
    word_breaks(4, Run::DataFiles, 1, 0, 0);
    word_breaks(4, Run::DeleteFiles, 2, 0, 3);
    word_breaks(4, Run::Statistics, 1, 1, 1);
    word_breaks(4, Run::Statistics, 4, 0, 0);
}

// "schema, table and file ids are below the latest snapshot's next ids; no file id or UUID occurs
// twice over data files, delete files and scheduled"

#[test]
fn rule_5() {
    // Next ids are 5 and 7.
    word_breaks(5, Run::Schemas, 2, 0, 5);
    word_breaks(5, Run::Tables, 1, 0, 5);
    word_breaks(5, Run::DataFiles, 2, 0, 7);
    word_breaks(5, Run::DeleteFiles, 2, 0, 7);
    word_breaks(5, Run::Scheduled, 0, 0, 7);
    // File ids: data and delete, delete and scheduled, data and scheduled.
    word_breaks(5, Run::DeleteFiles, 1, 0, 4);
    word_breaks(5, Run::Scheduled, 0, 0, 6);
    word_breaks(5, Run::Scheduled, 0, 0, 0);
    // UUIDs.
    word_breaks(5, Run::DataFiles, 2, 7, 1);
    word_breaks(5, Run::DeleteFiles, 2, 7, 1);
    word_breaks(5, Run::DeleteFiles, 2, 7, 3);
    word_breaks(5, Run::Scheduled, 0, 2, 7);
}

#[test]
fn rule_5_high_words_tell_uuids_apart() {
    let mut world = sound();
    set(&mut world, Run::Scheduled, 0, 2, 7);
    set(&mut world, Run::Scheduled, 0, 1, 1);
    assert!(load(&world.words, &world.counts).is_ok());
}

// "a table's life lies within its schema's, a column's is its table's, a data file's lies within
// its table's, a delete file's within its data file's, and their table ids match"

#[test]
fn rule_6() {
    // Of another schema, of none, and longer than the schema.
    word_breaks(6, Run::Tables, 1, 3, 4);
    word_breaks(6, Run::Tables, 1, 3, 3);
    word_breaks(6, Run::Tables, 1, 2, 11);
    word_breaks(6, Run::Columns, 2, 3, 8);
    word_breaks(6, Run::Columns, 2, 2, 8);
    word_breaks(6, Run::Columns, 2, 1, 4);
    word_breaks(6, Run::DataFiles, 2, 3, 10);
    word_breaks(6, Run::DataFiles, 2, 2, 6);
    word_breaks(6, Run::DataFiles, 2, 1, 4);
    word_breaks(6, Run::DeleteFiles, 0, 2, 2);
    word_breaks(6, Run::DeleteFiles, 0, 4, 5);
    word_breaks(6, Run::DeleteFiles, 0, 4, 4);
    word_breaks(6, Run::DeleteFiles, 0, 1, 3);
    breaks(6, Run::DeleteFiles, Some(1), |world| set(world, Run::DataFiles, 0, 3, 13));
}

// "schemas, tables of one schema and columns of one table with a common live snapshot number have
// different names, such columns also different orders"

#[test]
fn rule_7() {
    let copy = |names: &mut [u8], from: usize, to: usize| {
        names.copy_within(32 * from..32 * (from + 1), 32 * to);
    };
    breaks(7, Run::Schemas, Some(2), |world| copy(&mut world.words.schema_names, 0, 2));
    breaks(7, Run::Columns, Some(1), |world| copy(&mut world.words.column_names, 0, 1));
    word_breaks(7, Run::Columns, 1, 4, 0);
    // Two attics have no common number; they have one when the first ends a snapshot later.
    breaks(7, Run::Schemas, Some(2), |world| {
        set(world, Run::Schemas, 1, 2, 11);
        set(world, Run::Schemas, 2, 1, 10);
    });
    // A number that no retained snapshot has is common too (R9).
    breaks(7, Run::Schemas, Some(2), |world| {
        set(world, Run::Schemas, 1, 2, 13);
        set(world, Run::Schemas, 2, 1, 12);
    });
    // Tables of one schema: the second moved into the first's.
    breaks(7, Run::Tables, Some(1), |world| {
        set(world, Run::Tables, 1, 3, 0);
        copy(&mut world.words.table_names, 0, 1);
    });
    let mut world = sound();
    copy(&mut world.words.table_names, 0, 1);
    assert!(load(&world.words, &world.counts).is_ok());
}

// "two delete files of one data file have no common live number; the later holds every position of
// the earlier; positions ascend strictly below record_count; delete_count is 1 or more and the
// counts add up to the used positions"

#[test]
fn rule_8() {
    word_breaks(8, Run::DeleteFiles, 0, 5, 0);
    breaks(8, Run::Positions, None, |world| set(world, Run::DeleteFiles, 0, 5, 2));
    breaks(8, Run::Positions, None, |world| world.counts.positions = 4);
    // The true sum, not one modulo 2^64: 1 + 2 + 2 is the same as ABSENT + 3 + 3.
    breaks(8, Run::Positions, None, |world| {
        set(world, Run::DeleteFiles, 0, 5, ABSENT);
        set(world, Run::DeleteFiles, 1, 5, 3);
        set(world, Run::DeleteFiles, 2, 5, 3);
    });
    let at = |record: usize, place: usize, word: u64| {
        breaks(8, Run::DeleteFiles, Some(record), |world| {
            set(world, Run::Positions, place, 0, word);
        });
    };
    // Not ascending, past the file, no more all of the earlier.
    at(1, 2, 0);
    at(0, 0, 3);
    at(2, 4, 2);
    at(0, 0, ABSENT);
    at(1, 2, 2);
    // A common live number: the first ends later, or both begin together.
    breaks(8, Run::DeleteFiles, Some(1), |world| set(world, Run::DeleteFiles, 0, 3, 7));
    word_breaks(8, Run::DeleteFiles, 1, 2, 5);
}

/// Of two delete files the later is the one that begins later; ids don't matter for that (R10).
#[test]
fn rule_8_later_is_by_begin() {
    let swapped = |world: &mut World| {
        for (record, begin, end) in [(0, 6, ABSENT), (1, 5, 6)] {
            set(world, Run::DeleteFiles, record, 2, begin);
            set(world, Run::DeleteFiles, record, 3, end);
        }
    };
    breaks(8, Run::DeleteFiles, Some(0), swapped);
    let mut world = sound();
    swapped(&mut world);
    for (record, count) in [(0, 2), (1, 1)] {
        set(&mut world, Run::DeleteFiles, record, 5, count);
    }
    world.words.positions[..3].copy_from_slice(&[0, 1, 1]);
    assert!(load(&world.words, &world.counts).is_ok());
}

// "row ranges of a table's files ascend with the file id, don't overlap, and end at or below
// next_row_id"

#[test]
fn rule_9() {
    word_breaks(9, Run::DataFiles, 1, 5, 2);
    word_breaks(9, Run::DataFiles, 1, 5, 4);
    word_breaks(9, Run::DataFiles, 0, 5, NUMBER_LIMIT);
    breaks(9, Run::DataFiles, Some(1), |world| set(world, Run::DataFiles, 0, 5, 2));
    breaks(9, Run::DataFiles, Some(1), |world| set(world, Run::Tables, 0, 4, 4));
    // Descending without overlap.
    breaks(9, Run::DataFiles, Some(1), |world| {
        set(world, Run::DataFiles, 0, 5, 2);
        set(world, Run::DataFiles, 1, 5, 0);
    });
    // Gaps are allowed (R12).
    let mut world = sound();
    set(&mut world, Run::Tables, 0, 4, 9);
    set(&mut world, Run::DataFiles, 1, 5, 7);
    assert!(load(&world.words, &world.counts).is_ok());
}

// "each data file has one statistics record for each column live at its begin, and no other.
// null_count ≤ record_count, and 0 where nulls aren't allowed. If all rows are null, min and max
// are missing; else either may be missing. Given values lie in the type's range, min ≤ max."

#[test]
fn rule_10() {
    // Missing, of no column, of no file.
    breaks(10, Run::DataFiles, Some(2), |world| world.counts.statistics = 4);
    word_breaks(10, Run::Statistics, 1, 1, 3);
    word_breaks(10, Run::Statistics, 4, 0, 5);
    breaks(10, Run::Statistics, Some(5), |world| {
        open_gap(&mut world.words.statistics, 7, 5, 5, &[6, 1, 0, 0, 0, 0, 0]);
        world.counts.statistics = 6;
    });
    // Too many nulls, nulls that aren't allowed, bounds although all rows are null.
    word_breaks(10, Run::Statistics, 3, 2, 3);
    word_breaks(10, Run::Statistics, 0, 2, 1);
    word_breaks(10, Run::Statistics, 3, 2, 2);
    word_breaks(10, Run::Statistics, 4, 3, 1);
    // "has_min, has_max (0 or 1)"; "0 where the flag is 0"
    for (field, word) in [(3, PAST), (4, PAST), (3, 2), (5, 1), (6, 1)] {
        word_breaks(10, Run::Statistics, 4, field, word);
    }
    // Min above max; a value outside the type's range.
    word_breaks(10, Run::Statistics, 1, 5, 15);
    word_breaks(10, Run::Statistics, 1, 6, i64::MIN as u64);
    breaks(10, Run::Statistics, Some(1), |world| {
        set(world, Run::Columns, 1, 5, 1);
        set(world, Run::Statistics, 1, 6, 128);
    });
}

// "A table has 1 to 16 live columns at each retained snapshot where it lives."

#[test]
fn rule_11() {
    let with_columns = |count: u64| {
        let mut world = World::fresh(40);
        let names: Vec<String> = (0..16).map(|n| format!("c{n}")).collect();
        let names: Vec<&str> = names.iter().map(String::as_str).collect();
        world.must(&create_table(100, 0, "wide", &[1, 0].repeat(16), &names));
        world.words.columns[7 * 16..7 * 17].copy_from_slice(&[17, 1, 1, ABSENT, 16, 1, 0]);
        world.words.column_names[32 * 16..32 * 17].copy_from_slice(&name_places(&["last"]));
        world.counts.columns = count as usize;
        load(&world.words, &world.counts).err()
    };
    let wide = Some(Unsound { rule: 11, table: Run::Tables, record: Some(0) });
    assert_eq!(with_columns(0), wide);
    assert_eq!(with_columns(1), None);
    assert_eq!(with_columns(16), None);
    assert_eq!(with_columns(17), wide);
}

/// What the rules do not ask for (R8, R13).
#[test]
fn sound_all_the_same() {
    let no_schema = |world: &mut World| {
        world.must(&Call::DropTable { time: 200, table: 2 });
        world.must(&Call::DropSchema { time: 200, schema: 0 });
        world.must(&Call::DropSchema { time: 200, schema: 4 });
        let ids = (0..=15).filter(|id| *id != 12).collect();
        world.must(&Call::Expire { ids, time: 0 });
        assert_eq!(world.counts.schemas, 0);
    };
    let edits: [&dyn Fn(&mut World); 6] = [
        &no_schema,
        // A schema and a table may share an id.
        &|world| set(world, Run::Schemas, 2, 0, 3),
        // Column ids and orders are any distinct numbers.
        &|world| {
            set(world, Run::Columns, 2, 0, 0);
            set(world, Run::Statistics, 4, 1, 0);
        },
        &|world| set(world, Run::Columns, 0, 4, NUMBER_LIMIT),
        // Times, UUID words and the scheduled table's order are free.
        &|world| {
            set(world, Run::Snapshots, 12, 1, ABSENT);
            set(world, Run::Scheduled, 0, 1, ABSENT);
            set(world, Run::Scheduled, 0, 3, ABSENT);
        },
        // Nothing ties a change's object to its kind.
        &|world| set(world, Run::Snapshots, 3, 6, 4),
    ];
    for edit in edits {
        let mut world = sound();
        edit(&mut world);
        assert_eq!(load(&world.words, &world.counts).err(), None);
    }
}
