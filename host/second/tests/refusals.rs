//! Each refusal met, on both sides of its edge where it has one, and their order.

mod common;

use common::World;
use second::diary::{self, bounded, name_places, DIARY, ITEM, PRICE};
use second::lent::{NUMBER_LIMIT, SNAPSHOT_SIZE, TABLE_SIZE};
use second::{Call, Reading, Words, ABSENT};

/// The diary session at time 150, with room.
fn session() -> World {
    let mut world = World::lend(16);
    for call in diary::calls() {
        world.must(&call);
    }
    world
}

fn create_schema(name: &[u8]) -> Call {
    Call::CreateSchema { time: 150, name: name.to_vec() }
}

fn create_table(schema: u64, name: &[u8]) -> Call {
    let column_names = name_places(&["a"]);
    Call::CreateTable { time: 150, schema, name: name.to_vec(), columns: vec![1, 0], column_names }
}

fn columns(columns: &[u64], names: &[u8]) -> Call {
    let (columns, column_names) = (columns.to_vec(), names.to_vec());
    Call::CreateTable { time: 150, schema: 0, name: b"list".to_vec(), columns, column_names }
}

fn good_statistics() -> Vec<u64> {
    [bounded(ITEM, 0, 1, 3), bounded(PRICE, 0, 9, 14)].concat()
}

fn insert(table: u64, record_count: u64, low: u64) -> Call {
    let statistics = good_statistics();
    Call::Insert { time: 150, table, record_count, uuid: (0, low), statistics }
}

fn statistics(records: &[[u64; 6]]) -> Call {
    let statistics = records.concat();
    Call::Insert { time: 150, table: DIARY, record_count: 3, uuid: (0, 9), statistics }
}

fn delete(data_file: u64, low: u64, positions: &[u64]) -> Call {
    Call::Delete { time: 150, data_file, uuid: (0, low), positions: positions.to_vec() }
}

fn expire(ids: &[u64]) -> Call {
    Call::Expire { ids: ids.to_vec(), time: 0 }
}

/// Each word of a snapshot record by its place.
fn set_latest(world: &mut World, field: usize, word: u64) {
    let place = (world.counts.snapshots - 1) * SNAPSHOT_SIZE + field;
    world.words.snapshots[place] = word;
}

#[test]
fn r1_tables_not_sound() {
    let mut world = session();
    world.counts.snapshots = 0;
    for call in diary::calls().iter().skip(1) {
        assert_eq!(world.number(call), 1);
    }
    assert_eq!(world.number(&Call::Cleanup { t: 0 }), 1);
    assert_eq!(world.number(&expire(&[])), 1);
    assert_eq!(world.number(&Call::DropTable { time: 0, table: 9 }), 1);
    assert_eq!(world.number(&Call::DropSchema { time: 0, schema: 9 }), 1);
    assert_eq!(world.number(&create_schema(b"")), 1);
    assert_eq!(world.read(&Reading::Schemas { snapshot: 9 }), Err(1));
    assert_eq!(world.read(&Reading::ByTime { t: 0 }), Err(1));
    assert_eq!(world.read(&Reading::FindFile { id: 99 }), Err(1));
    assert_eq!(world.number(&Call::Fresh { time: 0 }), 0);
}

/// "2 the change needs more records or positions than are lent or allowed."
#[test]
fn r2_no_room() {
    let shrunk = |shrink: &dyn Fn(&mut Words)| {
        let mut world = session();
        shrink(&mut world.words);
        world
    };
    // Places just used: 6 snapshots, 1 schema, 1 table, 2 columns, 2 data files, 2 delete files,
    // 3 positions, 4 statistics.
    let mut full = shrunk(&|words| words.snapshots.truncate(6 * 7 + 6));
    assert_eq!(full.number(&create_schema(b"more")), 2);
    assert_eq!(full.number(&Call::DropTable { time: 150, table: DIARY }), 2);
    let mut full = shrunk(&|words| words.schemas.truncate(3));
    assert_eq!(full.number(&create_schema(b"more")), 2);
    let mut full = shrunk(&|words| words.schema_names.truncate(63));
    assert_eq!(full.number(&create_schema(b"more")), 2);
    let mut full = shrunk(&|words| words.tables.truncate(5));
    assert_eq!(full.number(&create_table(0, b"more")), 2);
    let mut full = shrunk(&|words| words.table_names.truncate(32));
    assert_eq!(full.number(&create_table(0, b"more")), 2);
    let mut full = shrunk(&|words| words.columns.truncate(2 * 7));
    assert_eq!(full.number(&create_table(0, b"more")), 2);
    let mut full = shrunk(&|words| words.column_names.truncate(2 * 32));
    assert_eq!(full.number(&create_table(0, b"more")), 2);
    let mut full = shrunk(&|words| words.data_files.truncate(2 * 8));
    assert_eq!(full.number(&insert(DIARY, 1, 9)), 2);
    let mut full = shrunk(&|words| words.statistics.truncate(5 * 7));
    assert_eq!(full.number(&insert(DIARY, 1, 9)), 2);
    let mut full = shrunk(&|words| words.delete_files.truncate(2 * 8));
    assert_eq!(full.number(&delete(0, 9, &[2])), 2);
    // A delete needs places for the old and the new positions: 3 + (2 + 1).
    let mut full = shrunk(&|words| words.positions.truncate(5));
    assert_eq!(full.number(&delete(0, 9, &[2])), 2);
    let mut room = shrunk(&|words| words.positions.truncate(6));
    assert_eq!(room.number(&delete(0, 9, &[2])), 0);
    let mut full = shrunk(&|words| words.scheduled.truncate(3));
    assert_eq!(full.number(&expire(&[4])), 2);
    let mut room = shrunk(&|words| words.scheduled.truncate(4));
    assert_eq!(room.number(&expire(&[4])), 0);
}

/// Fresh needs one snapshot place and one schema place with its name, and looks at nothing else.
#[test]
fn r2_fresh() {
    for shrink in [
        |words: &mut Words| words.snapshots.truncate(6),
        |words: &mut Words| words.schemas.truncate(2),
        |words: &mut Words| words.schema_names.truncate(31),
    ] {
        let mut world = World::lend(1);
        world.counts.tables = usize::MAX;
        shrink(&mut world.words);
        assert_eq!(world.number(&Call::Fresh { time: 7 }), 2);
        assert_eq!(world.counts.tables, usize::MAX);
    }
    let mut world = World::lend(1);
    world.counts.tables = usize::MAX;
    world.words.tables.clear();
    assert_eq!(world.number(&Call::Fresh { time: ABSENT }), 0);
    assert_eq!((world.counts.snapshots, world.counts.schemas, world.counts.tables), (1, 1, 0));
}

/// "Each table uses at most 4,096 records": more may be lent, and the limit caps.
#[test]
fn r2_the_limit() {
    let mut world = World::fresh(4_100);
    for place in 1..4_095 {
        let id = place as u64;
        world.words.schemas[3 * place..3 * place + 3].copy_from_slice(&[id, 0, ABSENT]);
        let name = name_places(&[&format!("schema{id}")]);
        world.words.schema_names[32 * place..32 * place + 32].copy_from_slice(&name);
    }
    world.counts.schemas = 4_095;
    set_latest(&mut world, 3, 4_095);
    world.must(&create_schema(b"the_last"));
    assert_eq!(world.number(&create_schema(b"one_more")), 2);
}

#[test]
fn r3_the_answer_area_is_shorter_than_the_answer() {
    let mut world = session();
    let lists = [
        (Reading::Schemas { snapshot: 5 }, 1),
        (Reading::Tables { snapshot: 5, schema: 0 }, 1),
        (Reading::Tables { snapshot: 0, schema: 0 }, 0),
        (Reading::Columns { snapshot: 5, table: DIARY }, 2),
        (Reading::TableByName { snapshot: 5, schema: 0, name: b"diary".to_vec() }, 1),
        (Reading::Files { snapshot: 5, table: DIARY }, 4),
        (Reading::Rows { snapshot: 5, table: DIARY }, 3),
        (Reading::ByTime { t: 150 }, 1),
        (Reading::FindFile { id: 3 }, 8),
    ];
    for (reading, length) in lists {
        assert_eq!(world.read_on(&reading, length).map(|answer| answer.len()), Ok(length));
        if length > 0 {
            assert_eq!(world.read_on(&reading, length - 1), Err(3));
        }
    }
    world.must(&expire(&[4]));
    assert_eq!(world.call_on(&Call::Cleanup { t: 1 }, &mut [0; 2]).number, 3);
    assert_eq!(world.call_on(&Call::Cleanup { t: 1 }, &mut [0; 3]).number, 0);
    assert_eq!(world.call_on(&Call::Cleanup { t: 1 }, &mut []).number, 0);
}

/// "4 a number would pass 2^62." 2^62 itself passes.
#[test]
fn r4_a_number_would_pass() {
    let calls = [
        create_schema(b"more"),
        create_table(0, b"more"),
        insert(DIARY, 1, 9),
        delete(0, 9, &[2]),
        Call::DropTable { time: 150, table: DIARY },
    ];
    // Whether each call moves the id, the schema version, the next catalog id, the next file id.
    let moves = [
        [true, true, true, false],
        [true, true, true, false],
        [true, false, false, true],
        [true, false, false, true],
        [true, true, false, false],
    ];
    for (call, moves) in calls.iter().zip(moves) {
        for (field, moved) in [0, 2, 3, 4].into_iter().zip(moves) {
            let mut world = session();
            set_latest(&mut world, field, NUMBER_LIMIT - 1);
            assert_eq!(world.number(call), 0, "{call:?} {field}");
            let mut world = session();
            set_latest(&mut world, field, NUMBER_LIMIT);
            assert_eq!(world.number(call), if moved { 4 } else { 0 }, "{call:?} {field}");
        }
    }
    let next_row_id = TABLE_SIZE - 1;
    let mut world = session();
    world.words.tables[next_row_id] = NUMBER_LIMIT - 3;
    assert_eq!(world.number(&insert(DIARY, 4, 9)), 4);
    assert_eq!(world.number(&insert(DIARY, 3, 9)), 0);
    let mut world = session();
    world.words.tables[next_row_id] = NUMBER_LIMIT;
    assert_eq!(world.number(&insert(DIARY, 1, 9)), 4);
    assert_eq!(world.number(&delete(0, 9, &[2])), 0);
    let mut world = session();
    world.must(&Call::DropTable { time: 150, table: DIARY });
    set_latest(&mut world, 2, NUMBER_LIMIT);
    assert_eq!(world.number(&Call::DropSchema { time: 150, schema: 0 }), 4);
}

#[test]
fn r5_snapshot_not_retained() {
    let mut world = session();
    world.must(&expire(&[3, 4]));
    let name = b"diary".to_vec();
    for snapshot in [3, 4, 6, ABSENT] {
        let (table, schema) = (DIARY, 0);
        let name = name.clone();
        assert_eq!(world.read(&Reading::Schemas { snapshot }), Err(5));
        assert_eq!(world.read(&Reading::Tables { snapshot, schema }), Err(5));
        assert_eq!(world.read(&Reading::Columns { snapshot, table }), Err(5));
        assert_eq!(world.read(&Reading::TableByName { snapshot, schema, name }), Err(5));
        assert_eq!(world.read(&Reading::Files { snapshot, table }), Err(5));
        let filter = Reading::FilteredFiles { snapshot, table, column: 1, scalar: 0 };
        assert_eq!(world.read(&filter), Err(5));
        assert_eq!(world.read(&Reading::Rows { snapshot, table }), Err(5));
        assert_eq!(world.number(&expire(&[snapshot])), 5);
    }
    // 5 is judged over the whole list before 18 and 19.
    assert_eq!(world.number(&expire(&[5, 2, 4])), 5);
}

#[test]
fn r6_not_live() {
    let mut world = session();
    let (snapshot, column) = (5, ITEM);
    assert_eq!(world.read(&Reading::Tables { snapshot, schema: 1 }), Err(6));
    for table in [0, 2, ABSENT] {
        assert_eq!(world.read(&Reading::Columns { snapshot, table }), Err(6));
        assert_eq!(world.read(&Reading::Files { snapshot, table }), Err(6));
        assert_eq!(world.read(&Reading::Rows { snapshot, table }), Err(6));
        let filter = Reading::FilteredFiles { snapshot, table, column, scalar: 0 };
        assert_eq!(world.read(&filter), Err(6));
        assert_eq!(world.number(&insert(table, 1, 9)), 6);
        assert_eq!(world.number(&Call::DropTable { time: 150, table }), 6);
    }
    for column in [0, 3, ABSENT] {
        let filter = Reading::FilteredFiles { snapshot, table: DIARY, column, scalar: 0 };
        assert_eq!(world.read(&filter), Err(6));
    }
    for (schema, name) in [(0, &b"list"[..]), (1, b"diary"), (0, b""), (0, b"diary\0"), (0, b"?")] {
        let by_name = Reading::TableByName { snapshot, schema, name: name.to_vec() };
        assert_eq!(world.read(&by_name), Err(6));
    }
    assert_eq!(world.number(&create_table(1, b"list")), 6);
    assert_eq!(world.number(&Call::DropSchema { time: 150, schema: 1 }), 6);
    // The id of a delete file is no data file's.
    assert_eq!(world.number(&delete(2, 9, &[0])), 6);
    assert_eq!(world.number(&delete(4, 9, &[0])), 6);
    assert_eq!(world.read(&Reading::FindFile { id: ABSENT }), Err(6));
    // A dropped table is not live at the latest snapshot, and neither are its files.
    world.must(&Call::DropTable { time: 150, table: DIARY });
    assert_eq!(world.number(&insert(DIARY, 1, 9)), 6);
    assert_eq!(world.number(&delete(0, 9, &[2])), 6);
    assert_eq!(world.number(&Call::DropTable { time: 150, table: DIARY }), 6);
    // A scheduled id is on record no more.
    world.must(&expire(&[4]));
    assert_eq!(world.read(&Reading::FindFile { id: 2 }), Err(6));
    assert!(world.read(&Reading::FindFile { id: 0 }).is_ok());
}

#[test]
fn r7_no_retained_snapshot_by_then() {
    let mut world = session();
    assert_eq!(world.read_on(&Reading::ByTime { t: 99 }, 0), Err(7));
    assert_eq!(world.read(&Reading::ByTime { t: 100 }), Ok(vec![0]));
    world.must(&expire(&[0]));
    assert_eq!(world.read(&Reading::ByTime { t: 109 }), Err(7));
    assert_eq!(world.read(&Reading::ByTime { t: 110 }), Ok(vec![1]));
    // Of equal times the highest id.
    world.must(&create_schema(b"more"));
    assert_eq!(world.read(&Reading::ByTime { t: 150 }), Ok(vec![6]));
}

#[test]
fn r8_time_below_the_latest() {
    let mut world = session();
    let (time, name, uuid) = (149, b"more".to_vec(), (0, 9));
    let (columns, column_names) = (vec![1, 0], name_places(&["a"]));
    let calls = [
        Call::CreateSchema { time, name: name.clone() },
        Call::CreateTable { time, schema: 0, name, columns, column_names },
        Call::Insert { time, table: DIARY, record_count: 1, uuid, statistics: good_statistics() },
        Call::Delete { time, data_file: 0, uuid, positions: vec![2] },
        Call::DropTable { time, table: DIARY },
        Call::DropSchema { time, schema: 0 },
    ];
    for call in calls {
        assert_eq!(world.number(&call), 8);
    }
    // Expiry's time may be any word.
    assert_eq!(world.number(&Call::Expire { ids: vec![0], time: 0 }), 0);
}

#[test]
fn r9_bad_name() {
    let mut world = session();
    for name in [&b""[..], b" ", b"a\0", b"a-b", &[b'x'; 33], b"\xc3\xa4"] {
        assert_eq!(world.number(&create_schema(name)), 9);
        assert_eq!(world.number(&create_table(0, name)), 9);
    }
}

#[test]
fn r10_name_taken_by_a_live_one() {
    let mut world = session();
    assert_eq!(world.number(&create_schema(b"main")), 10);
    assert_eq!(world.number(&create_table(0, b"diary")), 10);
    // In another schema, in another case, and after a drop it is free.
    world.must(&create_schema(b"diary"));
    world.must(&create_table(2, b"diary"));
    world.must(&create_table(0, b"Diary"));
    world.must(&Call::DropTable { time: 150, table: DIARY });
    world.must(&create_table(0, b"diary"));
    assert_eq!(world.number(&create_table(0, b"diary")), 10);
    world.must(&Call::DropTable { time: 150, table: 3 });
    world.must(&Call::DropSchema { time: 150, schema: 2 });
    world.must(&create_schema(b"diary"));
}

#[test]
fn r11_schema_not_empty() {
    let mut world = session();
    assert_eq!(world.number(&Call::DropSchema { time: 150, schema: 0 }), 11);
    world.must(&Call::DropTable { time: 150, table: DIARY });
    assert_eq!(world.number(&Call::DropSchema { time: 150, schema: 0 }), 0);
    assert_eq!(world.read(&Reading::Schemas { snapshot: 7 }), Ok(vec![]));
}

#[test]
fn r12_column_list() {
    let names: Vec<String> = (0..17).map(|n| format!("c{n}")).collect();
    let names: Vec<&str> = names.iter().map(String::as_str).collect();
    let many = |n: usize| columns(&[1, 0].repeat(n), &name_places(&names[..n]));
    let mut world = session();
    assert_eq!(world.number(&many(0)), 12);
    assert_eq!(world.number(&many(17)), 12);
    assert_eq!(world.number(&columns(&[0, 0], &name_places(&["a"]))), 12);
    assert_eq!(world.number(&columns(&[9, 0], &name_places(&["a"]))), 12);
    assert_eq!(world.number(&columns(&[1, 2], &name_places(&["a"]))), 12);
    assert_eq!(world.number(&columns(&[1, 0], &name_places(&[""]))), 12);
    assert_eq!(world.number(&columns(&[1, 0], &name_places(&["a b"]))), 12);
    assert_eq!(world.number(&columns(&[1, 0, 1, 0], &name_places(&["a", "a"]))), 12);
    // Ragged runs, and name places that don't match the columns.
    assert_eq!(world.number(&columns(&[1, 0, 1], &name_places(&["a"]))), 12);
    assert_eq!(world.number(&columns(&[1, 0], &name_places(&["a", "b"]))), 12);
    assert_eq!(world.number(&columns(&[1, 0], &[])), 12);
    assert_eq!(world.number(&columns(&[1, 0], &name_places(&["a"])[..31])), 12);
    let mut padded = name_places(&["a"]);
    padded[31] = b'x';
    assert_eq!(world.number(&columns(&[1, 0], &padded)), 12);
    let mut room = World::fresh(32);
    let sixteen = columns(&[8, 1].repeat(16), &name_places(&names[..16]));
    assert_eq!(room.number(&sixteen), 0);
    let ids: Vec<u64> = (1..=16).collect();
    assert_eq!(room.read(&Reading::Columns { snapshot: 1, table: 1 }), Ok(ids));
}

#[test]
fn r13_record_count() {
    let mut world = session();
    for record_count in [0, 1_048_577, ABSENT] {
        assert_eq!(world.number(&insert(DIARY, record_count, 9)), 13);
    }
    assert_eq!(world.number(&insert(DIARY, 1, 9)), 0);
}

/// "14 UUID in any data file, delete file or scheduled record": live or not.
#[test]
fn r14_uuid_taken() {
    let mut world = session();
    world.must(&expire(&[4]));
    world.must(&Call::DropTable { time: 150, table: DIARY });
    world.must(&create_table(0, b"list"));
    let one = |low: u64| Call::Insert {
        time: 150,
        table: 2,
        record_count: 1,
        uuid: (0, low),
        statistics: bounded(1, 0, 0, 0).to_vec(),
    };
    for taken in [1, 2, 3, 4] {
        assert_eq!(world.number(&one(taken)), 14);
    }
    world.must(&one(9));
    assert_eq!(world.number(&delete(4, 9, &[0])), 14);
    // "a UUID handed out may be registered again"
    assert_eq!(world.call_on(&Call::Cleanup { t: 1 }, &mut [0; 3]).number, 0);
    world.must(&one(3));
}

#[test]
fn r15_statistics() {
    let item = bounded(ITEM, 0, 1, 3);
    let price = bounded(PRICE, 0, 9, 14);
    let mut world = session();
    assert_eq!(world.number(&statistics(&[])), 15);
    assert_eq!(world.number(&statistics(&[item])), 15);
    assert_eq!(world.number(&statistics(&[price])), 15);
    assert_eq!(world.number(&statistics(&[price, item])), 15);
    assert_eq!(world.number(&statistics(&[item, price, price])), 15);
    assert_eq!(world.number(&statistics(&[item, bounded(3, 0, 9, 14)])), 15);
    // Nulls where none are allowed, more nulls than rows, bounds although all rows are null.
    assert_eq!(world.number(&statistics(&[bounded(ITEM, 1, 1, 3), price])), 15);
    assert_eq!(world.number(&statistics(&[item, [PRICE, 4, 0, 0, 0, 0]])), 15);
    assert_eq!(world.number(&statistics(&[item, [PRICE, 3, 1, 0, 0, 0]])), 15);
    assert_eq!(world.number(&statistics(&[item, [PRICE, 3, 0, 1, 0, 0]])), 15);
    // Flags, words where the flag is 0, min above max.
    assert_eq!(world.number(&statistics(&[item, [PRICE, 0, 2, 0, 0, 0]])), 15);
    assert_eq!(world.number(&statistics(&[item, [PRICE, 0, 0, 2, 0, 0]])), 15);
    assert_eq!(world.number(&statistics(&[item, [PRICE, 0, 0, 1, 1, 1]])), 15);
    assert_eq!(world.number(&statistics(&[item, [PRICE, 0, 1, 0, 1, 1]])), 15);
    assert_eq!(world.number(&statistics(&[item, bounded(PRICE, 0, 5, 4)])), 15);
    // A ragged run.
    let ragged = Call::Insert {
        time: 150,
        table: DIARY,
        record_count: 3,
        uuid: (0, 9),
        statistics: good_statistics()[..11].to_vec(),
    };
    assert_eq!(world.number(&ragged), 15);
    // Either bound may be missing; all rows null; both ends of the type's range.
    for good in [
        [PRICE, 0, 0, 0, 0, 0],
        [PRICE, 0, 1, 0, i64::MIN as u64, 0],
        [PRICE, 2, 0, 1, 0, i64::MAX as u64],
        [PRICE, 3, 0, 0, 0, 0],
        bounded(PRICE, 0, -5, -5),
    ] {
        assert_eq!(session().number(&statistics(&[item, good])), 0);
    }
}

/// "Given values lie in the type's range": both sides of both ends of each type.
#[test]
fn r15_types() {
    let ranges = [
        (1, -128, 127),
        (2, -32_768, 32_767),
        (3, -2_147_483_648, 2_147_483_647),
        (5, 0, 255),
        (6, 0, 65_535),
        (7, 0, 4_294_967_295),
        (8, 0, 1),
    ];
    for (code, lowest, highest) in ranges {
        let mut world = World::fresh(8);
        let table = Call::CreateTable {
            time: 100,
            schema: 0,
            name: b"t".to_vec(),
            columns: vec![code, 1],
            column_names: name_places(&["c"]),
        };
        world.must(&table);
        let with = |record: [u64; 6]| Call::Insert {
            time: 100,
            table: 1,
            record_count: 2,
            uuid: (1, 1),
            statistics: record.to_vec(),
        };
        assert_eq!(world.number(&with([1, 0, 1, 0, (lowest - 1) as u64, 0])), 15);
        assert_eq!(world.number(&with([1, 0, 1, 0, (highest + 1) as u64, 0])), 15);
        assert_eq!(world.number(&with([1, 0, 0, 1, 0, (lowest - 1) as u64])), 15);
        assert_eq!(world.number(&with([1, 0, 0, 1, 0, (highest + 1) as u64])), 15);
        assert_eq!(world.number(&with(bounded(1, 0, lowest, highest))), 0);
    }
}

#[test]
fn r16_positions() {
    let mut world = session();
    for bad in [&[][..], &[2, 2], &[2, 1], &[3], &[ABSENT], &[2, 3]] {
        assert_eq!(world.number(&delete(0, 9, bad)), 16);
    }
    // 16 is judged over the whole list before 17.
    assert_eq!(world.number(&delete(0, 9, &[0, 3])), 16);
    assert_eq!(world.number(&delete(0, 9, &[2])), 0);
}

#[test]
fn r17_a_position_already_deleted() {
    let mut world = session();
    let outcome = world.call(&delete(0, 9, &[0]));
    assert_eq!((outcome.number, outcome.place), (17, 0));
    let outcome = world.call(&delete(0, 9, &[1, 2]));
    assert_eq!((outcome.number, outcome.place), (17, 0));
    world.must(&delete(1, 8, &[1]));
    let outcome = world.call(&delete(1, 9, &[0, 1]));
    assert_eq!((outcome.number, outcome.place), (17, 1));
}

#[test]
fn r18_expiry_list() {
    let mut world = session();
    for bad in [&[][..], &[1, 1], &[2, 1], &[5, 1]] {
        assert_eq!(world.number(&expire(bad)), 18);
    }
}

#[test]
fn r19_the_latest_snapshot() {
    let mut world = session();
    assert_eq!(world.number(&expire(&[5])), 19);
    assert_eq!(world.number(&expire(&[0, 5])), 19);
    assert_eq!(world.number(&expire(&[0, 1, 2, 3, 4])), 0);
}

/// "Order: 1, then 5 to 19 rising, then 4, 2, 3": of two refusals met, the one that comes first.
#[test]
fn order() {
    let early = |call: &Call| match call.clone() {
        Call::CreateSchema { name, .. } => Call::CreateSchema { time: 0, name },
        Call::CreateTable { schema, name, columns, column_names, .. } => {
            Call::CreateTable { time: 0, schema, name, columns, column_names }
        }
        Call::Insert { table, record_count, uuid, statistics, .. } => {
            Call::Insert { time: 0, table, record_count, uuid, statistics }
        }
        Call::Delete { data_file, uuid, positions, .. } => {
            Call::Delete { time: 0, data_file, uuid, positions }
        }
        Call::DropTable { table, .. } => Call::DropTable { time: 0, table },
        Call::DropSchema { schema, .. } => Call::DropSchema { time: 0, schema },
        other => other,
    };
    let mut world = session();
    assert_eq!(world.number(&early(&create_table(9, b""))), 6);
    assert_eq!(world.number(&early(&create_table(0, b""))), 8);
    assert_eq!(world.number(&early(&insert(9, 0, 1))), 6);
    assert_eq!(world.number(&early(&insert(DIARY, 0, 1))), 8);
    assert_eq!(world.number(&early(&delete(9, 1, &[]))), 6);
    assert_eq!(world.number(&early(&delete(0, 1, &[]))), 8);
    assert_eq!(world.number(&early(&Call::DropTable { time: 0, table: 9 })), 6);
    assert_eq!(world.number(&early(&Call::DropSchema { time: 0, schema: 0 })), 8);
    let bad_columns = |name: &[u8]| Call::CreateTable {
        time: 150,
        schema: 0,
        name: name.to_vec(),
        columns: vec![],
        column_names: vec![],
    };
    assert_eq!(world.number(&bad_columns(b"")), 9);
    assert_eq!(world.number(&bad_columns(b"diary")), 10);
    assert_eq!(world.number(&bad_columns(b"list")), 12);
    let bad = |record_count: u64, low: u64| Call::Insert {
        time: 150,
        table: DIARY,
        record_count,
        uuid: (0, low),
        statistics: vec![],
    };
    assert_eq!(world.number(&bad(0, 1)), 13);
    assert_eq!(world.number(&bad(1, 1)), 14);
    assert_eq!(world.number(&bad(1, 9)), 15);
    assert_eq!(world.number(&delete(0, 1, &[])), 14);

    // Then 4 before 2.
    set_latest(&mut world, 0, NUMBER_LIMIT);
    world.words.snapshots.truncate(6 * SNAPSHOT_SIZE);
    assert_eq!(world.number(&create_schema(b"main")), 10);
    assert_eq!(world.number(&create_schema(b"more")), 4);
    set_latest(&mut world, 0, 5);
    assert_eq!(world.number(&create_schema(b"more")), 2);
}
