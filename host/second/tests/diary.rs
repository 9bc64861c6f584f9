//! The diary session of document 01, with its marked and unmarked cases.

mod common;

use common::World;
use second::diary::{self, bounded, name_places, DIARY, ITEM, PRICE};
use second::{Call, Counts, Reading, ABSENT};

fn session() -> World {
    let mut world = World::lend(16);
    for call in diary::calls() {
        world.must(&call);
    }
    world
}

fn rows(world: &World, snapshot: u64) -> Vec<u64> {
    world.read(&Reading::Rows { snapshot, table: DIARY }).unwrap()
}

fn price(world: &World, scalar: i64) -> Vec<u64> {
    let filter = Reading::FilteredFiles { snapshot: 5, table: DIARY, column: PRICE, scalar };
    world.read(&filter).unwrap()
}

fn scheduled(world: &World) -> Vec<[u64; 4]> {
    world.scheduled().as_chunks::<4>().0.to_vec()
}

#[test]
fn the_three_lines() {
    let (words, counts) = diary::play(&Counts::of_each(16));
    let lines = diary::lines(&words, &counts, 5, DIARY);
    let file = |low: u64| format!("ducklake-00000000-0000-0000-0000-{low:012}.parquet");
    let expected = format!("data_file,delete_file\n{},{}\n{},\n", file(1), file(4), file(2));
    assert_eq!(lines, Some(expected));
}

/// "M rows at 1: none; M 2: 0 1 2; M 3: 0 to 4; M 4: 0 2 3 4; M 5: 2 3 4."
#[test]
fn rows_at_each_snapshot() {
    let world = session();
    assert_eq!(world.read(&Reading::Rows { snapshot: 0, table: DIARY }), Err(6));
    assert_eq!(rows(&world, 1), []);
    assert_eq!(rows(&world, 2), [0, 1, 2]);
    assert_eq!(rows(&world, 3), [0, 1, 2, 3, 4]);
    assert_eq!(rows(&world, 4), [0, 2, 3, 4]);
    assert_eq!(rows(&world, 5), [2, 3, 4]);
}

/// "M price = 14 at 5: file 0; M 15: none; M 20: file 1."
#[test]
fn files_left_after_a_filter() {
    let world = session();
    assert_eq!(price(&world, 14), [0, 3]);
    assert_eq!(price(&world, 15), []);
    assert_eq!(price(&world, 20), [1, ABSENT]);
}

/// "M by time 119: 1; 99: refusal 7."
#[test]
fn by_time() {
    let world = session();
    assert_eq!(world.read(&Reading::ByTime { t: 119 }), Ok(vec![1]));
    assert_eq!(world.read(&Reading::ByTime { t: 99 }), Err(7));
    assert_eq!(world.read(&Reading::ByTime { t: ABSENT }), Ok(vec![5]));
}

/// "M expire 4 at 160: delete file 2 is scheduled; M cleanup 160: nothing; M cleanup 161: file 2.
/// Expire 5: 19. Drop at 170 is snapshot 6; M expire 0 1 2 3 5 then schedules 0, 1, 3."
#[test]
fn expiry_and_cleanup() {
    let mut world = session();
    world.must(&Call::Expire { ids: vec![4], time: 160 });
    assert_eq!(scheduled(&world), [[2, 0, 3, 160]]);
    assert_eq!(rows(&world, 3), [0, 1, 2, 3, 4]);
    assert_eq!(rows(&world, 5), [2, 3, 4]);

    let mut area = [0; 3];
    let outcome = world.call_on(&Call::Cleanup { t: 160 }, &mut area);
    assert_eq!((outcome.number, outcome.length), (0, 0));
    let outcome = world.call_on(&Call::Cleanup { t: 161 }, &mut area);
    assert_eq!((outcome.number, outcome.length, area), (0, 3, [2, 0, 3]));
    assert_eq!(scheduled(&world), [[0; 4]; 0]);

    assert_eq!(world.number(&Call::Expire { ids: vec![5], time: 160 }), 19);
    world.must(&Call::DropTable { time: 170, table: DIARY });
    assert_eq!(world.read(&Reading::ByTime { t: 170 }), Ok(vec![6]));
    world.must(&Call::Expire { ids: vec![0, 1, 2, 3, 5], time: 180 });
    assert_eq!(scheduled(&world), [[0, 0, 1, 180], [1, 0, 2, 180], [3, 0, 4, 180]]);
    let left = Counts { snapshots: 1, schemas: 1, scheduled: 3, ..Counts::default() };
    assert_eq!(world.counts, left);
}

/// "1,048,576 rows pass; 0 and 1,048,577 give 13."
#[test]
fn record_counts() {
    let insert = |record_count: u64| Call::Insert {
        time: 150,
        table: DIARY,
        record_count,
        uuid: (0, 9),
        statistics: [bounded(ITEM, 0, 1, 3), bounded(PRICE, 0, 9, 14)].concat(),
    };
    let mut world = session();
    assert_eq!(world.number(&insert(0)), 13);
    assert_eq!(world.number(&insert(1_048_577)), 13);
    assert_eq!(world.number(&insert(1_048_576)), 0);
    let all = world.read_on(&Reading::Rows { snapshot: 6, table: DIARY }, 1_048_579).unwrap();
    assert_eq!(all, (2..1_048_581).collect::<Vec<u64>>());
    assert_eq!(world.read_on(&Reading::Rows { snapshot: 6, table: DIARY }, 1_048_578), Err(3));
}

/// "Name of 32 bytes passes; 33: 9."
#[test]
fn names() {
    let named = |length: usize| Call::CreateTable {
        time: 150,
        schema: 0,
        name: vec![b'x'; length],
        columns: vec![1, 0],
        column_names: name_places(&["a"]),
    };
    let mut world = session();
    assert_eq!(world.number(&named(33)), 9);
    assert_eq!(world.number(&named(32)), 0);
    let name = vec![b'x'; 32];
    let by_name = Reading::TableByName { snapshot: 6, schema: 0, name };
    assert_eq!(world.read(&by_name), Ok(vec![2]));
}

/// The other readings at the session's snapshots.
#[test]
fn lists() {
    let world = session();
    let table = DIARY;
    assert_eq!(world.read(&Reading::Schemas { snapshot: 5 }), Ok(vec![0]));
    assert_eq!(world.read(&Reading::Tables { snapshot: 0, schema: 0 }), Ok(vec![]));
    assert_eq!(world.read(&Reading::Tables { snapshot: 1, schema: 0 }), Ok(vec![1]));
    assert_eq!(world.read(&Reading::Columns { snapshot: 1, table }), Ok(vec![1, 2]));
    assert_eq!(world.read(&Reading::Files { snapshot: 3, table }), Ok(vec![0, ABSENT, 1, ABSENT]));
    assert_eq!(world.read(&Reading::Files { snapshot: 4, table }), Ok(vec![0, 2, 1, ABSENT]));
    let name = b"diary".to_vec();
    let by_name = |snapshot| Reading::TableByName { snapshot, schema: 0, name: name.clone() };
    assert_eq!(world.read(&by_name(0)), Err(6));
    assert_eq!(world.read(&by_name(1)), Ok(vec![1]));
    let data_file = vec![0, 1, 2, ABSENT, 3, 0, 0, 1];
    assert_eq!(world.read(&Reading::FindFile { id: 0 }), Ok(data_file));
    let delete_file = vec![2, 1, 4, 5, 0, 1, 0, 3];
    assert_eq!(world.read(&Reading::FindFile { id: 2 }), Ok(delete_file));
    assert_eq!(world.read(&Reading::FindFile { id: 4 }), Err(6));
}

/// "columns of a table by column_order", which need not be the order of ids.
#[test]
fn columns_by_order() {
    let mut world = session();
    let order = 4;
    world.words.columns[order] = 7;
    world.words.columns[7 + order] = 3;
    let columns = Reading::Columns { snapshot: 5, table: DIARY };
    assert_eq!(world.read(&columns), Ok(vec![PRICE, ITEM]));
}

/// "(min missing or scalar ≥ min) and (max missing or scalar ≤ max)"
#[test]
fn missing_bounds_keep_a_file() {
    let mut world = session();
    let half = |low: u64, price: [u64; 6]| Call::Insert {
        time: 160,
        table: DIARY,
        record_count: 2,
        uuid: (0, low),
        statistics: [bounded(ITEM, 0, 6, 7), price].concat(),
    };
    world.must(&half(5, [PRICE, 0, 1, 0, 30, 0]));
    world.must(&half(6, [PRICE, 0, 0, 1, 0, 30]));
    world.must(&half(7, [PRICE, 2, 0, 0, 0, 0]));
    let kept = |scalar: i64| {
        let filter = Reading::FilteredFiles { snapshot: 8, table: DIARY, column: PRICE, scalar };
        let list = world.read(&filter).unwrap();
        list.into_iter().step_by(2).collect::<Vec<u64>>()
    };
    assert_eq!(kept(29), [5, 6]);
    assert_eq!(kept(30), [4, 5, 6]);
    assert_eq!(kept(31), [4, 6]);
    assert_eq!(kept(i64::MIN), [5, 6]);
    assert_eq!(kept(i64::MAX), [4, 6]);
    assert_eq!(kept(20), [1, 5, 6]);
}
