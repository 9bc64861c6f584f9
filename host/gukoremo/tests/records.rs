//! The records of a catalogue as values, and of tables that hold anything.

use gukoremo::number::ABSENT;
use gukoremo::{
    Catalog, CatalogId, Change, Column, ColumnType, Counts, DataFile, DeleteFile, File, FileId, Lend, Life, NewColumn, NewStatistics, OwnedTables,
    Refusal, RowId, Scheduled, Schema, Snapshot, SnapshotId, Statistics, Table, TablesView, Uuid,
};

const DIARY: CatalogId = CatalogId(1);

fn life(begin: u64, end: Option<u64>) -> Life {
    Life { begin: SnapshotId(begin), end: end.map(SnapshotId) }
}

/// A table that was dropped, one that is there, two files, two delete files, and one that is scheduled.
fn session() -> Result<Catalog<OwnedTables>, Refusal> {
    let columns = [
        NewColumn { name: "item", column_type: ColumnType::Int64, nulls_allowed: false },
        NewColumn { name: "paid", column_type: ColumnType::Boolean, nulls_allowed: true },
    ];
    let statistics = |nulls: u64| {
        [
            NewStatistics { column: 1, null_count: 0, min: Some(-3), max: None },
            NewStatistics { column: 2, null_count: nulls, min: None, max: Some(1) },
        ]
    };
    let mut catalog = Catalog::fresh(OwnedTables::with_room(Counts::each(12)), 100)?;
    catalog.create_table(110, CatalogId(0), "diary", &columns)?;
    catalog.insert(120, DIARY, 3, Uuid::from_u128(1), &statistics(0))?;
    catalog.insert(130, DIARY, 2, Uuid::from_u128(2), &statistics(1))?;
    catalog.delete(140, FileId(0), Uuid::from_u128(3), &[1])?;
    catalog.delete(150, FileId(0), Uuid::from_u128(4), &[0])?;
    catalog.delete(160, FileId(1), Uuid::from_u128(5), &[1])?;
    let wall = catalog.create_table(170, CatalogId(0), "wall", &columns[..1])?.table;
    catalog.drop_table(180, wall)?;
    catalog.expire(&[SnapshotId(4)], 190)?;
    Ok(catalog)
}

#[test]
fn every_record_of_a_session() {
    let catalog = session().expect("room");
    let records = catalog.records();
    let ids: Vec<u64> = records.snapshots().map(|snapshot| snapshot.id.0).collect();
    assert_eq!(ids, [0, 1, 2, 3, 5, 6, 7, 8]);
    let latest = Snapshot {
        id: SnapshotId(8),
        time: 180,
        schema_version: 3,
        next_catalog_id: CatalogId(3),
        next_file_id: FileId(5),
        change: Change::DroppedTable(CatalogId(2)),
    };
    assert_eq!((records.latest(), records.snapshot(SnapshotId(8)), records.snapshot(SnapshotId(4))), (Some(latest), Some(latest), None));
    assert_eq!(records.schemas().collect::<Vec<Schema>>(), [Schema { id: CatalogId(0), life: life(0, None), name: "main".to_string() }]);
    let table = |id: u64, life: Life, next_row: u64, name: &str| Table {
        id: CatalogId(id),
        life,
        schema: CatalogId(0),
        next_row_id: RowId(next_row),
        name: name.to_string(),
    };
    assert_eq!(records.tables().collect::<Vec<Table>>(), [table(1, life(1, None), 5, "diary"), table(2, life(7, Some(8)), 0, "wall")]);
    assert_eq!((records.table(DIARY), records.table(CatalogId(0))), (records.tables().next(), None));
    let columns: Vec<Column> = records.columns_of(DIARY).collect();
    let paid = Column {
        id: 2,
        table: DIARY,
        life: life(1, None),
        order: columns[1].order,
        column_type: ColumnType::Boolean,
        nulls_allowed: true,
        name: "paid".to_string(),
    };
    assert_eq!((columns.len(), &columns[1], columns[0].nulls_allowed, records.columns().count()), (2, &paid, false, 3));
    let file = DataFile { id: FileId(1), table: DIARY, life: life(3, None), record_count: 2, row_id_start: RowId(3), uuid: Uuid::from_u128(2) };
    assert_eq!((records.data_file(FileId(1)), records.data_files().nth(1), records.data_file(FileId(3))), (Some(file), Some(file), None));
    let deletes = DeleteFile { id: FileId(3), table: DIARY, life: life(5, None), data_file: FileId(0), delete_count: 2, uuid: Uuid::from_u128(4) };
    assert_eq!((records.delete_file(FileId(3)), records.delete_file(FileId(2))), (Some(deletes), None));
    // file 2 was shown by snapshot 4 alone
    let positions: Vec<(u64, &[u64])> = records.deletes().map(|(file, positions)| (file.id.0, positions)).collect();
    assert_eq!(positions, [(3, &[0, 1][..]), (4, &[1])]);
    assert_eq!((records.positions_of(FileId(4)), records.positions_of(FileId(2))), (Some(&[1][..]), None));
    assert_eq!(records.scheduled().collect::<Vec<Scheduled>>(), [Scheduled { file: FileId(2), uuid: Uuid::from_u128(3), schedule_start: 190 }]);
    let of_column =
        |column: u64, null_count: u64, min: Option<i64>, max: Option<i64>| Statistics { data_file: FileId(1), column, null_count, min, max };
    let statistics: Vec<Statistics> = records.statistics_of(FileId(1)).collect();
    assert_eq!(statistics, [of_column(1, 0, Some(-3), None), of_column(2, 1, None, Some(1))]);
    assert_eq!((records.statistics().count(), records.statistics_of(FileId(3)).count()), (4, 0));
    // a lookup finds what is on record
    for id in 0..7 {
        let found = catalog.find_file(FileId(id)).ok();
        let known = records.data_file(FileId(id)).map(File::Data).or(records.delete_file(FileId(id)).map(File::Delete));
        assert_eq!(found, known, "file {id}");
        assert!(found.is_none_or(|file| (file.id(), file.table()) == (FileId(id), DIARY)));
    }
}

/// All that can be read, and how many records there were of each kind.
fn read_all(view: TablesView<'_>, counts: Counts) -> Counts {
    let records = view.records(counts);
    for id in [0, 1, 7, u64::MAX] {
        let found = (records.snapshot(SnapshotId(id)), records.schema(CatalogId(id)), records.table(CatalogId(id)));
        assert!(found.0.is_none_or(|one| one.id.0 == id) && found.1.is_none_or(|one| one.id.0 == id) && found.2.is_none_or(|one| one.id.0 == id));
        assert!(records.columns_of(CatalogId(id)).all(|column| column.table.0 == id));
        assert!(records.statistics_of(FileId(id)).all(|one| one.data_file.0 == id));
        assert_eq!(records.positions_of(FileId(id)).is_some(), records.delete_file(FileId(id)).is_some());
        assert_eq!(records.file_of(&[id; 8]).id(), FileId(id));
    }
    Counts {
        snapshots: records.snapshots().count(),
        schemas: records.schemas().count(),
        tables: records.tables().count(),
        columns: records.columns().count(),
        data_files: records.data_files().count(),
        delete_files: records.delete_files().count(),
        positions: records.deletes().map(|(_, positions)| positions.len()).sum(),
        statistics: records.statistics().count(),
        scheduled: records.scheduled().count(),
    }
}

#[test]
fn any_tables_and_counts_are_read() {
    let mut seed = 7_u64;
    let mut chance = || {
        seed ^= seed << 13;
        seed ^= seed >> 7;
        seed ^= seed << 17;
        seed
    };
    for round in 0..2_000 {
        // runs of any length, not of whole records; words that are small, absent or anything
        let mut words = |limit: u64| -> Vec<u64> {
            let length = chance() % limit;
            (0..length)
                .map(|_| match chance() % 4 {
                    0 => ABSENT,
                    1 => chance(),
                    _ => chance() % 9,
                })
                .collect()
        };
        let (names, others) = (words(200), words(200));
        let tables = OwnedTables {
            snapshots: words(60),
            schemas: words(30),
            schema_names: names.iter().map(|word| *word as u8).collect(),
            tables: words(40),
            table_names: others.iter().map(|word| *word as u8).collect(),
            columns: words(60),
            column_names: names.iter().rev().map(|word| (*word >> 3) as u8).collect(),
            data_files: words(60),
            delete_files: words(60),
            positions: words(20),
            statistics: words(60),
            scheduled: words(30),
        };
        let room = tables.view().room();
        let most = if round % 2 == 0 { usize::MAX } else { 3 };
        let read = read_all(tables.view(), Counts::each(most));
        let expected = |of_room: usize| of_room.min(most);
        assert_eq!((read.snapshots, read.schemas, read.tables), (expected(room.snapshots), expected(room.schemas), expected(room.tables)));
        assert_eq!(
            (read.columns, read.data_files, read.delete_files),
            (expected(room.columns), expected(room.data_files), expected(room.delete_files))
        );
        assert_eq!((read.statistics, read.scheduled), (expected(room.statistics), expected(room.scheduled)));
        assert!(read.positions <= expected(room.positions));
        assert_eq!(read_all(tables.view(), Counts::NONE), Counts::NONE);
        let catalog = Catalog::resume(tables, Counts::each(most));
        assert_eq!(catalog.find_file(FileId(1)), Err(Refusal::NotSound));
    }
}

#[test]
fn names_and_codes_of_tables_that_are_not_sound() {
    let (mut tables, counts) = session().expect("room").into_parts();
    tables.table_names[..32].fill(b'n');
    tables.column_names[..4].copy_from_slice(&[0xff, b'a', 0, b'b']);
    tables.columns[5] = 77;
    tables.snapshots[5] = 5;
    let catalog = Catalog::resume(tables, counts);
    let records = catalog.records();
    assert!(catalog.first_unsound().is_some());
    assert_eq!(records.table(DIARY).map(|table| table.name), Some("n".repeat(32)));
    let first = records.columns().next().expect("a column");
    assert_eq!(
        (first.name.as_str(), first.column_type, first.column_type.to_string()),
        ("\u{fffd}a", ColumnType::Unknown(77), "unknown".to_string())
    );
    assert_eq!(records.snapshots().next().map(|first| first.change), Some(Change::Unknown { kind: 5, object: CatalogId(0) }));
}
