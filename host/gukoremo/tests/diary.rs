//! Document 01's diary session through the safe calls: its marked cases and the others, on tables that are owned and on tables that are lent.

use gukoremo::session::{CallRecord, MADE_FRESH};
use gukoremo::{
    CallList, Catalog, CatalogId, Change, ColumnType, Counts, File, FileId, Handed, Lend, Line, Listed, NewColumn, NewStatistics, OwnedTables,
    Refusal, SnapshotId, Uuid,
};

const MAIN: CatalogId = CatalogId(0);
const DIARY: CatalogId = CatalogId(1);

/// A little more than the session needs.
const ROOM: Counts =
    Counts { snapshots: 8, schemas: 1, tables: 2, columns: 4, data_files: 3, delete_files: 2, positions: 3, statistics: 6, scheduled: 3 };

fn uuid(low: u64) -> Uuid {
    Uuid { high: 0, low }
}

fn statistics(item: (i64, i64), price: (i64, i64), nulls: u64) -> [NewStatistics; 2] {
    [
        NewStatistics { column: 1, null_count: 0, min: Some(item.0), max: Some(item.1) },
        NewStatistics { column: 2, null_count: nulls, min: Some(price.0), max: Some(price.1) },
    ]
}

fn columns<'a>() -> [NewColumn<'a>; 2] {
    [
        NewColumn { name: "item", column_type: ColumnType::Int64, nulls_allowed: false },
        NewColumn { name: "price", column_type: ColumnType::Int64, nulls_allowed: true },
    ]
}

/// The session up to time 150.
fn play<T: Lend>(tables: T) -> Result<Catalog<T>, Refusal> {
    let mut catalog = Catalog::fresh(tables, 100)?;
    assert_eq!(catalog.create_table(110, MAIN, "diary", &columns())?.table, DIARY);
    assert_eq!(catalog.insert(120, DIARY, 3, uuid(1), &statistics((1, 3), (9, 14), 0))?.data_file, FileId(0));
    assert_eq!(catalog.insert(130, DIARY, 2, uuid(2), &statistics((4, 5), (20, 20), 1))?.snapshot.id, SnapshotId(3));
    assert_eq!(catalog.delete(140, FileId(0), uuid(3), &[1])?.delete_file, FileId(2));
    assert_eq!(catalog.delete(150, FileId(0), uuid(4), &[0])?.snapshot.change, Change::DeletedFromTable(DIARY));
    Ok(catalog)
}

/// The same as a list, from Fresh on.
fn session() -> CallList {
    let mut list = CallList::fresh(100);
    list.push_create_table(110, MAIN, "diary", &columns());
    list.push_insert(120, DIARY, 3, uuid(1), &statistics((1, 3), (9, 14), 0));
    list.push_insert(130, DIARY, 2, uuid(2), &statistics((4, 5), (20, 20), 1));
    list.push_delete(140, FileId(0), uuid(3), &[1]);
    list.push_delete(150, FileId(0), uuid(4), &[0]);
    list
}

/// A catalogue of so much room before any call.
fn empty(room: Counts) -> Catalog<OwnedTables> {
    Catalog::resume(OwnedTables::with_room(room), Counts::NONE)
}

/// What a list gives, with room for every answer.
fn given<T: Lend>(catalog: &mut Catalog<T>, list: &CallList) -> Vec<Result<Vec<u64>, Refusal>> {
    let mut area = vec![0; catalog.room_for(list)];
    catalog.play(list, &mut area).into_iter().map(|answer| answer.map(<[u64]>::to_vec)).collect()
}

fn handed(file: u64, low: u64) -> Handed {
    Handed { file: FileId(file), uuid: uuid(low) }
}

fn rows<T: Lend>(catalog: &Catalog<T>, snapshot: u64) -> Vec<u64> {
    catalog.list_rows(SnapshotId(snapshot), DIARY).unwrap().iter().map(|row| row.0).collect()
}

/// The line of 'Sound tables' that tables break first.
fn first_line(tables: &OwnedTables, counts: Counts) -> Option<Line> {
    Catalog::resume(tables.clone(), counts).first_unsound()
}

#[test]
fn rows_files_and_times() {
    let catalog = play(OwnedTables::with_room(ROOM)).unwrap();
    // "M rows at 1: none; M 2: 0 1 2; M 3: 0 to 4; M 4: 0 2 3 4; M 5: 2 3 4."
    let shown: Vec<Vec<u64>> = (1..=5).map(|snapshot| rows(&catalog, snapshot)).collect();
    assert_eq!(shown, [vec![], vec![0, 1, 2], vec![0, 1, 2, 3, 4], vec![0, 2, 3, 4], vec![2, 3, 4]]);
    // "M price = 14 at 5: file 0; M 15: none; M 20: file 1."
    let first = Listed { data_file: FileId(0), delete_file: Some(FileId(3)) };
    let second = Listed { data_file: FileId(1), delete_file: None };
    let price = |scalar| catalog.list_filtered_files(SnapshotId(5), DIARY, 2, scalar).unwrap();
    assert_eq!((price(14), price(15), price(20)), (vec![first], vec![], vec![second]));
    assert_eq!(catalog.list_files(SnapshotId(5), DIARY).unwrap(), [first, second]);
    // "M by time 119: 1; 99: refusal 7."
    assert_eq!(catalog.snapshot_by_time(119), Ok(SnapshotId(1)));
    assert_eq!(catalog.snapshot_by_time(99).err(), Some(Refusal::NoSnapshotByThen));
    // what the session made, by every other reading
    assert_eq!(catalog.list_schemas(SnapshotId(0)).unwrap(), [MAIN]);
    assert_eq!(catalog.list_tables(SnapshotId(0), MAIN).unwrap(), []);
    assert_eq!(catalog.list_tables(SnapshotId(1), MAIN).unwrap(), [DIARY]);
    assert_eq!(catalog.list_columns(SnapshotId(5), DIARY).unwrap(), [1, 2]);
    assert_eq!(catalog.table_by_name(SnapshotId(5), MAIN, "diary"), Ok(DIARY));
    assert_eq!(catalog.table_by_name(SnapshotId(5), MAIN, "Diary").err(), Some(Refusal::NotLive));
    assert!(matches!(catalog.find_file(FileId(1)), Ok(File::Data(file)) if file.record_count == 2 && file.row_id_start.0 == 3));
    assert!(matches!(catalog.find_file(FileId(3)), Ok(File::Delete(file)) if file.data_file == FileId(0) && file.delete_count == 2));
    assert_eq!(catalog.find_file(FileId(3)).unwrap().uuid().path(), "ducklake-00000000-0000-0000-0000-000000000004.parquet");
}

#[test]
fn expiry_and_cleanup() {
    let mut catalog = play(OwnedTables::with_room(ROOM)).unwrap();
    // "M expire 4 at 160: delete file 2 is scheduled; M cleanup 160: nothing; M cleanup 161: file 2. Expire 5: 19."
    catalog.expire(&[SnapshotId(4)], 160).unwrap();
    assert_eq!(catalog.counts().scheduled, 1);
    assert_eq!(catalog.cleanup(160).unwrap(), []);
    assert_eq!(catalog.cleanup(161).unwrap(), [handed(2, 3)]);
    assert_eq!(catalog.expire(&[SnapshotId(5)], 165).err(), Some(Refusal::ExpiresLatest));
    // "Drop at 170 is snapshot 6; M expire 0 1 2 3 5 then schedules 0, 1, 3."
    assert_eq!(catalog.drop_table(170, DIARY).unwrap().id, SnapshotId(6));
    catalog.expire(&[0, 1, 2, 3, 5].map(SnapshotId), 180).unwrap();
    assert_eq!(catalog.cleanup(181).unwrap(), [handed(0, 1), handed(1, 2), handed(3, 4)]);
}

#[test]
fn a_list_is_its_calls_one_by_one() {
    let mut catalog = empty(ROOM);
    let list = session();
    assert_eq!(list.len(), 6);
    assert_eq!(given(&mut catalog, &list), vec![Ok(vec![]); 6]);
    assert_eq!(catalog.into_parts(), play(OwnedTables::with_room(ROOM)).unwrap().into_parts());
}

#[test]
fn a_list_with_readings() {
    let mut list = session();
    for snapshot in 1..=5 {
        list.push_list_rows(SnapshotId(snapshot), DIARY);
    }
    for scalar in [14, 15, 20] {
        list.push_list_filtered_files(SnapshotId(5), DIARY, 2, scalar);
    }
    list.push_list_files(SnapshotId(5), DIARY);
    list.push_snapshot_by_time(119);
    list.push_snapshot_by_time(99);
    list.push_list_schemas(SnapshotId(0));
    list.push_list_tables(SnapshotId(0), MAIN);
    list.push_list_tables(SnapshotId(1), MAIN);
    list.push_list_columns(SnapshotId(5), DIARY);
    list.push_table_by_name(SnapshotId(5), MAIN, "diary");
    list.push_table_by_name(SnapshotId(5), MAIN, "Diary");
    list.push_find_file(FileId(1));
    list.push_find_file(FileId(4));
    let mut catalog = empty(ROOM);
    let mut area = vec![0; catalog.room_for(&list)];
    let given = catalog.play(&list, &mut area)[6..].to_vec();
    // "M rows at 1: none; M 2: 0 1 2; M 3: 0 to 4; M 4: 0 2 3 4; M 5: 2 3 4."
    assert_eq!(given[..5], [Ok(&[][..]), Ok(&[0, 1, 2]), Ok(&[0, 1, 2, 3, 4]), Ok(&[0, 2, 3, 4]), Ok(&[2, 3, 4])]);
    // "M price = 14 at 5: file 0; M 15: none; M 20: file 1."
    let first = Listed { data_file: FileId(0), delete_file: Some(FileId(3)) };
    let second = Listed { data_file: FileId(1), delete_file: None };
    let listed: Vec<Vec<Listed>> = given[5..9].iter().map(|answer| Listed::read_all(answer.unwrap())).collect();
    assert_eq!(listed, [vec![first], vec![], vec![second], vec![first, second]]);
    // "M by time 119: 1; 99: refusal 7."
    assert_eq!(given[9..11], [Ok(&[1][..]), Err(Refusal::NoSnapshotByThen)]);
    assert_eq!(given[11..17], [Ok(&[0][..]), Ok(&[]), Ok(&[1]), Ok(&[1, 2]), Ok(&[1]), Err(Refusal::NotLive)]);
    // readings change nothing
    let words = given[17].unwrap().try_into().unwrap();
    assert_eq!(catalog.find_file(FileId(1)), Ok(catalog.records().file_of(words)));
    assert_eq!(given[18..], [Err(Refusal::NotLive)]);
    assert_eq!(catalog.into_parts(), play(OwnedTables::with_room(ROOM)).unwrap().into_parts());
}

#[test]
fn a_list_ends_before_what_asks_for_nothing() {
    let before = session().len();
    let played = |bend: &dyn Fn(&mut CallList)| {
        let mut list = session();
        bend(&mut list);
        list.push_drop_table(160, DIARY);
        let mut catalog = empty(ROOM);
        let played = given(&mut catalog, &list).len();
        assert_eq!(catalog.into_parts() == play(OwnedTables::with_room(ROOM)).unwrap().into_parts(), played == before);
        played
    };
    // a drop that takes none of its spans, and one of them
    let bent = |word: usize, start: u64, length: u64| {
        played(&|list| {
            list.push_drop_table(155, CatalogId(7));
            let record = list.calls.len() - CallRecord::SIZE;
            list.calls[record + word..][..2].copy_from_slice(&[start, length]);
        })
    };
    assert_eq!(played(&|_| ()), before + 1);
    assert_eq!(played(&|list| list.push(CallRecord { time: 150, ..CallRecord::of(5) }, &[], &[], &[])), before);
    assert_eq!(played(&|list| list.push(CallRecord { time: 150, ..CallRecord::of(MADE_FRESH) }, &[], &[], &[])), before);
    let (words, bytes) = (session().lists.len() as u64, session().names.len() as u64);
    for (word, size) in [(CallRecord::WORDS_START, words), (CallRecord::NAME_START, bytes), (CallRecord::NAMES_START, bytes)] {
        for (start, length) in [(0, 0), (0, size), (size, 0), (1, size - 1)] {
            assert_eq!(bent(word, start, length), before + 2);
        }
        for (start, length) in [(0, size + 1), (size, 1), (size + 1, 0), (1, size), (1, u64::MAX), (u64::MAX, 1), (u64::MAX, u64::MAX)] {
            assert_eq!(bent(word, start, length), before);
        }
    }
}

#[test]
fn an_answer_without_room_is_refused_and_the_list_goes_on() {
    let mut list = session();
    list.push_list_rows(SnapshotId(2), DIARY);
    list.push_list_rows(SnapshotId(3), DIARY);
    list.push_expire(&[SnapshotId(4)], 160);
    list.push_cleanup(161);
    list.push_list_schemas(SnapshotId(5));
    list.push_cleanup(161);
    let mut catalog = empty(ROOM);
    // three rows, not five, one schema, and not the file's three words
    let mut area = [77; 5];
    let none = Ok(&[][..]);
    let short = Err(Refusal::ShortAnswerArea);
    assert_eq!(catalog.play(&list, &mut area)[6..], [Ok(&[0, 1, 2][..]), short, none, short, Ok(&[0]), short]);
    assert_eq!(area, [0, 1, 2, 0, 77]);
    assert_eq!(catalog.cleanup(161).unwrap(), [handed(2, 3)]);
}

#[test]
fn a_list_with_maintenance_and_refusals() {
    let room = Counts { snapshots: 10, schemas: 2, delete_files: 3, positions: 4, scheduled: 4, ..ROOM };
    let mut catalog = empty(room);
    let none = || Ok(vec![]);
    let mut list = session();
    list.push_delete(155, FileId(1), uuid(5), &[1]);
    list.push_delete(155, FileId(1), uuid(6), &[0, 1]);
    list.push_delete(155, FileId(1), uuid(6), &[0]);
    list.push_create_schema(155, "1 2");
    assert_eq!(given(&mut catalog, &list)[6..], [none(), Err(Refusal::AlreadyDeleted { index: 1 }), Err(Refusal::NoRoom), Err(Refusal::BadName)]);

    let mut list = CallList::new();
    list.push_expire(&[SnapshotId(4)], 160);
    list.push_cleanup(160);
    list.push_cleanup(161);
    list.push_expire(&[SnapshotId(6)], 165);
    list.push_drop_table(170, DIARY);
    list.push_create_schema(170, "sales");
    list.push_drop_schema(170, CatalogId(2));
    list.push_expire(&[0, 1, 2, 3, 5, 6].map(SnapshotId), 180);
    list.push_cleanup(181);
    list.push_list_schemas(SnapshotId(8));
    list.push_list_schemas(SnapshotId(9));
    let answers = given(&mut catalog, &list);
    assert_eq!(answers[..2], [none(), none()]);
    assert_eq!(answers[2].as_deref().map(Handed::read_all), Ok(vec![handed(2, 3)]));
    assert_eq!(answers[3..8], [Err(Refusal::ExpiresLatest), none(), none(), none(), none()]);
    assert_eq!(answers[8].as_deref().map(Handed::read_all), Ok(vec![handed(0, 1), handed(1, 2), handed(3, 4), handed(4, 5)]));
    assert_eq!(answers[9..], [Ok(vec![0, 2]), Ok(vec![0])]);

    // no list is refused, whatever the tables and the counts are; Fresh makes tables of them
    let most = Counts { scheduled: usize::MAX, data_files: usize::MAX, delete_files: usize::MAX, ..catalog.counts() };
    let mut unsound = Catalog::resume(catalog.into_parts().0, most);
    assert_eq!(given(&mut unsound, &list), vec![Err(Refusal::NotSound); 11]);
    assert_eq!((given(&mut unsound, &CallList::new()), unsound.counts()), (vec![], most));
    assert_eq!(given(&mut unsound, &session()), vec![none(); 6]);
}

#[test]
fn refusals_change_nothing() {
    let mut catalog = play(OwnedTables::with_room(ROOM)).unwrap();
    let before = catalog.counts();
    // "1,048,576 rows pass; 0 and 1,048,577 give 13. Name of 32 bytes passes; 33: 9."
    for record_count in [0, 1_048_577] {
        assert_eq!(catalog.insert(160, DIARY, record_count, uuid(5), &statistics((1, 1), (1, 1), 0)).err(), Some(Refusal::BadRecordCount));
    }
    assert_eq!(catalog.create_table(160, MAIN, "n".repeat(33), &columns()).err(), Some(Refusal::BadName));
    let long = "n".repeat(33);
    let too_long = [NewColumn { name: &long, column_type: ColumnType::Int8, nulls_allowed: true }];
    assert_eq!(catalog.create_table(160, MAIN, "t", &too_long).err(), Some(Refusal::BadColumns));
    let again = catalog.delete(160, FileId(0), uuid(5), &[0, 2]).unwrap_err();
    assert_eq!((again, again.number()), (Refusal::AlreadyDeleted { index: 0 }, 17));
    assert_eq!(again.to_string(), "refused with 17: a position already deleted, at 0 of the list");
    assert_eq!(catalog.delete(160, FileId(0), uuid(5), &[2]).err(), Some(Refusal::NoRoom));
    assert_eq!(catalog.counts(), before);
    // the other side
    let room = Counts { snapshots: 10, schemas: 2, ..ROOM };
    let mut roomy = play(OwnedTables::with_room(room)).unwrap();
    roomy.insert(160, DIARY, 1_048_576, uuid(5), &statistics((1, 1), (1, 1), 0)).unwrap();
    roomy.create_table(160, MAIN, "n".repeat(32), &columns()).unwrap();
    assert_eq!(roomy.list_rows(SnapshotId(6), DIARY).unwrap().len(), 3 + 1_048_576);
    let sales = roomy.create_schema(170, "sales").unwrap().schema;
    assert_eq!(roomy.list_schemas(SnapshotId(8)).unwrap(), [MAIN, sales]);
    assert_eq!(roomy.drop_schema(180, MAIN).err(), Some(Refusal::SchemaNotEmpty));
    roomy.drop_schema(180, sales).unwrap();
    assert_eq!(roomy.list_schemas(SnapshotId(9)).unwrap(), [MAIN]);
}

#[test]
fn lent_tables_and_tables_that_were_kept() {
    let mut kept = OwnedTables::with_room(ROOM);
    let counts = play(kept.lend()).unwrap().counts();
    let catalog = Catalog::resume(kept.clone(), counts);
    assert_eq!(rows(&catalog, 5), [2, 3, 4]);
    assert_eq!(catalog.first_unsound(), None);
    // whatever the tables and the counts are
    kept.snapshots[0] = 77;
    assert_eq!(Catalog::resume(kept.lend(), counts).list_schemas(SnapshotId(5)).err(), Some(Refusal::NotSound));
    assert_eq!(first_line(&kept, counts), Some(Line::Snapshots));
    let most = Counts { scheduled: usize::MAX, ..counts };
    assert_eq!(Catalog::resume(kept.lend(), most).cleanup(u64::MAX).err(), Some(Refusal::NotSound));
    assert_eq!(first_line(&kept, most), Some(Line::Fields));
    let said = Catalog::resume(kept.lend(), counts).first_unsound().map(|line| line.to_string()).unwrap_or_default();
    assert!(said.starts_with("line 2 of 'Sound tables' fails first: \"at least one snapshot; "), "{said}");
    kept.snapshots[0] = 0;
    assert_eq!(first_line(&kept, Counts { positions: 2, ..counts }), Some(Line::Deletes));
    assert_eq!(Catalog::fresh(OwnedTables::default(), 100).map(|_| ()).err(), Some(Refusal::NoRoom));
}

/// Rows by the thousand are one answer; more than there may be are refused, and nothing is taken for them.
#[test]
fn many_rows() {
    const FILES: usize = 258;
    let room = Counts {
        snapshots: FILES + 2,
        schemas: 1,
        tables: 1,
        columns: 2,
        data_files: FILES,
        delete_files: 0,
        positions: 0,
        statistics: 2 * FILES,
        scheduled: 0,
    };
    let mut lake = Catalog::fresh(OwnedTables::with_room(room), 100).expect("room");
    lake.create_table(110, MAIN, "diary", &columns()).expect("a table");
    let mut list = CallList::new();
    for low in 0..FILES as u64 {
        let rows = if low == 0 { 65_281 } else { 1 << 20 };
        list.push_insert(120, DIARY, rows, uuid(low), &statistics((1, 2), (3, 4), 0));
    }
    assert!(lake.play(&list, &mut []).iter().all(Result::is_ok));
    let rows = lake.list_rows(SnapshotId(2), DIARY).expect("the first file's");
    assert_eq!((rows.len(), rows[0].0, rows[65_280].0), (65_281, 0, 65_280));
    let latest = SnapshotId(FILES as u64 + 1);
    assert_eq!(lake.list_rows(latest, DIARY).expect_err("too many"), Refusal::ShortAnswerArea);
    assert_eq!(lake.list_rows(latest, CatalogId(7)).expect_err("no such table"), Refusal::NotLive);
    assert_eq!(lake.list_files(latest, DIARY).expect("files").len(), FILES);
}

/// The examples of the methods go on from the catalogue of the crate's page.
#[test]
fn the_page_makes_the_catalogue_of_the_examples() {
    let page = include_str!("../src/lib.rs");
    let lines: Vec<&str> =
        include_str!("../src/diary.in").lines().map(str::trim).filter(|line| line.starts_with("let ") || line.starts_with("catalog.")).collect();
    assert!(lines.len() > 4 && lines.iter().all(|line| page.contains(&format!("//! {line}\n"))), "{lines:?}");
}
