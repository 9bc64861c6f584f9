//! The diary session.

use crate::calls::{perform, Call};
use crate::lent::{Counts, Words, NAME_SIZE};
use crate::load::load;
use crate::paths::path;
use crate::readings::files::list_files;
use crate::records::{CatalogId, FileId, SnapshotId, Uuid};

/// The table's id, and its columns.
pub const DIARY: CatalogId = 1;
pub const ITEM: u64 = 1;
pub const PRICE: u64 = 2;

/// Name places for a call's columns.
pub fn name_places(names: &[&str]) -> Vec<u8> {
    let mut places = vec![0; names.len() * NAME_SIZE];
    for (place, name) in places.as_chunks_mut::<NAME_SIZE>().0.iter_mut().zip(names) {
        let length = name.len().min(NAME_SIZE);
        place[..length].copy_from_slice(&name.as_bytes()[..length]);
    }
    places
}

/// A statistics record of a call, both bounds given.
pub fn bounded(column: u64, null_count: u64, min: i64, max: i64) -> [u64; 6] {
    [column, null_count, 1, 1, min as u64, max as u64]
}

fn insert(time: u64, count: u64, uuid: Uuid, statistics: [[u64; 6]; 2]) -> Call {
    let statistics = statistics.concat();
    Call::Insert { time, table: DIARY, record_count: count, uuid, statistics }
}

fn delete(time: u64, data_file: FileId, uuid: Uuid, position: u64) -> Call {
    Call::Delete { time, data_file, uuid, positions: vec![position] }
}

/// "Fresh at time 100. 110: table `diary` in schema 0, `item` int64 without nulls, `price` int64
/// with. 120: 3 rows, item 1 to 3, price 9 to 14, no nulls. 130: 2 rows, item 4 to 5, price 20 to
/// 20, one null. 140: delete position 1 of file 0. 150: delete position 0 of file 0. UUIDs: high 0;
/// low 1, 2, 3, 4."
pub fn calls() -> Vec<Call> {
    let table = Call::CreateTable {
        time: 110,
        schema: 0,
        name: b"diary".to_vec(),
        columns: vec![4, 0, 4, 1],
        column_names: name_places(&["item", "price"]),
    };
    vec![
        Call::Fresh { time: 100 },
        table,
        insert(120, 3, (0, 1), [bounded(ITEM, 0, 1, 3), bounded(PRICE, 0, 9, 14)]),
        insert(130, 2, (0, 2), [bounded(ITEM, 0, 4, 5), bounded(PRICE, 1, 20, 20)]),
        delete(140, 0, (0, 3), 1),
        delete(150, 0, (0, 4), 0),
    ]
}

/// Tables with these places after the session up to time 150.
pub fn play(places: &Counts) -> (Words, Counts) {
    let mut words = Words::lend(places);
    let mut counts = Counts::default();
    for call in calls() {
        counts = perform(&mut words, &counts, &call, &mut []).counts;
    }
    (words, counts)
}

/// "a header line, then the files at 5: path of the data file, comma, path of the delete file or
/// nothing, lines ended by LF". None where the files can't be listed.
pub fn lines(
    words: &Words,
    counts: &Counts,
    snapshot: SnapshotId,
    table: CatalogId,
) -> Option<String> {
    let catalog = load(words, counts).ok()?;
    let mut area = vec![0; 2 * catalog.data_files.len()];
    let outcome = list_files(words, counts, snapshot, table, &mut area);
    if outcome.number != 0 {
        return None;
    }
    let mut text = String::from("data_file,delete_file\n");
    for [data_file, delete_file] in area[..outcome.length].as_chunks::<2>().0 {
        text += &path(catalog.data_files.get(data_file)?.uuid);
        text += ",";
        text += &catalog.delete_files.get(delete_file).map_or(String::new(), |f| path(f.uuid));
        text += "\n";
    }
    Some(text)
}
