//! A call that may well be accepted by the catalogue as it is; now and then a part of it is spoilt.

use crate::calls::Call;
use crate::catalog::Catalog;
use crate::diary::name_places;
use crate::dice::Dice;
use crate::records::{CatalogId, Column, FileId, SnapshotId, Uuid};

/// Names that calls take, good and bad.
pub const NAMES: [&[u8]; 8] =
    [b"main", b"diary", b"wall", b"list", b"Diary", b"stock_2024", b"", b"no name"];

/// A commit, an expiry or a cleanup.
pub fn any_call(dice: &mut Dice, catalog: &Catalog) -> Call {
    let (latest_id, latest) = catalog.latest();
    let time = match dice.below(24) {
        0 => latest.time.saturating_sub(1),
        step => latest.time.saturating_add(step / 9),
    };
    let schemas = catalog.schemas.iter().filter(|(_, schema)| schema.life.is_live_at(latest_id));
    let schemas: Vec<CatalogId> = schemas.map(|(id, _)| *id).collect();
    let schema = live_or_any(dice, &schemas, latest.next_catalog_id);
    let tables = catalog.tables.iter().filter(|(_, table)| table.life.is_live_at(latest_id));
    let tables: Vec<CatalogId> = tables.map(|(id, _)| *id).collect();
    let table = live_or_any(dice, &tables, latest.next_catalog_id);
    let files = catalog.data_files.iter().filter(|(_, file)| file.life.is_live_at(latest_id));
    let files: Vec<FileId> = files.map(|(id, _)| *id).collect();
    let file = live_or_any(dice, &files, latest.next_file_id);

    // Where nothing is live to work on, mostly something is made first.
    let mut sort = dice.below(24);
    let stubborn = dice.one_in(12);
    for (from, to, lacking) in [(10, 4, &files), (4, 1, &tables), (1, 0, &schemas)] {
        if (from..=16).contains(&sort) && lacking.is_empty() && !stubborn {
            sort = to;
        }
    }
    match sort {
        0 => Call::CreateSchema { time, name: any_name(dice) },
        1..=3 => create_table(dice, time, schema),
        4..=9 => insert(dice, catalog, time, table),
        10..=16 => delete(dice, catalog, time, file),
        17 => Call::DropTable { time, table },
        18 => Call::DropSchema { time, schema },
        19..=21 => expire(dice, catalog, time),
        _ => Call::Cleanup { t: time.saturating_add(dice.below(4)) },
    }
}

/// Mostly one of these; now and then a number up to the next one to be given out.
fn live_or_any(dice: &mut Dice, live: &[u64], next: u64) -> u64 {
    let any = dice.below(next.saturating_add(1));
    if dice.one_in(10) {
        any
    } else {
        dice.pick(live).unwrap_or(any)
    }
}

fn any_name(dice: &mut Dice) -> Vec<u8> {
    NAMES[dice.index(NAMES.len())].to_vec()
}

/// Now and then one that was taken before.
fn any_uuid(dice: &mut Dice, catalog: &Catalog) -> Uuid {
    let (_, latest) = catalog.latest();
    if dice.one_in(6) {
        (0, dice.below(latest.next_file_id.saturating_add(1)))
    } else {
        (0, latest.next_file_id)
    }
}

fn create_table(dice: &mut Dice, time: u64, schema: u64) -> Call {
    let count = 1 + dice.index(3);
    let columns = (0..count).flat_map(|_| [1 + dice.below(8), dice.below(2)]);
    let mut columns: Vec<u64> = columns.collect();
    if dice.one_in(12) {
        columns[0] = 9 * dice.below(2);
    }
    let column_names = name_places(&["item", "price", "stock"][..count]);
    Call::CreateTable { time, schema, name: any_name(dice), columns, column_names }
}

fn insert(dice: &mut Dice, catalog: &Catalog, time: u64, table: u64) -> Call {
    let record_count = if dice.one_in(20) { 1_048_577 * dice.below(2) } else { 1 + dice.below(9) };
    let columns = catalog.columns_of(table);
    let mut statistics: Vec<u64> =
        columns.flat_map(|(id, column)| any_statistics(dice, id, column, record_count)).collect();
    if dice.one_in(16) && !statistics.is_empty() {
        let place = dice.index(statistics.len());
        statistics[place] = dice.below(4);
    }
    Call::Insert { time, table, record_count, uuid: any_uuid(dice, catalog), statistics }
}

/// Bounds that suit every type, but for a spoilt one now and then.
fn any_statistics(dice: &mut Dice, id: u64, column: &Column, record_count: u64) -> [u64; 6] {
    let nulls = if column.nulls_allowed { dice.below(record_count.saturating_add(1)) } else { 0 };
    let given = |dice: &mut Dice| nulls != record_count && !dice.one_in(4);
    let (has_min, has_max) = (given(dice), given(dice));
    let min = if dice.one_in(24) { u64::MAX } else { dice.below(2) };
    let max = if dice.one_in(24) { 300 } else { 1 };
    let bound = |given: bool, word: u64| if given { word } else { 0 };
    let (low, high) = (bound(has_min, min), bound(has_max, max));
    [id, nulls, u64::from(has_min), u64::from(has_max), low, high]
}

/// Positions not yet deleted from the file, but for a spoilt one now and then.
fn delete(dice: &mut Dice, catalog: &Catalog, time: u64, data_file: FileId) -> Call {
    let record_count = catalog.data_files.get(&data_file).map_or(3, |file| file.record_count);
    let delete_file = catalog.delete_files_at(catalog.latest_id()).get(&data_file).copied();
    let deleted = delete_file.and_then(|id| catalog.delete_files.get(&id));
    let is_left = |p: &u64| deleted.is_none_or(|file| !file.positions.contains(p));
    let left: Vec<u64> = (0..record_count.min(12)).filter(is_left).collect();
    let mut positions: Vec<u64> = left.iter().copied().filter(|_| dice.one_in(4)).collect();
    if positions.is_empty() {
        positions.extend(dice.pick(&left));
    }
    match dice.below(12) {
        0 => positions.push(dice.below(record_count.saturating_add(2))),
        1 => {
            let gone =
                deleted.map_or_else(Vec::new, |file| file.positions.iter().copied().collect());
            positions.extend(dice.pick(&gone));
            positions.sort_unstable();
        }
        _ => (),
    }
    Call::Delete { time, data_file, uuid: any_uuid(dice, catalog), positions }
}

fn expire(dice: &mut Dice, catalog: &Catalog, time: u64) -> Call {
    let latest_id = catalog.latest_id();
    let retained: Vec<SnapshotId> = catalog.snapshots.keys().copied().collect();
    let mut ids: Vec<SnapshotId> = retained.iter().copied().filter(|_| dice.one_in(4)).collect();
    if !dice.one_in(8) {
        ids.retain(|id| *id != latest_id);
    }
    if ids.is_empty() && !dice.one_in(8) {
        ids.extend(retained.first());
    }
    if dice.one_in(12) {
        ids.push(dice.below(latest_id.saturating_add(2)));
    }
    // Any word: also one below the times of snapshots.
    let time = if dice.one_in(8) { dice.below(100) } else { time.saturating_add(dice.below(4)) };
    Call::Expire { ids, time }
}
