//! Changes played in one list of calls, for which the tables are judged once, up to the first that is refused.

use super::change::Change;
use super::done::Done;
use super::live::{Live, Missing};
use super::plan::{new_statistics, plan, Planned};
use crate::ask::{self, timed};
use crate::failure::Failure;
use crate::file::Lake;
use crate::refused::{refuse, Asked};
use crate::storage;
use gukoremo::session::CallRecord;
use gukoremo::{CallList, Catalog, CatalogId, Column, Handed, Refusal, SnapshotId};
use std::collections::{BTreeMap, HashSet};

/// The catalogue after the changes that were made, what these did, and why the next was not.
pub struct Played {
    pub lake: Lake,
    pub done: Vec<Done>,
    pub failure: Option<Failure>,
}

/// Plays changes, each on what the one before left, up to the first that is refused.
pub fn play(lake: Lake, changes: &[Change]) -> Played {
    let mut all = Played { lake, done: Vec::new(), failure: None };
    while all.done.len() < changes.len() && all.failure.is_none() {
        let Played { lake, done, failure } = play_list(all.lake, &changes[all.done.len()..]);
        all.done.extend(done);
        all = Played { lake, failure, ..all };
    }
    all
}

/// Plays the first of these changes, at least one, as one list. An expiry begins a list: what it schedules is what is scheduled after the list or was handed out in
/// it, and was not scheduled before.
fn play_list(lake: Lake, changes: &[Change]) -> Played {
    let mut list = CallList::new();
    let mut live = Live::of(&lake);
    let mut planned = Vec::new();
    let mut missing = None;
    for change in changes {
        if matches!(change, Change::Expire { .. }) && !planned.is_empty() {
            break;
        }
        match plan(change, &mut live, &mut list) {
            Ok(one) => planned.push(one),
            Err(thing) => {
                missing = Some(thing);
                break;
            }
        }
    }
    let before = match planned.first() {
        Some(Planned::Expiry(_)) => (storage::paths(&lake), lake.records().scheduled().map(|file| file.file.0).collect()),
        _ => (BTreeMap::new(), HashSet::new()),
    };
    let (lake, answers, refusal) = accepted(lake, list);
    let failure = match (refusal, missing) {
        (Some(refusal), _) => Some(refused(&lake, &changes[answers.len()], refusal)),
        (None, Some(thing)) => Some(not_there(&lake, thing)),
        (None, None) => None,
    };
    let done = done(&lake, planned, answers, before);
    Played { lake, done, failure }
}

/// The catalogue after the calls of a list up to the first that is refused, their answers, and that refusal. A list goes on after a refusal, so what comes before it is
/// then played once more.
fn accepted(lake: Lake, mut list: CallList) -> (Lake, Vec<Vec<u64>>, Option<Refusal>) {
    let (tables, counts) = lake.into_parts();
    // a call that is refused changes nothing
    let copy = (list.len() > 1).then(|| tables.clone());
    let (mut lake, mut answers, refusal) = play_all(Catalog::resume(tables, counts), &list);
    if let Some((tables, _)) = copy.zip(refusal) {
        list.calls.truncate(answers.len() * CallRecord::SIZE);
        (lake, answers, _) = play_all(Catalog::resume(tables, counts), &list);
    }
    (lake, answers, refusal)
}

/// All of a list, the answers up to the first refusal, and that.
fn play_all(mut lake: Lake, list: &CallList) -> (Lake, Vec<Vec<u64>>, Option<Refusal>) {
    let mut area = vec![0; lake.room_for(list)];
    let given = timed(|| lake.play(list, &mut area));
    let answers = given.iter().map_while(|one| one.ok().map(<[u64]>::to_vec)).collect();
    let refusal = given.iter().find_map(|one| one.err());
    (lake, answers, refusal)
}

/// What changes that were accepted did. `before` is of the catalogue before the list: the paths of its files, and those that were scheduled.
fn done(lake: &Lake, planned: Vec<Planned>, answers: Vec<Vec<u64>>, before: (BTreeMap<u64, String>, HashSet<u64>)) -> Vec<Done> {
    let (paths, known) = before;
    let handed = |answer: &Vec<u64>| Handed::read_all(answer);
    let gone = answers.iter().flat_map(handed).map(|file| file.file.0);
    let mut scheduled: Vec<u64> = lake.records().scheduled().map(|file| file.file.0).chain(gone).filter(|id| !known.contains(id)).collect();
    scheduled.sort_unstable();
    let path = |id: u64| (id, paths.get(&id).cloned().unwrap_or_default());
    let one = |(planned, answer): (Planned, &Vec<u64>)| match planned {
        Planned::Commit(said) => Done::Commit(said),
        Planned::Expiry(snapshots) => Done::Expiry { snapshots, scheduled: scheduled.iter().copied().map(path).collect() },
        Planned::Cleanup => Done::Cleanup(handed(answer)),
    };
    planned.into_iter().zip(&answers).map(one).collect()
}

/// A name that is not there. Tables that are not sound are refused whatever the name.
fn not_there(lake: &Lake, Missing(thing): Missing) -> Failure {
    match ask::by_time(lake, u64::MAX) {
        Err(failure) => failure,
        Ok(at) => refuse(Refusal::NotLive, lake, &Asked::of(at, thing)),
    }
}

/// Why this catalogue refuses a change.
fn refused(lake: &Lake, change: &Change, refusal: Refusal) -> Failure {
    let live = Live::of(lake);
    let of = |time: u64, thing: String| Asked { time: Some(time), ..Asked::of(live.at, thing) };
    let asked = match change {
        Change::CreateSchema { time, name } => Asked { name, ..of(*time, format!("schema {name}")) },
        Change::DropSchema { time, schema } => of(*time, format!("schema {schema}")),
        Change::CreateTable { time, schema, name, columns } => {
            // 6 is about the schema, 10 about the table
            let thing = if refusal == Refusal::NotLive { format!("schema {schema}") } else { format!("table {schema}.{name}") };
            Asked { name, column_names: columns.iter().map(|column| column.name.as_str()).collect(), ..of(*time, thing) }
        }
        Change::DropTable { time, table } => of(*time, format!("table {table}")),
        Change::Insert { time, table, rows, uuid, statistics } => {
            let asked = Asked { rows: *rows, uuid: Some(*uuid), ..of(*time, format!("table {table}")) };
            let Ok(id) = live.table(table) else { return refuse(refusal, lake, &asked) };
            let statistics = new_statistics(&live, id, statistics).unwrap_or_default();
            return refuse(refusal, lake, &Asked { columns: columns(lake, live.at, id), statistics: &statistics, ..asked });
        }
        Change::Delete { time, file, positions, uuid } => {
            Asked { uuid: Some(*uuid), file: Some(*file), list: positions, ..of(*time, format!("data file {}", file.0)) }
        }
        Change::Expire { snapshots, .. } => Asked { list: snapshots, ..Asked::default() },
        Change::Cleanup { .. } => Asked::default(),
    };
    refuse(refusal, lake, &asked)
}

fn columns(lake: &Lake, at: SnapshotId, table: CatalogId) -> Vec<Column> {
    lake.records().columns_of(table).filter(|column| column.life.is_live_at(at)).collect()
}
