//! 2: "at least one snapshot; snapshot ids ascend strictly; times, schema versions and next ids
//! never fall; change kinds are those below". A change object is a schema's or table's id (R7).

use crate::commits::CHANGE_KINDS;
use crate::lent::Run;
use crate::records::{Snapshot, SnapshotId};
use crate::sound::draft::Draft;
use crate::sound::{want, Unsound};

const RULE: u8 = 2;

pub fn ascend(draft: &Draft) -> Result<(), Unsound> {
    if draft.snapshots.is_empty() {
        return Err(Unsound::whole(RULE, Run::Snapshots));
    }
    for (place, pair) in draft.snapshots.windows(2).enumerate() {
        want(follows(&pair[0], &pair[1]), RULE, Run::Snapshots, place + 1)?;
    }
    let next_catalog_id = draft.snapshots.last().map_or(0, |(_, latest)| latest.next_catalog_id);
    for (place, (_, snapshot)) in draft.snapshots.iter().enumerate() {
        let known = CHANGE_KINDS.contains(&snapshot.change_kind);
        want(known && snapshot.change_object < next_catalog_id, RULE, Run::Snapshots, place)?;
    }
    Ok(())
}

fn follows(earlier: &(SnapshotId, Snapshot), later: &(SnapshotId, Snapshot)) -> bool {
    let ((earlier_id, earlier), (later_id, later)) = (earlier, later);
    earlier_id < later_id
        && earlier.time <= later.time
        && earlier.schema_version <= later.schema_version
        && earlier.next_catalog_id <= later.next_catalog_id
        && earlier.next_file_id <= later.next_file_id
}
