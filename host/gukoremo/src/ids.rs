//! Ids: compared, hashed and ordered as their numbers; shown as the number, and for debugging with the name of their type.

use crate::number::{CatalogId, FileId, RowId, SnapshotId};
use std::fmt;
use std::hash::{Hash, Hasher};

/// The layout's ids are plain numbers, which their source copies and compares; it has no other trait.
macro_rules! ids {
    ($($name:ident)*) => {
        $(impl Hash for $name {
            fn hash<H: Hasher>(&self, state: &mut H) {
                self.0.hash(state);
            }
        }

        impl fmt::Display for $name {
            fn fmt(&self, f: &mut fmt::Formatter<'_>) -> fmt::Result {
                self.0.fmt(f)
            }
        }

        impl fmt::Debug for $name {
            fn fmt(&self, f: &mut fmt::Formatter<'_>) -> fmt::Result {
                f.debug_tuple(stringify!($name)).field(&self.0).finish()
            }
        })*
    };
}

ids! { SnapshotId CatalogId FileId RowId }

#[cfg(test)]
mod tests {
    use crate::{CatalogId, FileId, RowId, SnapshotId};
    use std::collections::{BTreeSet, HashMap};

    #[test]
    fn shown_as_numbers() {
        assert_eq!(format!("{} {} {} {}", SnapshotId(3), CatalogId(0), FileId(7), RowId(u64::MAX)), "3 0 7 18446744073709551615");
        assert_eq!(format!("{:?} {:?} {:?} {:?}", SnapshotId(3), CatalogId(0), FileId(7), RowId(9)), "SnapshotId(3) CatalogId(0) FileId(7) RowId(9)");
        assert_eq!(format!("[{:>4}] [{:<4}] [{:04}]", FileId(12), FileId(12), FileId(12)), "[  12] [12  ] [0012]");
    }

    #[test]
    fn ordered_and_hashed_as_numbers() {
        let ids: BTreeSet<SnapshotId> = [10, 2, 33, 2].map(SnapshotId).into();
        assert_eq!(ids.into_iter().map(|id| id.0).collect::<Vec<u64>>(), [2, 10, 33]);
        assert!(RowId(9) < RowId(10) && FileId(1) <= FileId(1) && CatalogId(u64::MAX) > CatalogId(0));
        let names: HashMap<CatalogId, &str> = [(CatalogId(1), "diary"), (CatalogId(2), "wall")].into();
        assert_eq!((names.get(&CatalogId(2)), names.get(&CatalogId(3))), (Some(&"wall"), None));
    }
}
