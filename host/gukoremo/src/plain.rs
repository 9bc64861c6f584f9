//! The catalogue record and the outcome: compared, hashed and shown field by field.

use crate::outcome::{Counts, Outcome};

/// The layout's structs are plain data; their source has `Clone` and `Copy`, and no other trait.
macro_rules! plain {
    ($($name:ident { $($field:ident)* })*) => {
        $(impl PartialEq for $name {
            fn eq(&self, other: &$name) -> bool {
                $(self.$field == other.$field)&&*
            }
        }

        impl Eq for $name {}

        impl std::hash::Hash for $name {
            fn hash<H: std::hash::Hasher>(&self, state: &mut H) {
                $(self.$field.hash(state);)*
            }
        }

        impl std::fmt::Debug for $name {
            fn fmt(&self, f: &mut std::fmt::Formatter<'_>) -> std::fmt::Result {
                f.debug_struct(stringify!($name))$(.field(stringify!($field), &self.$field))*.finish()
            }
        })*
    };
}

plain! {
    Counts { snapshots schemas tables columns data_files delete_files positions statistics scheduled }
    Outcome { number place length counts }
}

impl Counts {
    /// What a catalogue has before Fresh, which ignores it.
    pub const NONE: Counts = Counts::each(0);

    /// This many records of each kind, and this many positions.
    ///
    /// ```
    /// use gukoremo::{Counts, OwnedTables};
    ///
    /// let room = Counts { positions: 100, ..Counts::each(8) };
    /// assert_eq!(OwnedTables::with_room(room).positions.len(), 100);
    /// ```
    pub const fn each(count: usize) -> Counts {
        Counts {
            snapshots: count,
            schemas: count,
            tables: count,
            columns: count,
            data_files: count,
            delete_files: count,
            positions: count,
            statistics: count,
            scheduled: count,
        }
    }
}
