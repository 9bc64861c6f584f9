//! What tables are not sound for: the line of document 01 that fails first.

use crate::line;
use std::fmt;

/// A line of document 01's 'Sound tables'; of tables that are not sound, the first that doesn't hold.
///
/// ```
/// use gukoremo::{Catalog, Counts, Line, OwnedTables};
///
/// // no snapshot, and a catalogue has one at least
/// let empty = Catalog::resume(OwnedTables::with_room(Counts::each(4)), Counts::NONE);
/// assert_eq!(empty.first_unsound(), Some(Line::Snapshots));
/// ```
#[non_exhaustive]
#[derive(Clone, Copy, Debug, PartialEq, Eq, PartialOrd, Ord, Hash)]
pub enum Line {
    /// 1: used counts, ranges of fields, padding.
    Fields,
    /// 2: the snapshots.
    Snapshots,
    /// 3: begins and ends.
    Lives,
    /// 4: the order of ids.
    Order,
    /// 5: next ids; file ids and UUIDs that occur twice.
    NextIds,
    /// 6: lives within those that they belong to.
    Nesting,
    /// 7: names, and orders of columns.
    Names,
    /// 8: delete files and their positions.
    Deletes,
    /// 9: row ranges.
    Rows,
    /// 10: statistics.
    Statistics,
    /// 11: the limit of columns, which stands above the lines.
    Columns,
    /// A number that no line has.
    Unknown(u64),
}

impl Line {
    /// The line of a number of [`crate::line`]; none where all lines hold.
    ///
    /// ```
    /// use gukoremo::{line, Line};
    ///
    /// assert_eq!((Line::of(line::SOUND), Line::of(line::ROWS_LINE)), (None, Some(Line::Rows)));
    /// ```
    pub fn of(number: u64) -> Option<Line> {
        Some(match number {
            line::SOUND => return None,
            line::FIELDS_LINE => Line::Fields,
            line::SNAPSHOTS_LINE => Line::Snapshots,
            line::LIVES_LINE => Line::Lives,
            line::ORDER_LINE => Line::Order,
            line::NEXT_IDS_LINE => Line::NextIds,
            line::NESTING_LINE => Line::Nesting,
            line::NAMES_LINE => Line::Names,
            line::DELETES_LINE => Line::Deletes,
            line::ROWS_LINE => Line::Rows,
            line::STATISTICS_LINE => Line::Statistics,
            line::COLUMNS_LINE => Line::Columns,
            number => Line::Unknown(number),
        })
    }

    /// Its number, by [`crate::line`].
    ///
    /// ```
    /// assert_eq!(gukoremo::Line::Lives.number(), 3);
    /// ```
    pub fn number(self) -> u64 {
        match self {
            Line::Fields => line::FIELDS_LINE,
            Line::Snapshots => line::SNAPSHOTS_LINE,
            Line::Lives => line::LIVES_LINE,
            Line::Order => line::ORDER_LINE,
            Line::NextIds => line::NEXT_IDS_LINE,
            Line::Nesting => line::NESTING_LINE,
            Line::Names => line::NAMES_LINE,
            Line::Deletes => line::DELETES_LINE,
            Line::Rows => line::ROWS_LINE,
            Line::Statistics => line::STATISTICS_LINE,
            Line::Columns => line::COLUMNS_LINE,
            Line::Unknown(number) => number,
        }
    }

    /// Document 01's words.
    ///
    /// ```
    /// assert_eq!(gukoremo::Line::Columns.sentence(), "a table has 1 to 16 live columns at each retained snapshot where it lives");
    /// ```
    pub fn sentence(self) -> &'static str {
        match self {
            Line::Fields => "used counts fit the lent lengths and the limits; every field is in its range; padding is zero",
            Line::Snapshots => {
                "at least one snapshot; snapshot ids ascend strictly; times, schema versions and next ids never fall; change kinds are \
                 those below"
            }
            Line::Lives => {
                "each begin and each end that isn't ABSENT is at most the latest snapshot id; begin < end; every record is live at some \
                 retained snapshot"
            }
            Line::Order => {
                "ids ascend strictly in schema, table, data file and delete file, columns by (table id, column id), statistics by (data \
                 file id, column id)"
            }
            Line::NextIds => {
                "schema, table and file ids are below the latest snapshot's next ids; no file id or UUID occurs twice over data files, \
                 delete files and scheduled"
            }
            Line::Nesting => {
                "a table's life lies within its schema's, a column's is its table's, a data file's lies within its table's, a delete \
                 file's within its data file's, and their table ids match"
            }
            Line::Names => {
                "schemas, tables of one schema and columns of one table with a common live snapshot number have different names, such \
                 columns also different orders"
            }
            Line::Deletes => {
                "two delete files of one data file have no common live number; the later holds every position of the earlier; positions \
                 ascend strictly below record_count; delete_count is 1 or more and the counts add up to the used positions"
            }
            Line::Rows => "row ranges of a table's files ascend with the file id, don't overlap, and end at or below next_row_id",
            Line::Statistics => {
                "each data file has one statistics record for each column live at its begin, and no other. null_count <= record_count, \
                 and 0 where nulls aren't allowed. If all rows are null, min and max are missing; else either may be missing. Given \
                 values lie in the type's range, min <= max"
            }
            Line::Columns => "a table has 1 to 16 live columns at each retained snapshot where it lives",
            Line::Unknown(_) => "a number that no line has",
        }
    }
}

impl fmt::Display for Line {
    fn fmt(&self, f: &mut fmt::Formatter<'_>) -> fmt::Result {
        match self {
            Line::Columns => write!(f, "the limit of columns fails first: \"{}\"", self.sentence()),
            line => write!(f, "line {} of 'Sound tables' fails first: \"{}\"", line.number(), self.sentence()),
        }
    }
}
