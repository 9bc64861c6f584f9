//! Refusals: each a number and a sentence of document 01.

use crate::outcome::{self, Outcome};
use std::fmt;

/// Why a call did nothing.
///
/// ```
/// use gukoremo::{Catalog, Counts, OwnedTables, Refusal};
///
/// let mut catalog = Catalog::fresh(OwnedTables::with_room(Counts::each(4)), 100)?;
/// let refusal = catalog.create_schema(110, "main").unwrap_err();
/// assert_eq!(refusal, Refusal::NameTaken);
/// assert_eq!(refusal.number(), 10);
/// assert_eq!(refusal.to_string(), "refused with 10: name taken by a live one");
/// # Ok::<(), Refusal>(())
/// ```
#[non_exhaustive]
#[derive(Clone, Copy, Debug, PartialEq, Eq, Hash)]
pub enum Refusal {
    /// 1: the tables are not sound. [`Catalog::first_unsound`](crate::Catalog::first_unsound) says which line fails.
    NotSound,
    /// 2: the change needs more records or positions than are lent or allowed.
    NoRoom,
    /// 3: the answer area is shorter than the answer.
    ShortAnswerArea,
    /// 4: an id, a row number or a schema version would pass 2^62.
    NumberTooLarge,
    /// 5: the snapshot was expired, or never made.
    NotRetained,
    /// 6: no schema, table, column or file of that id or name is live at that snapshot, which for a commit is the latest.
    NotLive,
    /// 7: every retained snapshot is later than that time.
    NoSnapshotByThen,
    /// 8: the time is below the latest snapshot's.
    TimeFalls,
    /// 9: the name is not 1 to 32 ASCII letters, digits or underscores.
    BadName,
    /// 10: a live schema, or a live table of that schema, has the name.
    NameTaken,
    /// 11: the schema still has live tables.
    SchemaNotEmpty,
    /// 12: the columns are not 1 to 16, or one has an unknown type, a bad flag, or a bad or repeated name.
    BadColumns,
    /// 13: the record count is not 1 to 1,048,576.
    BadRecordCount,
    /// 14: a data file, a delete file or a scheduled file has the UUID.
    UuidTaken,
    /// 15: the statistics break a rule, or are not one for each live column by ascending id.
    BadStatistics,
    /// 16: the positions are none, don't ascend strictly, or go past the file.
    BadPositions,
    /// 17: a position is already deleted.
    AlreadyDeleted {
        /// Where that position stands in the call's list, counted from 0.
        index: u64,
    },
    /// 18: the list of snapshots to expire is empty or does not ascend strictly.
    BadExpiryList,
    /// 19: the list of snapshots to expire holds the latest.
    ExpiresLatest,
    /// A number that no call gives.
    Unknown {
        /// The number of the outcome.
        number: u64,
    },
}

impl Refusal {
    /// The refusal of an outcome's number and place; none where it was accepted. The place counts with 17 alone.
    ///
    /// ```
    /// use gukoremo::{outcome, Refusal};
    ///
    /// assert_eq!(Refusal::of(outcome::ACCEPTED, 0), None);
    /// assert_eq!(Refusal::of(outcome::ALREADY_DELETED, 3), Some(Refusal::AlreadyDeleted { index: 3 }));
    /// ```
    pub fn of(number: u64, place: u64) -> Option<Refusal> {
        Some(match number {
            outcome::ACCEPTED => return None,
            outcome::NOT_SOUND => Refusal::NotSound,
            outcome::NO_ROOM => Refusal::NoRoom,
            outcome::SHORT_ANSWER_AREA => Refusal::ShortAnswerArea,
            outcome::NUMBER_TOO_LARGE => Refusal::NumberTooLarge,
            outcome::NOT_RETAINED => Refusal::NotRetained,
            outcome::NOT_LIVE => Refusal::NotLive,
            outcome::NO_SNAPSHOT_BY_THEN => Refusal::NoSnapshotByThen,
            outcome::TIME_FALLS => Refusal::TimeFalls,
            outcome::BAD_NAME => Refusal::BadName,
            outcome::NAME_TAKEN => Refusal::NameTaken,
            outcome::SCHEMA_NOT_EMPTY => Refusal::SchemaNotEmpty,
            outcome::BAD_COLUMNS => Refusal::BadColumns,
            outcome::BAD_RECORD_COUNT => Refusal::BadRecordCount,
            outcome::UUID_TAKEN => Refusal::UuidTaken,
            outcome::BAD_STATISTICS => Refusal::BadStatistics,
            outcome::BAD_POSITIONS => Refusal::BadPositions,
            outcome::ALREADY_DELETED => Refusal::AlreadyDeleted { index: place },
            outcome::BAD_EXPIRY_LIST => Refusal::BadExpiryList,
            outcome::EXPIRES_LATEST => Refusal::ExpiresLatest,
            number => Refusal::Unknown { number },
        })
    }

    /// The outcome of a call of [`crate::raw`], where it was accepted.
    ///
    /// # Errors
    ///
    /// The refusal, where it was refused.
    ///
    /// ```
    /// use gukoremo::{raw, Counts, Lend, OwnedTables, Refusal};
    ///
    /// let mut tables = OwnedTables::with_room(Counts::each(1));
    /// let given = Refusal::judge(raw::fresh(tables.lend(), Counts::NONE, 100, &mut []))?;
    /// assert_eq!(given.counts.snapshots, 1);
    /// let again = raw::create_schema(tables.lend(), given.counts, 110, b"sales", &mut []);
    /// assert_eq!(Refusal::judge(again), Err(Refusal::NoRoom));
    /// # Ok::<(), Refusal>(())
    /// ```
    pub fn judge(given: Outcome) -> Result<Outcome, Refusal> {
        Refusal::of(given.number, given.place).map_or(Ok(given), Err)
    }

    /// Document 01's number.
    ///
    /// ```
    /// use gukoremo::Refusal;
    ///
    /// assert_eq!(Refusal::AlreadyDeleted { index: 3 }.number(), 17);
    /// ```
    pub fn number(self) -> u64 {
        match self {
            Refusal::NotSound => outcome::NOT_SOUND,
            Refusal::NoRoom => outcome::NO_ROOM,
            Refusal::ShortAnswerArea => outcome::SHORT_ANSWER_AREA,
            Refusal::NumberTooLarge => outcome::NUMBER_TOO_LARGE,
            Refusal::NotRetained => outcome::NOT_RETAINED,
            Refusal::NotLive => outcome::NOT_LIVE,
            Refusal::NoSnapshotByThen => outcome::NO_SNAPSHOT_BY_THEN,
            Refusal::TimeFalls => outcome::TIME_FALLS,
            Refusal::BadName => outcome::BAD_NAME,
            Refusal::NameTaken => outcome::NAME_TAKEN,
            Refusal::SchemaNotEmpty => outcome::SCHEMA_NOT_EMPTY,
            Refusal::BadColumns => outcome::BAD_COLUMNS,
            Refusal::BadRecordCount => outcome::BAD_RECORD_COUNT,
            Refusal::UuidTaken => outcome::UUID_TAKEN,
            Refusal::BadStatistics => outcome::BAD_STATISTICS,
            Refusal::BadPositions => outcome::BAD_POSITIONS,
            Refusal::AlreadyDeleted { .. } => outcome::ALREADY_DELETED,
            Refusal::BadExpiryList => outcome::BAD_EXPIRY_LIST,
            Refusal::ExpiresLatest => outcome::EXPIRES_LATEST,
            Refusal::Unknown { number } => number,
        }
    }

    /// Document 01's sentence.
    ///
    /// ```
    /// use gukoremo::Refusal;
    ///
    /// assert_eq!(Refusal::NotSound.sentence(), "tables not sound");
    /// ```
    pub fn sentence(self) -> &'static str {
        match self {
            Refusal::NotSound => "tables not sound",
            Refusal::NoRoom => "the change needs more records or positions than are lent or allowed",
            Refusal::ShortAnswerArea => "the answer area is shorter than the answer",
            Refusal::NumberTooLarge => "a number would pass 2^62",
            Refusal::NotRetained => "snapshot not retained",
            Refusal::NotLive => "no schema, table, column or file of that id or name live at that snapshot (the latest, for a commit)",
            Refusal::NoSnapshotByThen => "no retained snapshot at or before that time",
            Refusal::TimeFalls => "time below the latest snapshot's",
            Refusal::BadName => "bad name",
            Refusal::NameTaken => "name taken by a live one",
            Refusal::SchemaNotEmpty => "schema not empty",
            Refusal::BadColumns => "column list: not 1 to 16, unknown type, bad flag, bad or repeated name",
            Refusal::BadRecordCount => "record_count not 1 to 1,048,576",
            Refusal::UuidTaken => "UUID in any data file, delete file or scheduled record",
            Refusal::BadStatistics => "statistics break the rules or aren't one for each live column by ascending id",
            Refusal::BadPositions => "positions empty, not ascending strictly, or past the file",
            Refusal::AlreadyDeleted { .. } => "a position already deleted",
            Refusal::BadExpiryList => "expiry list empty or not ascending strictly",
            Refusal::ExpiresLatest => "the list holds the latest snapshot",
            Refusal::Unknown { .. } => "a number that no call gives",
        }
    }
}

impl fmt::Display for Refusal {
    fn fmt(&self, f: &mut fmt::Formatter<'_>) -> fmt::Result {
        write!(f, "refused with {}: {}", self.number(), self.sentence())?;
        match self {
            Refusal::AlreadyDeleted { index } => write!(f, ", at {index} of the list"),
            _ => Ok(()),
        }
    }
}

impl std::error::Error for Refusal {}

#[cfg(test)]
mod tests {
    use super::Refusal;
    use std::collections::HashSet;

    #[test]
    fn numbers_there_and_back() {
        let refusals: Vec<Refusal> = (1..=20).filter_map(|number| Refusal::of(number, 5)).collect();
        assert_eq!(refusals.iter().map(|refusal| refusal.number()).collect::<Vec<u64>>(), (1..=20).collect::<Vec<u64>>());
        assert_eq!((Refusal::of(0, 5), refusals[16], refusals[19]), (None, Refusal::AlreadyDeleted { index: 5 }, Refusal::Unknown { number: 20 }));
        assert_eq!(refusals.iter().map(|refusal| refusal.sentence()).collect::<HashSet<&str>>().len(), 20);
    }
}
