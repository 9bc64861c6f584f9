//! Who can cause which refusal, and what a call gives.

use crate::lent::Counts;

/// What a call gives: 0 or the refusal's number, its place, the answer's length in words, the
/// catalogue record.
#[repr(C)]
#[derive(Clone, Copy, Debug, PartialEq, Eq)]
pub struct Outcome {
    pub number: u64,
    pub place: u64,
    pub length: usize,
    pub counts: Counts,
}

#[derive(Clone, Copy, Debug, PartialEq, Eq)]
pub enum Refusal {
    /// "1 tables not sound."
    NotSound,
    /// "2 the change needs more records or positions than are lent or allowed."
    NoRoom,
    /// "3 the answer area is shorter than the answer."
    ShortAnswerArea,
    /// "4 a number would pass 2^62."
    NumberTooLarge,
    /// "5 snapshot not retained."
    NotRetained,
    /// "6 no schema, table, column or file of that id or name live at that snapshot (the latest,
    /// for a commit)."
    NotLive,
    /// "7 no retained snapshot at or before t."
    NoSnapshotByThen,
    /// "8 time below the latest snapshot's."
    TimeFalls,
    /// "9 bad name."
    BadName,
    /// "10 name taken by a live one."
    NameTaken,
    /// "11 schema not empty."
    SchemaNotEmpty,
    /// "12 column list: not 1 to 16, unknown type, bad flag, bad or repeated name."
    BadColumns,
    /// "13 record_count."
    BadRecordCount,
    /// "14 UUID in any data file, delete file or scheduled record."
    UuidTaken,
    /// "15 statistics break the rules above or aren't one for each live column by ascending id."
    BadStatistics,
    /// "16 positions empty, not ascending strictly, or past the file."
    BadPositions,
    /// "17 a position already deleted"; with its index in the call's list.
    AlreadyDeleted(u64),
    /// "18 expiry list empty or not ascending strictly."
    BadExpiryList,
    /// "19 the list holds the latest snapshot."
    ExpiresLatest,
}

impl Refusal {
    pub fn number(self) -> u64 {
        match self {
            Refusal::NotSound => 1,
            Refusal::NoRoom => 2,
            Refusal::ShortAnswerArea => 3,
            Refusal::NumberTooLarge => 4,
            Refusal::NotRetained => 5,
            Refusal::NotLive => 6,
            Refusal::NoSnapshotByThen => 7,
            Refusal::TimeFalls => 8,
            Refusal::BadName => 9,
            Refusal::NameTaken => 10,
            Refusal::SchemaNotEmpty => 11,
            Refusal::BadColumns => 12,
            Refusal::BadRecordCount => 13,
            Refusal::UuidTaken => 14,
            Refusal::BadStatistics => 15,
            Refusal::BadPositions => 16,
            Refusal::AlreadyDeleted(_) => 17,
            Refusal::BadExpiryList => 18,
            Refusal::ExpiresLatest => 19,
        }
    }

    /// "A refusal gives its number and, with 17, the index of an offending position in the call's
    /// list [...] Every other place is 0, the length 0, the catalogue record as it came."
    pub fn outcome(self, counts: &Counts) -> Outcome {
        let place = match self {
            Refusal::AlreadyDeleted(index) => index,
            _ => 0,
        };
        Outcome { number: self.number(), place, length: 0, counts: *counts }
    }
}

/// "An accepted call gives number 0 and place 0".
pub fn accepted(length: usize, counts: Counts) -> Outcome {
    Outcome { number: 0, place: 0, length, counts }
}

/// A refusal, where its condition is met.
pub fn refuse_if(met: bool, refusal: Refusal) -> Result<(), Refusal> {
    if met {
        Err(refusal)
    } else {
        Ok(())
    }
}
