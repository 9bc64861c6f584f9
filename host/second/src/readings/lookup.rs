//! "A file id names one row, of the data files or of the delete files, and looking it up gives that
//! record itself, as a part of its table. The lookup takes no snapshot. An id in neither gives 6".

use crate::lent::{Counts, Words};
use crate::readings::reading;
use crate::records::FileId;
use crate::refusals::{Outcome, Refusal};
use crate::store::{data_file, delete_file};

/// As a call the answer is the record's eight words (R52). Ended files that are on record are
/// found (R28).
pub fn find_file(words: &Words, counts: &Counts, id: FileId, area: &mut [u64]) -> Outcome {
    reading(words, counts, area, |catalog| {
        let data = catalog.data_files.get(&id).map(|file| data_file(id, file));
        let record = data.or(catalog.delete_files.get(&id).map(|file| delete_file(id, file)));
        Ok(record.ok_or(Refusal::NotLive)?.to_vec())
    })
}
