//! The fourteen runs of a case, and what each line does to them: as Lines.antt has it.

use crate::codes;
use crate::lists::{Folder, Line, List};
use gukoremo::number::NAME_SIZE;
use gukoremo::record::{
    ColumnRecord, DataFileRecord, DeleteFileRecord, ScheduledRecord, SchemaRecord, SnapshotRecord, StatisticsRecord, TableRecord,
};

pub const COUNTS: usize = codes::COUNTS as usize;
pub const AREA: usize = codes::ANSWER_AREA as usize;

/// In the order of their codes.
pub type Runs = [Vec<u64>; 14];

pub const NAMES: [&str; 14] = [
    "snapshots",
    "schemas",
    "tables",
    "columns",
    "data files",
    "delete files",
    "positions",
    "statistics",
    "scheduled",
    "counts",
    "names of schemas",
    "names of tables",
    "names of columns",
    "answer area",
];

/// The words of a record of each run, or the bytes of a name.
const SIZES: [usize; 14] = [
    SnapshotRecord::SIZE,
    SchemaRecord::SIZE,
    TableRecord::SIZE,
    ColumnRecord::SIZE,
    DataFileRecord::SIZE,
    DeleteFileRecord::SIZE,
    1,
    StatisticsRecord::SIZE,
    ScheduledRecord::SIZE,
    1,
    NAME_SIZE,
    NAME_SIZE,
    NAME_SIZE,
    1,
];

/// The runs as they are kept, as the next call finds them, and as it should leave them.
pub struct Case {
    pub kept: Runs,
    before: Runs,
    after: Runs,
}

/// A call with all that it should come to: the runs, with the area cut to the words that it is given.
pub struct Call {
    pub code: u64,
    pub arguments: Vec<u64>,
    pub before: Runs,
    pub after: Runs,
    pub number: u64,
    /// a bit for each right place
    pub places: u64,
    pub length: u64,
}

impl Case {
    pub fn from(kept: Runs) -> Case {
        Case { before: kept.clone(), after: kept.clone(), kept }
    }

    /// Takes the next line, and gives the call if it is one.
    pub fn take(&mut self, line: &Line) -> Option<Call> {
        let word = |i: usize| line.words.get(i).copied().unwrap_or(0);
        let rest = |i: usize| line.words.get(i..).unwrap_or(&[]);
        let (run, record) = (word(1) as usize, word(2) as usize);
        let place = SIZES.get(run).unwrap_or(&0) * record + word(3) as usize;
        match word(0) {
            codes::LEND => {
                let mut kept = self.kept.clone();
                kept[run] = vec![word(4); place];
                *self = Case::from(kept);
            }
            codes::FINDS_FIELD => {
                write(&mut self.before[run], place, rest(4));
                write(&mut self.after[run], place, rest(4));
            }
            codes::FINDS_ONLY => {
                self.before[run].truncate(place);
                self.after[run].truncate(place);
            }
            codes::LEAVES_FIELD => write(&mut self.after[run], place, rest(4)),
            codes::LEAVES => {
                let size = *SIZES.get(run).unwrap_or(&0);
                let mut words = rest(3).to_vec();
                words.resize(words.len().max(size), 0);
                write(&mut self.after[run], size * record, &words);
            }
            codes::CALL => {
                let call = self.call(line);
                *self = Case::from(self.kept.clone());
                return Some(call);
            }
            _ => {
                let call = self.call(line);
                *self = Case::from(self.after.clone());
                return Some(call);
            }
        }
        None
    }

    fn call(&self, line: &Line) -> Call {
        let word = |i: usize| line.words.get(i).copied().unwrap_or(0);
        let (mut before, mut after) = (self.before.clone(), self.after.clone());
        before[AREA].truncate(word(1) as usize);
        after[AREA].truncate(word(1) as usize);
        let arguments = line.words.get(6..).unwrap_or(&[]).to_vec();
        Call { code: word(5), arguments, before, after, number: word(2), places: word(3), length: word(4) }
    }
}

/// Words written over a run, from a place on.
fn write(run: &mut Vec<u64>, place: usize, words: &[u64]) {
    let tail: Vec<u64> = run.iter().skip(place + words.len()).copied().collect();
    run.truncate(place);
    run.extend_from_slice(words);
    run.extend(tail);
}

/// The runs as the lines before a list leave them.
pub fn kept_before(folder: &Folder, list: &List) -> Runs {
    let mut case = Case::from(Runs::default());
    for before in &list.after {
        for line in &folder.lines[before] {
            case.take(line);
        }
    }
    case.kept
}
