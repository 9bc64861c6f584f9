//! The runs of a case as they are lent to a call, each between words that no call may touch.

use cases::runs::{Runs, AREA, COUNTS};
use gukoremo::{Counts, Outcome, Tables, TablesView};

/// Words at either side of every run that is lent, which no call may touch.
const MARGIN: usize = 8;
const MARGIN_WORD: u64 = 0xa5a5_a5a5_a5a5_a5a5;
const MARGIN_BYTE: u8 = 0xa5;

/// A run between its margins.
struct Lent<W> {
    words: Vec<W>,
    margin: W,
}

impl<W: Copy + PartialEq> Lent<W> {
    fn new(run: &[W], margin: W) -> Lent<W> {
        Lent { words: [&[margin; MARGIN], run, &[margin; MARGIN]].concat(), margin }
    }

    fn run(&self) -> &[W] {
        &self.words[MARGIN..self.words.len() - MARGIN]
    }

    fn run_mut(&mut self) -> &mut [W] {
        let end = self.words.len() - MARGIN;
        &mut self.words[MARGIN..end]
    }

    fn margins_hold(&self) -> bool {
        let (front, back) = (&self.words[..MARGIN], &self.words[self.words.len() - MARGIN..]);
        front.iter().chain(back).all(|word| *word == self.margin)
    }
}

/// The fourteen runs of a case as they are lent: nine of words, the counts, three of bytes, the area.
pub struct Lending {
    words: [Lent<u64>; 9],
    counts: Counts,
    names: [Lent<u8>; 3],
    area: Lent<u64>,
}

impl Lending {
    pub fn of(runs: &Runs) -> Lending {
        Lending {
            words: std::array::from_fn(|i| Lent::new(&runs[i], MARGIN_WORD)),
            counts: counts_of(&runs[COUNTS]),
            names: std::array::from_fn(|i| Lent::new(&bytes_of(&runs[COUNTS + 1 + i]), MARGIN_BYTE)),
            area: Lent::new(&runs[AREA], MARGIN_WORD),
        }
    }

    pub fn change(&mut self, call: impl FnOnce(Tables<'_>, Counts, &mut [u64]) -> Outcome) -> Outcome {
        let [snapshots, schemas, tables, columns, data_files, delete_files, positions, statistics, scheduled] =
            self.words.each_mut().map(Lent::run_mut);
        let [schema_names, table_names, column_names] = self.names.each_mut().map(Lent::run_mut);
        let lent = Tables {
            snapshots,
            schemas,
            schema_names,
            tables,
            table_names,
            columns,
            column_names,
            data_files,
            delete_files,
            positions,
            statistics,
            scheduled,
        };
        call(lent, self.counts, self.area.run_mut())
    }

    pub fn read(&mut self, call: impl FnOnce(TablesView<'_>, Counts, &mut [u64]) -> Outcome) -> Outcome {
        let [snapshots, schemas, tables, columns, data_files, delete_files, positions, statistics, scheduled] = self.words.each_ref().map(Lent::run);
        let [schema_names, table_names, column_names] = self.names.each_ref().map(Lent::run);
        let lent = TablesView {
            snapshots,
            schemas,
            schema_names,
            tables,
            table_names,
            columns,
            column_names,
            data_files,
            delete_files,
            positions,
            statistics,
            scheduled,
        };
        call(lent, self.counts, self.area.run_mut())
    }

    /// The runs as they were left, with the counts that came back.
    pub fn runs(&self, counts: Counts) -> Runs {
        std::array::from_fn(|i| match i {
            0..COUNTS => self.words[i].run().to_vec(),
            COUNTS => words_of_counts(counts).to_vec(),
            AREA => self.area.run().to_vec(),
            _ => self.names[i - COUNTS - 1].run().iter().map(|byte| u64::from(*byte)).collect(),
        })
    }

    pub fn margins_hold(&self) -> bool {
        self.words.iter().all(Lent::margins_hold) && self.names.iter().all(Lent::margins_hold) && self.area.margins_hold()
    }
}

/// Words that are bytes: every one of the cases is.
pub fn bytes_of(words: &[u64]) -> Vec<u8> {
    words.iter().map(|word| u8::try_from(*word).expect("a byte of a name")).collect()
}

fn counts_of(words: &[u64]) -> Counts {
    let count = |i: usize| words.get(i).copied().unwrap_or(0) as usize;
    Counts {
        snapshots: count(0),
        schemas: count(1),
        tables: count(2),
        columns: count(3),
        data_files: count(4),
        delete_files: count(5),
        positions: count(6),
        statistics: count(7),
        scheduled: count(8),
    }
}

fn words_of_counts(c: Counts) -> [u64; 9] {
    let counts = [c.snapshots, c.schemas, c.tables, c.columns, c.data_files, c.delete_files, c.positions, c.statistics, c.scheduled];
    counts.map(|count| count as u64)
}
