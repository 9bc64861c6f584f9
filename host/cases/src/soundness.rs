//! The cases of soundness/SoundTables.antt through the compiled check: each names the line of 'Sound tables' that it breaks first, or none.
//!
//! The file is read as it stands. That the definitions give these lines is proved in SoundLines.antt beside it.

use gukoremo::number::{ABSENT, NAME_SIZE, NUMBER_LIMIT, RECORD_COUNT_LIMIT};
use gukoremo::record::{
    ColumnRecord, DataFileRecord, DeleteFileRecord, ScheduledRecord, SchemaRecord, SnapshotRecord, StatisticsRecord, TableRecord,
};
use gukoremo::{raw, Counts, Lend, OwnedTables};
use std::collections::BTreeMap;
use std::fs;
use std::path::Path;

/// The runs in the order of the file: nine tables, the used counts, three runs of names.
const RUNS: usize = 13;
type Runs = [Vec<u64>; RUNS];

/// The words of a record of each run; the used counts are one record.
const SIZES: [usize; RUNS] = [
    SnapshotRecord::SIZE,
    SchemaRecord::SIZE,
    TableRecord::SIZE,
    ColumnRecord::SIZE,
    DataFileRecord::SIZE,
    DeleteFileRecord::SIZE,
    1,
    StatisticsRecord::SIZE,
    ScheduledRecord::SIZE,
    9,
    NAME_SIZE,
    NAME_SIZE,
    NAME_SIZE,
];

/// The lines of a list, each with its number in the file.
type Lines = Vec<(usize, Vec<u64>)>;

/// Plays all cases of the folder, and says how many there are; or every line that is not the case's.
pub fn play(folder: &str) -> Result<String, String> {
    let folder = Path::new(folder);
    let file = folder.join("soundness/SoundTables.antt");
    let read = |path: &Path| fs::read_to_string(path).map_err(|e| format!("{}: {e}", path.display()));
    let text = read(&file)?;
    // folder is crates/ducklake/proofs/cases
    let fields = read(&folder.join("../../../layout/specs/Fields.antt"))?;
    let lists = lists_in(&text, &names_in(&[&fields, &text])).map_err(|e| format!("{}:{e}", file.display()))?;
    let list = |name: &str| lists.get(name).filter(|list| !list.is_empty()).ok_or(format!("{}: no list {name}", file.display()));

    let mut zeros = Runs::default();
    for (_, line) in list("lent")? {
        zeros[line[0] as usize] = vec![0; SIZES[line[0] as usize] * line[1] as usize + line[2] as usize];
    }
    let mut small = zeros.clone();
    for (_, record) in list("small")? {
        write(&mut small, record[0], record[1], 0, &record[2..]);
    }
    let mut wrong = Vec::new();
    let mut hold = |number: usize, runs: &Runs, wanted: u64| match first_unsound(runs) {
        line if line == wanted => {}
        line => wrong.push(format!("{}:{number}: line {line} of 'Sound tables' fails first, and the case says {wanted}", file.display())),
    };
    let cases: Vec<_> = list("cases")?.iter().chain(list("several")?).collect();
    for (number, case) in &cases {
        if case.len() % 4 != 1 {
            return Err(format!("{}:{number}: not a line and four words for each change", file.display()));
        }
        let mut runs = small.clone();
        for change in case[1..].chunks_exact(4) {
            write(&mut runs, change[0], change[1], change[2], &change[3..]);
        }
        hold(*number, &runs, case[0]);
    }
    let mut session = zeros;
    let mut calls = 0;
    for (number, record) in list("session")? {
        match record[..] {
            [] => {
                calls += 1;
                hold(*number, &session, 0);
            }
            _ => write(&mut session, record[0], record[1], 0, &record[2..]),
        }
    }
    match wrong.is_empty() {
        true => Ok(format!("{} cases and {calls} calls of a session: the check names the line of each", cases.len())),
        false => Err(wrong.join("\n")),
    }
}

/// What the names of the file stand for: numbers by definition, in these texts, and limits.
fn names_in(texts: &[&str]) -> BTreeMap<String, u64> {
    let limits = [
        ("absent", ABSENT),
        ("number_limit", NUMBER_LIMIT),
        ("above_number_limit", NUMBER_LIMIT + 1),
        ("record_count_limit", RECORD_COUNT_LIMIT),
        ("above_record_count_limit", RECORD_COUNT_LIMIT + 1),
    ];
    let defined = texts.iter().flat_map(|text| text.lines()).filter_map(|line| line.split_once(" = "));
    let numbers = defined.filter_map(|(name, value)| Some((name, value.parse().ok()?)));
    numbers.chain(limits).map(|(name, value)| (name.to_string(), value)).collect()
}

/// The lists of the file: `unfoldable pub NAME : List (List ℕ)`, then `NAME =` and a line for each, a list of words or `done`.
fn lists_in(text: &str, names: &BTreeMap<String, u64>) -> Result<BTreeMap<String, Lines>, String> {
    let mut lists = BTreeMap::new();
    let mut rest = (1..).zip(text.lines().map(str::trim));
    while let Some((_, declared)) = rest.next() {
        let Some(name) = declared.strip_suffix(" : List (List ℕ)").and_then(|front| front.strip_prefix("unfoldable pub ")) else { continue };
        let within = rest.by_ref().skip(1).take_while(|(_, line)| *line != "∷ []").filter(|(_, line)| !line.starts_with("--"));
        let lines = within.map(|(number, line)| match words_of(line, names) {
            Some(words) => Ok((number, words)),
            None => Err(format!("{number}: not a list of numbers and known names: {line}")),
        });
        lists.insert(name.to_string(), lines.collect::<Result<Lines, String>>()?);
    }
    Ok(lists)
}

/// The words of `∷ (8 ∷ positions ∷ 3 ∷ 0 ∷ 2 ∷ [])`, of which the first `∷` may be missing, and none of `∷ done`.
fn words_of(line: &str, names: &BTreeMap<String, u64>) -> Option<Vec<u64>> {
    let list = line.strip_prefix("∷ ").unwrap_or(line);
    if list == "done" {
        return Some(Vec::new());
    }
    let words = list.strip_prefix('(')?.strip_suffix(" ∷ [])")?.split(" ∷ ");
    words.map(|word| word.parse().ok().or_else(|| names.get(word).copied())).collect()
}

/// Words over those of a record, from a field on.
fn write(runs: &mut Runs, run: u64, record: u64, field: u64, words: &[u64]) {
    let place = SIZES[run as usize] * record as usize + field as usize;
    runs[run as usize][place..place + words.len()].copy_from_slice(words);
}

fn first_unsound(runs: &Runs) -> u64 {
    let [snapshots, schemas, tables, columns, data_files, delete_files, positions, statistics, scheduled, counts, names @ ..] = runs.clone();
    let [schema_names, table_names, column_names] = names.map(|words| words.into_iter().map(|word| u8::try_from(word).expect("a byte")).collect());
    let lent = OwnedTables {
        snapshots,
        schemas,
        schema_names,
        tables,
        table_names,
        columns,
        column_names,
        data_files,
        delete_files,
        positions,
        statistics,
        scheduled,
    };
    let count = |run: usize| counts[run] as usize;
    let counts = Counts {
        snapshots: count(0),
        schemas: count(1),
        tables: count(2),
        columns: count(3),
        data_files: count(4),
        delete_files: count(5),
        positions: count(6),
        statistics: count(7),
        scheduled: count(8),
    };
    raw::first_unsound(lent.view(), counts)
}
