//! A list of the proved cases as a list of calls: before each call the words are set in which the tables differ from what the last one left.

use crate::play::{Pair, Played};
use crate::runs::{self, FIRST_NAMES};
use crate::script::Line;
use crate::step::Step;
use cases::codes;
use cases::lists::{Folder, List};
use cases::runs::{kept_before, Call as CaseCall, Case, AREA, COUNTS};
use second::lent::NAME_SIZE;
use second::{Call, Reading};

pub fn lines(folder: &Folder, list: &List) -> Result<Vec<Line>, String> {
    let mut pair = Pair::default();
    let mut lines = Vec::new();
    let mut case = Case::from(kept_before(folder, list));
    for line in &folder.lines[&list.name] {
        let Some(call) = case.take(line) else { continue };
        let Some(step) = step_of(&call) else { continue };
        let mut more = before(&call, &pair);
        more.push(Line::Step(step));
        for line in &more {
            let played = pair.take(line).map_err(|how| format!("{}: {line}: {how}", list.name))?;
            if played.is_some_and(|played| !is_as_proved(&call, &played, &pair)) {
                return Err(format!("{}: {line}: not what the case says", list.name));
            }
        }
        lines.extend(more);
    }
    Ok(lines)
}

/// Number, length, answer and every run are those of the case; places, and the area past an answer, are for `host/cases`, where it need not be of one word.
fn is_as_proved(call: &CaseCall, played: &Played, pair: &Pair) -> bool {
    let outcome = &played.outcome;
    let same_runs = (0..runs::RUNS.len()).all(|run| {
        let wanted = &call.after[place_in_case(run)];
        let found = (0..wanted.len()).map(|index| runs::word(&pair.second.words, run, index));
        runs::length(&pair.second.words, run) == wanted.len() && found.eq(wanted.iter().map(|word| Some(*word)))
    });
    let same_answer = call.after[AREA].get(..outcome.length) == played.area.get(..outcome.length);
    let counts = runs::counts(&outcome.counts).as_slice() == call.after[COUNTS];
    outcome.number == call.number && outcome.length as u64 == call.length && counts && same_runs && same_answer
}

/// Where a case has a run: the counts stand between words and names.
fn place_in_case(run: usize) -> usize {
    if run < FIRST_NAMES {
        run
    } else {
        run - FIRST_NAMES + COUNTS + 1
    }
}

/// What has to be written so that the tables, counts and area are those of the case.
fn before(call: &CaseCall, pair: &Pair) -> Vec<Line> {
    let mut lines = Vec::new();
    for run in 0..runs::RUNS.len() {
        let wanted = &call.before[place_in_case(run)];
        let has_length = runs::length(&pair.second.words, run) == wanted.len();
        let fill = if has_length { None } else { Some(wanted.last().copied().unwrap_or(0)) };
        lines.extend(fill.map(|fill| Line::Lend { run, length: wanted.len(), fill }));
        for (index, value) in wanted.iter().copied().enumerate() {
            let held = fill.or_else(|| runs::word(&pair.second.words, run, index));
            if held != Some(value) {
                lines.push(Line::Set { run, index, value });
            }
        }
    }
    let counts: [u64; 9] = std::array::from_fn(|at| call.before[COUNTS].get(at).copied().unwrap_or(0));
    if counts != runs::counts(&pair.second.counts) {
        lines.push(Line::Counts(counts));
    }
    let area = &call.before[AREA];
    lines.push(Line::Area { length: area.len(), fill: area.first().copied().unwrap_or(0) });
    lines
}

/// The call of a case, by its code; none where it is none of the compiled calls.
fn step_of(call: &CaseCall) -> Option<Step> {
    let word = |i: usize| call.arguments.get(i).copied().unwrap_or(0);
    let rest = |i: usize| call.arguments.get(i..).unwrap_or(&[]).to_vec();
    let (time, snapshot) = (word(0), word(0));
    let called = |call| Some(Step::Call(call));
    let read = |reading| Some(Step::Reading(reading));
    match call.code {
        codes::FRESH => called(Call::Fresh { time }),
        codes::CREATE_SCHEMA => called(Call::CreateSchema { time, name: bytes(&rest(1)) }),
        codes::CREATE_TABLE => {
            let arguments = rest(2);
            let (name, arguments) = counted(&arguments);
            let (columns, names) = counted(arguments);
            called(Call::CreateTable { time, schema: word(1), name: bytes(name), columns: columns.to_vec(), column_names: places(names) })
        }
        codes::INSERT => called(Call::Insert { time, table: word(1), record_count: word(2), uuid: (word(3), word(4)), statistics: rest(5) }),
        codes::DELETE => called(Call::Delete { time, data_file: word(1), uuid: (word(2), word(3)), positions: rest(4) }),
        codes::DROP_SCHEMA => called(Call::DropSchema { time, schema: word(1) }),
        codes::DROP_TABLE => called(Call::DropTable { time, table: word(1) }),
        codes::EXPIRE => called(Call::Expire { ids: rest(1), time }),
        codes::CLEANUP => called(Call::Cleanup { t: time }),
        codes::LIST_SCHEMAS => read(Reading::Schemas { snapshot }),
        codes::LIST_TABLES => read(Reading::Tables { snapshot, schema: word(1) }),
        codes::LIST_COLUMNS => read(Reading::Columns { snapshot, table: word(1) }),
        codes::TABLE_BY_NAME => read(Reading::TableByName { snapshot, schema: word(1), name: bytes(&rest(2)) }),
        codes::LIST_FILES => read(Reading::Files { snapshot, table: word(1) }),
        codes::LIST_FILTERED_FILES => read(Reading::FilteredFiles { snapshot, table: word(1), column: word(2), scalar: word(3) as i64 }),
        codes::LIST_ROWS => read(Reading::Rows { snapshot, table: word(1) }),
        codes::SNAPSHOT_BY_TIME => read(Reading::ByTime { t: time }),
        codes::COPY_FILE => read(Reading::FindFile { id: word(0) }),
        _ => None,
    }
}

fn bytes(words: &[u64]) -> Vec<u8> {
    words.iter().map(|word| *word as u8).collect()
}

/// So many words after their number, and those after them.
fn counted(words: &[u64]) -> (&[u64], &[u64]) {
    words[1..].split_at(words[0] as usize)
}

/// Names after their number, each after its length, in places one after another.
fn places(words: &[u64]) -> Vec<u8> {
    let mut places = Vec::new();
    let mut rest = &words[1..];
    for _ in 0..words[0] {
        let (name, after) = counted(rest);
        let mut place = bytes(name);
        place.resize(place.len().max(NAME_SIZE), 0);
        places.extend(place);
        rest = after;
    }
    places
}
