//! The diary session, with the cases that document 01 marks (M), which are proved, and those that it does not mark: these are played here, by both.

use crate::play::Pair;
use crate::runs::SIZES;
use crate::script::Line;
use crate::step::Step;
use second::diary::{self, bounded, name_places, DIARY, ITEM, PRICE};
use second::{Call, Reading};

/// A case: what document 01 says of it, the call, its number, and its answer if it has one.
struct Case {
    says: &'static str,
    step: Step,
    number: u64,
    answer: Vec<u64>,
}

fn case(says: &'static str, call: Call, number: u64) -> Case {
    Case { says, step: Step::Call(call), number, answer: Vec::new() }
}

fn insert(record_count: u64) -> Call {
    let statistics = [bounded(ITEM, 0, 1, 1), bounded(PRICE, 0, 1, 1)].concat();
    Call::Insert { time: 200, table: DIARY, record_count, uuid: (0, 5), statistics }
}

fn table(name: &[u8]) -> Call {
    Call::CreateTable { time: 200, schema: 0, name: name.to_vec(), columns: vec![4, 0], column_names: name_places(&["item"]) }
}

/// The cases that are not marked, each on the tables of the session up to time 150.
fn cases() -> Vec<Case> {
    let (long, longer) = ([b'n'; 32], [b'n'; 33]);
    let by_time = Step::Reading(Reading::ByTime { t: 99 });
    let drop = Call::DropTable { time: 170, table: DIARY };
    let mut longer_place = name_places(&["n"]);
    longer_place.resize(33, b'n');
    let columns = Call::CreateTable { time: 200, schema: 0, name: b"t".to_vec(), columns: vec![4, 0], column_names: longer_place };
    vec![
        Case { says: "by time 99: refusal 7", step: by_time, number: 7, answer: vec![] },
        case("Expire 5: 19", Call::Expire { ids: vec![5], time: 160 }, 19),
        case("Drop at 170 is snapshot 6", drop, 0),
        case("1,048,576 rows pass", insert(1_048_576), 0),
        case("0 rows give 13", insert(0), 13),
        case("1,048,577 rows give 13", insert(1_048_577), 13),
        case("Name of 32 bytes passes, of a schema", Call::CreateSchema { time: 200, name: long.to_vec() }, 0),
        case("33: 9, of a schema", Call::CreateSchema { time: 200, name: longer.to_vec() }, 9),
        case("Name of 32 bytes passes, of a table", table(&long), 0),
        case("33: 9, of a table", table(&longer), 9),
        case("a column's name place of 33 bytes is none: 12", columns, 12),
    ]
}

/// Tables for the session and one commit more.
fn lend() -> Vec<Line> {
    let places = [8, 2, 2, 4, 4, 4, 8, 8, 4, 2, 2, 4];
    places.into_iter().enumerate().map(|(run, places)| Line::Lend { run, length: places * SIZES[run], fill: 0 }).collect()
}

fn session() -> Vec<Line> {
    let calls = diary::calls().into_iter().map(|call| Line::Step(Step::Call(call)));
    lend().into_iter().chain([Line::Counts([0; 9]), Line::Area { length: 4, fill: 0 }]).chain(calls).collect()
}

/// Plays each by both; both must give what the paper says.
pub fn run() -> Result<String, String> {
    let mut played = 0;
    for Case { says, step, number, answer } in cases() {
        let mut pair = Pair::default();
        for line in session() {
            pair.take(&line).map_err(|how| format!("the diary session: {line}: {how}"))?;
        }
        let latest = || vec![Line::Area { length: 1, fill: 0 }, Line::Step(Step::Reading(Reading::ByTime { t: u64::MAX }))];
        let is_commit = matches!(step, Step::Call(_)) && number == 0;
        let given = pair.take(&Line::Step(step)).map_err(|how| format!("{says}: {how}"))?.expect("a step is played");
        if given.outcome.number != number || given.area[..given.outcome.length] != answer {
            return Err(format!("{says}: number {} and answer {:?}", given.outcome.number, &given.area[..given.outcome.length]));
        }
        for line in latest() {
            let found = pair.take(&line).map_err(|how| format!("{says}, then the latest: {how}"))?;
            if found.is_some_and(|found| found.area != [5 + u64::from(is_commit)]) {
                return Err(format!("{says}: not the snapshot after it"));
            }
        }
        played += 1;
    }
    Ok(format!("unmarked: {played} cases of the diary as document 01 says, by both"))
}

/// The session as one list, with the marked cases and these.
pub fn lines() -> Vec<Line> {
    let mut lines = session();
    lines.push(Line::Area { length: 12, fill: 77 });
    let read = |reading| Line::Step(Step::Reading(reading));
    let call = |call| Line::Step(Step::Call(call));
    lines.extend((1..=5).map(|snapshot| read(Reading::Rows { snapshot, table: DIARY })));
    lines.extend([14, 15, 20].map(|scalar| read(Reading::FilteredFiles { snapshot: 5, table: DIARY, column: PRICE, scalar })));
    lines.extend([119, 99].map(|t| read(Reading::ByTime { t })));
    lines.push(read(Reading::Files { snapshot: 5, table: DIARY }));
    lines.push(call(Call::Expire { ids: vec![4], time: 160 }));
    lines.extend([160, 161].map(|t| call(Call::Cleanup { t })));
    lines.push(call(Call::Expire { ids: vec![5], time: 165 }));
    lines.extend([insert(0), insert(1_048_577), table(&[b'n'; 33])].map(call));
    lines.push(call(Call::DropTable { time: 170, table: DIARY }));
    lines.push(call(Call::Expire { ids: vec![0, 1, 2, 3, 5], time: 180 }));
    lines.push(call(Call::Cleanup { t: 181 }));
    lines.push(call(table(&[b'n'; 32])));
    lines.push(call(Call::Insert { time: 200, table: 2, record_count: 1_048_576, uuid: (0, 5), statistics: bounded(1, 0, 1, 1).to_vec() }));
    lines
}
