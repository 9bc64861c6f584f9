//! Killed at any moment, the catalogue is as it was or as it was to be, byte for byte.

use crate::support::{answer, bytes, diary, large, names_in, text, Chance, Folder, COMMAND};
use gukoremo::{CatalogId, FileId, NewStatistics, SnapshotId, Uuid};
use gukoremo_cli::file::{self, Lake};
use std::os::unix::process::ExitStatusExt;
use std::path::Path;
use std::process::{Command, Stdio};
use std::thread::sleep;
use std::time::{Duration, Instant};

/// On a catalogue of 1,000 records of each kind, whose file takes a while to write, and on the diary's.
const KILLS_OF_LARGE: u64 = 80;
const KILLS_OF_SMALL: u64 = 80;
/// In the middle of a batch.
const KILLS_OF_BATCHES: u64 = 40;

/// Which kills came before the change was in place, which after it, and which left a part of it beside the file.
#[derive(Default)]
struct Tally {
    before: u64,
    after: u64,
    beside: u64,
}

/// A change: its words after the file's path, and what it does to the catalogue.
struct Change {
    words: Vec<String>,
    new: Lake,
}

/// The words, parted by spaces.
fn change(words: String, new: Lake) -> Change {
    Change { words: words.split(' ').map(String::from).collect(), new }
}

/// Schemas and tables come and go.
fn of_schemas(mut lake: Lake, step: u64) -> Change {
    let time = 1_000_000 + step;
    match step % 3 {
        0 => {
            lake.create_schema(time, format!("new{step}")).expect("a schema");
            change(format!("create-schema new{step} --time {time}"), lake)
        }
        1 => {
            lake.drop_schema(time, CatalogId(step + 1)).expect("an empty schema");
            change(format!("drop-schema --schema {} --time {time}", step + 1), lake)
        }
        _ => {
            lake.drop_table(time, CatalogId(step + 1)).expect("a table");
            change(format!("drop-table --table {} --time {time}", step + 1), lake)
        }
    }
}

/// Files come, rows go, snapshots are forgotten, files are handed out.
fn of_files(mut lake: Lake, step: u64) -> Change {
    let time = 1_000_000 + step;
    let uuid = Uuid { high: 9, low: step };
    let uuid_text = format!("00000000-0000-0009-0000-{step:012x}");
    let next_file = lake.records().latest().expect("a snapshot").next_file_id.0;
    let last_file = lake.records().data_files().last().expect("a file").id.0;
    // a data file that came last has no delete file yet
    let untouched = last_file + 1 == next_file;
    match (step % 4, untouched) {
        (0, _) | (1, false) => {
            let statistics = [1, 2].map(|column| NewStatistics { column, null_count: 0, min: None, max: Some(9) });
            lake.insert(time, CatalogId(1), 5, uuid, &statistics).expect("an insert");
            change(format!("insert --table main.diary --rows 5 item=..9 price=..9 --uuid {uuid_text} --time {time}"), lake)
        }
        (1, true) => {
            lake.delete(time, FileId(last_file), uuid, &[0, 3]).expect("a delete");
            change(format!("delete --file {last_file} --positions 0,3 --uuid {uuid_text} --time {time}"), lake)
        }
        (2, _) => {
            let first = lake.records().snapshots().next().expect("a snapshot").id;
            lake.expire(&[first], time).expect("an expiry");
            change(format!("expire {} --time {time}", first.0), lake)
        }
        _ => {
            lake.cleanup(time).expect("a cleanup");
            change(format!("cleanup --before {time}"), lake)
        }
    }
}

/// Twenty schemas come and go, in one batch.
fn of_batches(mut lake: Lake, step: u64, batch: &Path) -> Change {
    let time = 2_000_000 + step;
    let mut lines = String::new();
    for at in 0..20 {
        let made = lake.create_schema(time, format!("batch{at}")).expect("a schema");
        lake.drop_schema(time, made.schema).expect("an empty schema");
        lines += &format!("create-schema batch{at} --time {time}\ndrop-schema --schema batch{at} --time {time}\n");
    }
    let first = lake.records().snapshots().next().expect("a snapshot").id.0;
    let snapshots: Vec<SnapshotId> = (first..first + 40).map(SnapshotId).collect();
    lake.expire(&snapshots, time).expect("an expiry");
    lines += &format!("expire {first}..{} --time {time}\n", first + 39);
    std::fs::write(batch, lines).expect("written");
    Change { words: vec!["apply".to_string(), text(batch).to_string()], new: lake }
}

/// How many files lie beside the catalogue that were to take its place.
fn left_behind(path: &Path) -> u64 {
    let own = path.file_name().expect("a name").to_str().expect("a name of this test");
    let names = names_in(path.parent().expect("a folder"));
    names.iter().filter(|name| name.starts_with(own) && name.ends_with(".new")).count() as u64
}

/// Makes changes and kills them at a random moment, until so many have died of it: one that had ended before is not counted. Every eighth is let end, and
/// says how long a change takes just now.
fn kill(path: &Path, kills: u64, seed: u64, next: impl Fn(Lake, u64) -> Change) -> Tally {
    let mut chance = Chance::new(seed);
    let mut tally = Tally::default();
    let mut takes = Duration::from_millis(10);
    let mut step = 0;
    while tally.before + tally.after < kills {
        assert!(step < 4 * kills, "{kills} kills do not come about");
        let now = std::fs::read(path).expect("there");
        let Change { mut words, new } = next(file::read(path).expect("a catalogue"), step);
        words.insert(1, text(path).to_string());
        let new = bytes(new);
        let begin = Instant::now();
        let mut child = Command::new(COMMAND).args(&words).stdout(Stdio::null()).stderr(Stdio::null()).spawn().expect("runs");
        if step % 8 == 0 {
            assert!(child.wait().expect("ends").success(), "{words:?}");
            takes = begin.elapsed();
        } else {
            sleep(Duration::from_nanos(chance.below(takes.as_nanos() as u64)));
        }
        child.kill().ok();
        let died = child.wait().expect("ended").signal().is_some();
        let found = std::fs::read(path).expect("there");
        assert!(found == now || found == new, "step {step}: neither the old catalogue nor the new one: {words:?}");
        // a cleanup of nothing leaves the same bytes
        tally.before += u64::from(died && found == now);
        tally.after += u64::from(died && found != now);
        let beside = left_behind(path);
        tally.beside += u64::from(died && beside == 1);
        assert!(beside <= u64::from(died), "step {step}: {beside} new files are left beside the catalogue: {words:?}");
        step += 1;
    }
    // what the last kill has left the next change removes
    answer(&["create-schema", text(path), "last"]);
    assert_eq!(left_behind(path), 0);
    tally
}

#[test]
fn no_kill_loses_a_catalogue() {
    let folder = Folder::new("kills");
    let (large_path, small_path) = (folder.path("large.lake"), folder.path("small.lake"));
    std::fs::write(&large_path, bytes(large(1000))).expect("written");
    diary(&small_path);
    let one = kill(&large_path, KILLS_OF_LARGE, 1, of_schemas);
    let other = kill(&small_path, KILLS_OF_SMALL, 2, of_files);
    std::fs::write(&large_path, bytes(large(1000))).expect("written");
    let batch = kill(&large_path, KILLS_OF_BATCHES, 3, |lake, step| of_batches(lake, step, &folder.path("batch")));
    let sum = |of: fn(&Tally) -> u64| [&one, &other, &batch].into_iter().map(of).sum::<u64>();
    let (before, after, beside) = (sum(|tally| tally.before), sum(|tally| tally.after), sum(|tally| tally.beside));
    println!("{} kills: {before} before the change, {after} after it, {beside} with a part of it beside the file", before + after);
    assert!(before >= 20 && beside >= 5, "{before} before, {beside} in the middle: the kills did not meet the changes");
}

/// A reader needs no lock: it meets one state after the other.
#[test]
fn readers_meet_whole_states() {
    let folder = Folder::new("readers");
    let path = folder.path("r.lake");
    std::fs::write(&path, bytes(large(500))).expect("written");
    let reader = {
        let path = path.clone();
        std::thread::spawn(move || {
            let (mut last, mut reads) = (0, 0);
            while last < 550 {
                let latest = file::read(&path).expect("whole").records().latest().expect("a snapshot").id.0;
                assert!(latest >= last);
                last = latest;
                reads += 1;
            }
            reads
        })
    };
    for step in 0..51 {
        let (writing, mut lake) = file::Writing::open(&path, Duration::ZERO).expect("no one else");
        lake.create_schema(1_000_000 + step, format!("new{step}")).expect("a schema");
        writing.replace(lake).expect("written");
    }
    assert!(reader.join().expect("no torn state") > 0);
}
