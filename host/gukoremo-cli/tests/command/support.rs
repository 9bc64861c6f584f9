//! Folders, processes, chance, and catalogues to try things on.

use gukoremo::number::{ABSENT, NAME_SIZE};
use gukoremo::record::INSERTED_INTO_TABLE;
use gukoremo::{Catalog, Counts, OwnedTables};
use gukoremo_cli::file::Lake;
use gukoremo_cli::runs;
use std::path::{Path, PathBuf};
use std::process::{Command, Output};

/// A folder of its own, gone at the end.
pub struct Folder(PathBuf);

impl Folder {
    pub fn new(name: &str) -> Folder {
        let path = std::env::temp_dir().join(format!("gukoremo-{name}-{}", std::process::id()));
        let _ = std::fs::remove_dir_all(&path);
        std::fs::create_dir_all(&path).expect("a folder");
        Folder(path)
    }

    pub fn path(&self, name: &str) -> PathBuf {
        self.0.join(name)
    }

    /// The names in it, in order.
    pub fn names(&self) -> Vec<String> {
        names_in(&self.0)
    }
}

pub fn names_in(folder: &Path) -> Vec<String> {
    let entries = std::fs::read_dir(folder).expect("a folder");
    let mut names: Vec<String> = entries.map(|entry| entry.expect("an entry").file_name().to_string_lossy().into_owned()).collect();
    names.sort();
    names
}

impl Drop for Folder {
    fn drop(&mut self) {
        let _ = std::fs::remove_dir_all(&self.0);
    }
}

pub const COMMAND: &str = env!("CARGO_BIN_EXE_gukoremo");

/// The command with these words; a panic of it fails the test.
pub fn gukoremo(words: &[&str]) -> Output {
    let output = Command::new(COMMAND).args(words).output().expect("the command runs");
    let said = String::from_utf8_lossy(&output.stderr);
    assert!(!said.contains("panicked") && output.status.code().is_some_and(|code| code != 101), "{words:?}: {said}");
    output
}

/// What the command answers; it must succeed.
pub fn answer(words: &[&str]) -> String {
    let output = gukoremo(words);
    assert!(output.status.success(), "{words:?}: {}", String::from_utf8_lossy(&output.stderr));
    String::from_utf8_lossy(&output.stdout).into_owned()
}

pub fn text(path: &Path) -> &str {
    path.to_str().expect("a path of this test")
}

/// Chance: xorshift, with a seed.
pub struct Chance(u64);

impl Chance {
    pub fn new(seed: u64) -> Chance {
        Chance(seed.wrapping_mul(0x9E37_79B9_7F4A_7C15) | 1)
    }

    pub fn word(&mut self) -> u64 {
        self.0 ^= self.0 << 13;
        self.0 ^= self.0 >> 7;
        self.0 ^= self.0 << 17;
        self.0.wrapping_mul(0x2545_F491_4F6C_DD1D)
    }

    pub fn below(&mut self, limit: u64) -> u64 {
        (self.word() >> 11) % limit.max(1)
    }

    pub fn pick<'a, Item: ?Sized>(&mut self, items: &[&'a Item]) -> &'a Item {
        items[self.below(items.len() as u64) as usize]
    }
}

/// A sound catalogue with so many records of each kind and 16 positions for each: one table has all files, each with a delete file. There is room for 4096.
pub fn large(records: usize) -> Lake {
    let count = records as u64;
    let mut tables = OwnedTables::with_room(runs::room(4096));
    let name = |names: &mut [u8], at: usize, name: String| names[at * NAME_SIZE..][..name.len()].copy_from_slice(name.as_bytes());
    for at in 0..records {
        let id = at as u64;
        let put = |run: &mut [u64], words: &[u64]| run[at * words.len()..][..words.len()].copy_from_slice(words);
        put(&mut tables.snapshots, &[id, 100 + id, id, count, 3 * count, INSERTED_INTO_TABLE, 0]);
        put(&mut tables.schemas, &[id, 0, ABSENT]);
        name(&mut tables.schema_names, at, if at == 0 { "main".to_string() } else { format!("s{at}") });
        put(&mut tables.tables, &[id, 0, ABSENT, 0, if at == 0 { 17 * count } else { 0 }]);
        name(&mut tables.table_names, at, format!("t{at}"));
        put(&mut tables.columns, &[1, id, 0, ABSENT, 0, 4, 1]);
        name(&mut tables.column_names, at, "price".to_string());
        put(&mut tables.data_files, &[id, 0, 0, ABSENT, 17, 17 * id, 0, id + 1]);
        put(&mut tables.delete_files, &[count + id, 0, 0, ABSENT, id, 16, 1, id + 1]);
        put(&mut tables.positions, &std::array::from_fn::<u64, 16, _>(|position| position as u64));
        put(&mut tables.statistics, &[id, 1, 0, 1, 1, id, id + 9]);
        put(&mut tables.scheduled, &[2 * count + id, 2, id + 1, 5]);
    }
    let counts = Counts { positions: 16 * records, ..runs::counts_of([records; 9]) };
    Catalog::resume(tables, counts)
}

/// The bytes of a catalogue's file.
pub fn bytes(lake: Lake) -> Vec<u8> {
    let (tables, counts) = lake.into_parts();
    gukoremo_cli::format::encode(&tables, counts)
}

/// The diary session up to time 150, in a file.
pub fn diary(path: &Path) {
    let path = text(path);
    let uuid = |low: u64| format!("00000000-0000-0000-0000-{low:012x}");
    answer(&["init", path, "--time", "100", "--records", "1024"]);
    answer(&["create-table", path, "main.diary", "item:int64", "price:int64?", "--time", "110"]);
    answer(&["insert", path, "--table", "main.diary", "--rows", "3", "item=1..3", "price=9..14", "--uuid", &uuid(1), "--time", "120"]);
    answer(&["insert", path, "--table", "main.diary", "--rows", "2", "item=4..5", "price=20..20", "nulls=1", "--uuid", &uuid(2), "--time", "130"]);
    answer(&["delete", path, "--file", "0", "--positions", "1", "--uuid", &uuid(3), "--time", "140"]);
    answer(&["delete", path, "--file", "0", "--positions", "0", "--uuid", &uuid(4), "--time", "150"]);
}
