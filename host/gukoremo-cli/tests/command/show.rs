//! The picture, rendered: in each cell of a file's row and a snapshot's column there is the file's colour just where the compiled call lists the file.

use crate::support::{answer, bytes, diary, large, text, Chance, Folder, COMMAND};
use gukoremo::{Catalog, CatalogId, ColumnType, FileId, NewColumn, NewStatistics, OwnedTables, SnapshotId, Uuid};
use gukoremo_cli::file::{self, Lake};
use gukoremo_cli::runs;
use std::collections::BTreeSet;
use std::path::Path;
use std::process::Command;

/// The rectangle of an id: x, y, width and height, and its class.
fn rectangle(svg: &str, id: &str) -> Option<([u32; 4], String)> {
    let element = svg.split("<rect").find(|element| element.starts_with(&format!(" id=\"{id}\"")))?;
    let attribute = |name: &str| element.split(&format!(" {name}=\"")).nth(1)?.split('"').next();
    let number = |name: &str| attribute(name)?.parse().ok();
    Some(([number("x")?, number("y")?, number("width")?, number("height")?], attribute("class")?.to_string()))
}

/// The pixels of a picture, as rsvg-convert renders it: rows of red, green and blue.
fn rendered(svg: &Path) -> Vec<Vec<[u8; 3]>> {
    let png = svg.with_extension("png");
    let status = Command::new("rsvg-convert").arg("-o").arg(&png).arg(svg).status().expect("rsvg-convert, which host/packages installs");
    assert!(status.success(), "the picture is no SVG");
    let mut reader = png::Decoder::new(std::fs::File::open(&png).expect("there")).read_info().expect("a PNG");
    let mut pixels = vec![0; reader.output_buffer_size()];
    let info = reader.next_frame(&mut pixels).expect("a PNG");
    let size = info.line_size / info.width as usize;
    pixels.chunks(info.line_size).map(|line| line.chunks(size).map(|pixel| [pixel[0], pixel[1], pixel[2]]).collect()).collect()
}

/// What a colour says: a data file, a delete file, or none.
fn mark(pixel: [u8; 3]) -> Option<&'static str> {
    match pixel {
        [0x00, 0x72, 0xb2] => Some("data"),
        [0x86, 0xbc, 0xdc] => Some("data ended"),
        [0xd5, 0x5e, 0x00] => Some("delete"),
        [0xf0, 0xb4, 0x8a] => Some("delete ended"),
        _ => None,
    }
}

/// The files that a snapshot shows, as the compiled call lists them.
fn shown(lake: &Lake, at: SnapshotId) -> BTreeSet<u64> {
    let tables = lake.records().tables().filter(|table| table.life.is_live_at(at)).map(|table| table.id);
    let files = tables.flat_map(|table| lake.list_files(at, table).expect("a table"));
    files.flat_map(|pair| [Some(pair.data_file), pair.delete_file]).flatten().map(|file| file.0).collect()
}

/// Every cell of the picture of a catalogue is looked at. Gives how many have a colour.
fn compare(path: &Path) -> u64 {
    let lake = file::read(path).expect("a catalogue");
    let svg = answer(&["show", text(path), "--svg"]);
    let drawn = path.with_extension("svg");
    std::fs::write(&drawn, &svg).expect("written");
    let pixels = rendered(&drawn);
    let data: BTreeSet<u64> = lake.records().data_files().map(|file| file.id.0).collect();
    let delete: BTreeSet<u64> = lake.records().delete_files().map(|file| file.id.0).collect();
    let latest = shown(&lake, lake.records().latest().expect("a snapshot").id);
    let middle = |start: u32, length: u32| (start + length / 2) as usize;
    let mut coloured = 0;
    for snapshot in lake.records().snapshots() {
        let ([x, _, width, _], _) = rectangle(&svg, &format!("snapshot-{}", snapshot.id.0)).expect("a column");
        let shown = shown(&lake, snapshot.id);
        for file in data.union(&delete) {
            let ([_, y, _, height], _) = rectangle(&svg, &format!("file-{file}")).expect("a bar");
            let found = mark(pixels[middle(y, height)][middle(x, width)]);
            let expected = shown.contains(file).then(|| match (data.contains(file), latest.contains(file)) {
                (true, true) => "data",
                (true, false) => "data ended",
                (false, true) => "delete",
                (false, false) => "delete ended",
            });
            assert_eq!(found, expected, "file {file} at snapshot {}", snapshot.id.0);
            coloured += u64::from(found.is_some());
        }
    }
    for one in lake.records().scheduled() {
        assert_eq!(rectangle(&svg, &format!("file-{}", one.file.0)).expect("a box").1, "scheduled");
    }
    // each file that ever was is in one place: a bar or a box of its own, or the range that is gone
    let next = lake.records().latest().expect("a snapshot").next_file_id.0;
    let scheduled: BTreeSet<u64> = lake.records().scheduled().map(|one| one.file.0).collect();
    let is_known = |id: &u64| data.contains(id) || delete.contains(id) || scheduled.contains(id);
    for id in (0..next).filter(|id| !is_known(id)) {
        let begins = id == 0 || is_known(&(id - 1));
        assert_eq!(rectangle(&svg, &format!("file-{id}")).map(|(_, class)| class), begins.then(|| "gone".to_string()), "file {id}");
    }
    coloured
}

#[test]
fn a_picture_shows_the_lives_of_files() {
    let folder = Folder::new("show");
    let path = folder.path("s <&> \"1\".lake");
    diary(&path);
    assert_eq!(compare(&path), 4 + 3 + 1 + 1);
    answer(&["create-schema", text(&path), "books", "--time", "160"]);
    answer(&["expire", text(&path), "0,4", "--time", "170"]);
    assert_eq!(compare(&path), 4 + 3 + 2);
    answer(&["cleanup", text(&path), "--before", "171"]);
    answer(&["drop-table", text(&path), "--table", "diary", "--time", "180"]);
    assert_eq!(compare(&path), 4 + 3 + 2);
    answer(&["expire", text(&path), "1..3,5..6", "--time", "190"]);
    assert_eq!(compare(&path), 0);
}

/// A catalogue of chance with 170 snapshots and some expired: columns of every width.
#[test]
fn pictures_of_many_snapshots() {
    let folder = Folder::new("show-many");
    let path = folder.path("m.lake");
    let mut chance = Chance::new(5);
    let mut lake = Catalog::fresh(OwnedTables::with_room(runs::room(1000)), 100).expect("a catalogue");
    let column = NewColumn { name: "a", column_type: ColumnType::Int8, nulls_allowed: true };
    let mut coloured = 0;
    for step in 0..300 {
        let (time, uuid) = (200 + step, Uuid { high: 3, low: step });
        let table = CatalogId(1 + chance.below(4));
        // those that are refused change nothing
        let _ = match if step < 4 { 0 } else { chance.below(20) } {
            0 => lake.create_table(time, CatalogId(0), format!("t{step}"), &[column]).map(|_| ()),
            1 if step > 200 => lake.drop_table(time, table).map(|_| ()),
            2..=10 => lake.insert(time, table, 9, uuid, &[NewStatistics { column: 1, null_count: 0, min: None, max: None }]).map(|_| ()),
            11..=15 => lake.delete(time, FileId(chance.below(30)), uuid, &[chance.below(9)]).map(|_| ()),
            16 => lake.expire(&[SnapshotId(chance.below(step))], time),
            17 if step % 5 == 0 => lake.cleanup(time).map(|_| ()),
            _ => lake.create_schema(time, format!("s{step}")).map(|_| ()),
        };
        if [30, 60, 299].contains(&step) {
            let (tables, counts) = lake.into_parts();
            std::fs::write(&path, gukoremo_cli::format::encode(&tables, counts)).expect("written");
            coloured += compare(&path);
            lake = Catalog::resume(tables, counts);
        }
    }
    println!("pictures: {coloured} cells have a file's colour");
    assert!(coloured > 1000 && lake.records().snapshots().count() > 160, "{coloured}");
}

/// In characters the same, a line for each file.
#[test]
fn a_picture_in_characters() {
    let folder = Folder::new("show-text");
    let path = folder.path("t.lake");
    diary(&path);
    answer(&["expire", text(&path), "0,4", "--time", "160"]);
    let output = Command::new(COMMAND).args(["show", "t.lake"]).current_dir(folder.path("")).output().expect("runs");
    assert_eq!(
        String::from_utf8_lossy(&output.stdout),
        "\
t.lake             1 2 3 5
main.diary
  data file 0        # # #
    delete file 3        x
  data file 1          # #
scheduled: file 2, ducklake-00000000-0000-0000-0000-000000000003.parquet, since 160 (1970-01-01T00:00:00.000160Z)
"
    );
    // at the limits it ends
    std::fs::write(&path, bytes(large(4096))).expect("written");
    assert_eq!(answer(&["show", text(&path), "--svg"]).matches("<rect id=\"file-").count(), 3 * 4096);
}
