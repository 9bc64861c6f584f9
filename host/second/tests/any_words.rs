//! "takes every call on every content of its lent tables and finishes": damaged tables, tables of
//! any words, runs of any length, counts of any size.

mod common;

use common::{World, UNTOUCHED};
use second::diary::{self, name_places};
use second::dice::damage::{any_tables, calls, damage, name_runs, readings, runs};
use second::dice::Dice;
use second::{load, Call, Counts, Reading, ABSENT};

/// Plays every sort of call and reading; `World` sees that refused calls leave everything alone.
fn play_all(world: &World, dice: &mut Dice) -> [u64; 20] {
    let mut met = [0; 20];
    let sound = load(&world.words, &world.counts).is_ok();
    for call in calls(dice) {
        let mut world = world.clone();
        let mut area = vec![UNTOUCHED; dice.index(9)];
        let number = world.call_on(&call, &mut area).number;
        assert!(matches!(call, Call::Fresh { .. }) || (number == 1) != sound);
        met[number as usize] += 1;
    }
    for reading in readings(dice) {
        let number = world.read_on(&reading, dice.index(40)).err().unwrap_or(0);
        assert_eq!(number == 1, !sound);
        met[number as usize] += 1;
    }
    met
}

fn session() -> World {
    let mut world = World::lend(9);
    for call in diary::calls() {
        world.must(&call);
    }
    world.must(&Call::Expire { ids: vec![4], time: 160 });
    world
}

#[test]
fn damaged_tables() {
    let mut met = [0; 20];
    let mut dice = Dice(1);
    for _ in 0..3_000 {
        let mut world = session();
        for _ in 0..=dice.index(3) {
            damage(&mut world.words, &mut world.counts, &mut dice);
        }
        let numbers = play_all(&world, &mut dice);
        met.iter_mut().zip(numbers).for_each(|(sum, number)| *sum += number);
    }
    assert!(met[0] > 1_000 && met[1] > 1_000 && met[2] > 0, "{met:?}");
}

#[test]
fn tables_of_any_words() {
    let mut dice = Dice(2);
    for _ in 0..300 {
        let (words, counts) = any_tables(&mut dice);
        play_all(&World { words, counts }, &mut dice);
    }
}

#[test]
fn every_word_absent() {
    let mut dice = Dice(3);
    let mut world = World::lend(70_000);
    for run in runs(&mut world.words) {
        run.truncate(70_000);
        run.fill(ABSENT);
    }
    world.words.schema_names.fill(255);
    for count in [0, 1, 4_096, 65_536, usize::MAX] {
        world.counts = Counts::of_each(count);
        play_all(&world, &mut dice);
    }
}

/// Sound tables at the limits: a call on them ends in a moment.
#[test]
fn tables_at_the_limits() {
    let mut world = World::lend(4_096);
    world.words.positions = (0..65_536).collect();
    for id in 0..4_096_u64 {
        let place = id as usize;
        let snapshot = [id, id, id, 4_096, 4_097, 1, 0];
        world.words.snapshots[7 * place..7 * place + 7].copy_from_slice(&snapshot);
        world.words.schemas[3 * place..3 * place + 3].copy_from_slice(&[id, id, ABSENT]);
        world.words.tables[5 * place..5 * place + 5].copy_from_slice(&[id, id, ABSENT, 0, 1 << 62]);
        let column = [1, id, id, ABSENT, 0, 4, 1];
        world.words.columns[7 * place..7 * place + 7].copy_from_slice(&column);
        let file = [id, 0, id, ABSENT, 1_048_576, id << 20, 0, id];
        world.words.data_files[8 * place..8 * place + 8].copy_from_slice(&file);
        world.words.statistics[7 * place..7 * place + 7].copy_from_slice(&[id, 1, 0, 0, 0, 0, 0]);
        let name = name_places(&[&format!("name{id}")]);
        for names in name_runs(&mut world.words) {
            names[32 * place..32 * place + 32].copy_from_slice(&name);
        }
    }
    let delete_file = [4_096, 0, 4_095, ABSENT, 0, 65_536, 1, 0];
    world.words.delete_files[..8].copy_from_slice(&delete_file);
    world.counts = Counts::of_each(4_096);
    world.counts.positions = 65_536;
    world.counts.delete_files = 1;
    world.counts.scheduled = 0;
    assert_eq!(load(&world.words, &world.counts).err(), None);
    let insert = Call::Insert {
        time: ABSENT,
        table: 0,
        record_count: 1,
        uuid: (2, 2),
        statistics: vec![1, 0, 0, 0, 0, 0],
    };
    assert_eq!(world.number(&insert), 4);
    assert_eq!(world.number(&Call::CreateSchema { time: ABSENT, name: b"more".to_vec() }), 2);
    assert_eq!(world.read_on(&Reading::Rows { snapshot: 4_095, table: 0 }, 9), Err(3));
    let files = world.read_on(&Reading::Files { snapshot: 4_095, table: 0 }, 8_192).unwrap();
    assert_eq!((files.len(), files[1], files[3]), (8_192, 4_096, ABSENT));
    // All but the latest expire: every record is still live there.
    world.must(&Call::Expire { ids: (0..4_095).collect(), time: 0 });
    assert_eq!((world.counts.snapshots, world.counts.data_files), (1, 4_096));
    // With the table dropped its files are scheduled, as many as there is room for.
    world.must(&Call::DropTable { time: ABSENT, table: 0 });
    assert_eq!(world.number(&Call::Expire { ids: vec![4_095], time: 0 }), 2);
}

/// Where soundness alone is not kept (R15): a data file live at the latest snapshot whose last
/// delete file ended before. A delete then ends nothing and holds only its own positions.
#[test]
fn a_delete_after_a_gap() {
    let mut world = World::lend(9);
    for call in diary::calls() {
        world.must(&call);
    }
    // Without its second record the delete file table has only the one that ended at 5.
    world.counts.delete_files = 1;
    world.counts.positions = 1;
    assert_eq!(load(&world.words, &world.counts).err(), None);
    world.must(&Call::Delete { time: 200, data_file: 0, uuid: (0, 9), positions: vec![2] });
    assert_eq!(world.words.positions[..2], [1, 2]);
    let found = load(&world.words, &world.counts).err().map(|unsound| unsound.rule);
    assert_eq!(found, Some(8));
}
