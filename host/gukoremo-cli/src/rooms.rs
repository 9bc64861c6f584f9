//! `init` and `room`: a new catalogue, and how many records one has room for.

use crate::ask::{self, timed};
use crate::changes::change::{time, value, CHANGES_WAIT};
use crate::changes::{path, wait, warn_of_time};
use crate::failure::{code, Failure};
use crate::file::{self, Lake, Writing};
use crate::list::{Cell, Form, List, Said};
use crate::readings::form;
use crate::runs;
use crate::values::times;
use clap::ArgMatches;
use gukoremo::{Catalog, OwnedTables};

pub fn init(given: &ArgMatches) -> Result<u8, Failure> {
    let time = time(given, times::now())?;
    let writing = Writing::create(&path(given), wait(given))?;
    let places = given.get_one::<u64>("records").map_or(gukoremo::number::TABLE_LIMIT, |records| *records as usize);
    let fresh = timed(|| Catalog::fresh(OwnedTables::with_room(runs::room(places)), time));
    let lake = fresh.map_err(|refusal| Failure::new(code::REFUSED + refusal.number() as u8, format!("{refusal}.")))?;
    writing.replace(lake)?;
    let sentence =
        format!("{} is a catalogue with the schema main, snapshot 0, and places for {places} records of each kind.", path(given).display());
    let fields = vec![("snapshot", Cell::Number(0)), ("time", Cell::Number(time)), ("records", Cell::Number(places as u64))];
    warn_of_time(time, CHANGES_WAIT);
    let said = Said { sentence, fields };
    said.print(form(given)).map(|()| 0).map_err(|failure| failure.after_change(&said.sentence))
}

pub fn room(given: &ArgMatches) -> Result<u8, Failure> {
    if given.get_one::<u64>("records").is_none() {
        return show_room(&file::read(&path(given))?, form(given));
    }
    let (writing, lake) = Writing::open(&path(given), wait(given))?;
    make_room(&writing, lake, given)
}

fn show_room(lake: &Lake, form: Form) -> Result<u8, Failure> {
    // refused where the tables are not sound
    ask::by_time(lake, u64::MAX)?;
    let (used, places) = (runs::words_of(lake.counts()), runs::words_of(lake.view().room()));
    let mut list = List::new(&["table", "used", "places"]);
    let row = |at: usize| vec![Cell::Text(runs::TABLES[at].to_string()), Cell::Number(used[at] as u64), Cell::Number(places[at] as u64)];
    list.rows = (0..runs::TABLES.len()).map(row).collect();
    list.print(form)?;
    Ok(0)
}

fn make_room(writing: &Writing, lake: Lake, given: &ArgMatches) -> Result<u8, Failure> {
    ask::by_time(&lake, u64::MAX)?;
    let places = value::<u64>(given, "records") as usize;
    let (used, asked) = (runs::words_of(lake.counts()), runs::words_of(runs::room(places)));
    if let Some(at) = (0..used.len()).find(|at| used[*at] > asked[*at]) {
        return Err(Failure::new(code::USAGE, "There is less room than is used, and nothing was done.")
            .why(format!("the catalogue uses {} {}, and {places} records of each kind are room for {}.", used[at], runs::TABLES[at], asked[at]))
            .advice("give a higher --records, or expire snapshots first."));
    }
    let (mut tables, counts) = lake.into_parts();
    tables.resize(runs::room(places));
    writing.replace(Catalog::resume(tables, counts))?;
    let shown = file::read(&path(given)).and_then(|lake| show_room(&lake, form(given)));
    shown.map_err(|failure| failure.after_change(&format!("there are places for {places} records of each kind.")))
}
