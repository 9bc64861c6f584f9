//! Plays a list of moves on both implementations: everything compared after every call, demand 3 looked after, and beside the way damaged tables and lists
//! that one call plays.

use crate::call_words::push;
use crate::catalogue::{Catalogue, Second};
use crate::choices::Pick;
use crate::moves::{Asked, Damaged, Lifted, List, Move, Raised, Room, Session};
use crate::one_call::Lent;
use crate::play::{self, Pair, Played};
use crate::runs::{SCHEDULED, SIZES, SNAPSHOTS, TABLES};
use crate::script::Line;
use crate::step::Step;
use crate::tally::Tally;
use gukoremo::CallList;
use second::lent::NUMBER_LIMIT;
use second::{load, Call, Catalog, History};

/// What differs.
#[derive(Debug)]
pub struct Difference {
    pub how: String,
    /// Whether it is demand 3 that does not hold, though both implementations agree.
    pub of_demand_3: bool,
}

/// Which questions of demand 3 are asked.
#[derive(Clone, Copy, PartialEq, Eq)]
pub enum Questions {
    /// A share of them now and then, as the list chooses.
    Chosen,
    /// All of them after every call, so that a smaller list asks what shows a difference too.
    All,
}

/// An insert of more rows than these ends the row book, which keeps each of them; the comparison goes on.
const ROWS_FOLLOWED: u64 = 4_096;

/// About so many questions after a call, and after the last.
const ASKED: usize = 24;
const ASKED_LAST: usize = 400;

struct Player<'a> {
    pair: Pair,
    area: (usize, u64),
    history: Option<History>,
    questions: Questions,
    lines: &'a mut Vec<Line>,
    tally: &'a mut Tally,
}

type Done<T = ()> = Result<T, Difference>;

fn differs(how: String) -> Difference {
    Difference { how, of_demand_3: false }
}

fn breaks_demand_3(how: String) -> Difference {
    Difference { how, of_demand_3: true }
}

/// Plays a list and gives the tables as it leaves them. Its lines, up to a difference, are those of conformance/.
pub fn play(list: &List, questions: Questions, lines: &mut Vec<Line>, tally: &mut Tally) -> Done<Pair> {
    lines.clear();
    let mut player = Player { pair: Pair::default(), area: (0, 0), history: None, questions, lines, tally };
    player.begin(list)?;
    for (at, next) in list.moves.iter().enumerate() {
        player.sessions_at(at, list)?;
        player.go_on(next, list.lifted.is_some())?;
    }
    player.sessions_at(list.moves.len(), list)?;
    player.ask(ASKED_LAST, Pick(0))?;
    player.tally.lists += 1;
    player.tally.longest = player.tally.longest.max(list.moves.len() as u64);
    Ok(player.pair)
}

/// The same for itself, with its lines.
pub fn play_alone(list: &List) -> Result<(Pair, Vec<Line>), String> {
    let mut lines = Vec::new();
    let pair = play(list, Questions::Chosen, &mut lines, &mut Tally::default()).map_err(|difference| difference.how)?;
    Ok((pair, lines))
}

impl Player<'_> {
    fn take(&mut self, line: Line) -> Done<Option<Played>> {
        self.lines.push(line);
        self.pair.take(&self.lines[self.lines.len() - 1]).map_err(differs)
    }

    fn step(&mut self, step: Step, room: Room) -> Done<Played> {
        self.lend_area(room)?;
        let played = self.take(Line::Step(step.clone()))?.expect("a step is played");
        self.tally.count(&step, played.outcome.number);
        Ok(played)
    }

    /// An area is lent anew where it is another than the last call had.
    fn lend_area(&mut self, Room { length, fill }: Room) -> Done {
        if self.area != (length, fill) {
            self.area = (length, fill);
            self.take(Line::Area { length, fill })?;
        }
        Ok(())
    }

    /// The runs, Fresh, and numbers near their limit where the list has such.
    fn begin(&mut self, list: &List) -> Done {
        for line in list.lent.lines() {
            self.take(line)?;
        }
        self.call(Step::Call(Call::Fresh { time: list.time }), list.room)?;
        match &list.lifted {
            Some(lifted) if self.history.is_some() => self.lift(lifted),
            _ => Ok(()),
        }
    }

    fn lift(&mut self, Lifted(words): &Lifted) -> Done {
        self.history = None;
        for (index, below) in [0, 2, 3, 4].into_iter().zip(words) {
            if let Some(below) = below {
                self.take(Line::Set { run: SNAPSHOTS, index, value: NUMBER_LIMIT - below })?;
            }
        }
        Ok(())
    }

    fn go_on(&mut self, next: &Move, is_lifted: bool) -> Done {
        let Some(catalog) = self.sound_tables()? else { return Ok(()) };
        if let Some(raised) = next.raised.filter(|_| is_lifted && self.history.is_none()) {
            self.raise(&raised, &catalog)?;
        }
        if let Some((call, room)) = &next.call {
            self.call(call.on(&catalog), *room)?;
        }
        for asked in &next.readings {
            self.read(asked, &catalog)?;
        }
        match (next.questions, self.questions) {
            (_, Questions::All) => self.ask(usize::MAX, Pick(0))?,
            (Some(pick), Questions::Chosen) => self.ask(ASKED, pick)?,
            (None, Questions::Chosen) => {}
        }
        next.damaged.iter().try_for_each(|damaged| self.damaged(damaged, &catalog))
    }

    /// The tables as maps, if they are sound: both say so or neither does, and every list from Fresh leaves them sound.
    fn sound_tables(&mut self) -> Done<Option<Catalog>> {
        let loaded = load(&self.pair.second.words, &self.pair.second.counts);
        let is_sound = self.pair.is_sound();
        if loaded.is_ok() != is_sound {
            return Err(differs(format!("the compiled check says sound: {is_sound}, the second: {:?}", loaded.err())));
        }
        if self.history.is_some() && !is_sound {
            return Err(breaks_demand_3(format!("calls from Fresh left the tables unsound: {:?}", loaded.err())));
        }
        Ok(loaded.ok())
    }

    fn raise(&mut self, raised: &Raised, catalog: &Catalog) -> Done {
        let at = raised.table.below(catalog.tables.len());
        if let Some(table) = catalog.tables.values().nth(at) {
            let value = table.next_row_id.max(NUMBER_LIMIT - raised.below);
            self.take(Line::Set { run: TABLES, index: SIZES[TABLES] * at + 4, value })?;
        }
        Ok(())
    }

    /// A call, followed by the history: from an accepted Fresh on, as long as the row book can keep the rows.
    fn call(&mut self, step: Step, room: Room) -> Done {
        let played = self.step(step.clone(), room)?;
        let Step::Call(call) = &step else { return Ok(()) };
        match call {
            Call::Fresh { time } if played.outcome.number == 0 => {
                self.history = Some(History::from_fresh(*time));
                return Ok(());
            }
            Call::Insert { record_count, .. } if played.outcome.number == 0 && *record_count > ROWS_FOLLOWED => self.history = None,
            _ => {}
        }
        match &mut self.history {
            Some(history) => history.follow(call, &played.outcome, &played.area).map_err(breaks_demand_3),
            None => Ok(()),
        }
    }

    fn read(&mut self, asked: &Asked, catalog: &Catalog) -> Done {
        let reading = asked.reading.on(catalog);
        let length = self.step(reading.clone(), asked.room)?.outcome.length;
        if length > 0 && asked.is_tight {
            self.step(reading.clone(), Room { length, ..asked.room })?;
            self.step(reading, Room { length: length - 1, ..asked.room })?;
        }
        Ok(())
    }

    /// Demand 3 by what the compiled calls answer: about so many of the questions, and where every file is.
    fn ask(&mut self, about: usize, first: Pick) -> Done {
        let Some(history) = &self.history else { return Ok(()) };
        let questions = history.questions();
        let every = 1 + questions.len() / about;
        let asked: Vec<_> = questions.into_iter().skip(first.below(every)).step_by(every).collect();
        self.tally.questions += asked.len() as u64;
        let counts = self.pair.proved.counts();
        let scheduled = self.pair.proved.words(SCHEDULED)[..counts.scheduled * SIZES[SCHEDULED]].to_vec();
        let proved = &mut self.pair.proved;
        history.check(&mut |reading, area| proved.read(reading, area), &counts, &asked, &scheduled).map_err(breaks_demand_3)
    }

    /// On a copy; the lines stay where it shows a difference.
    fn damaged(&mut self, damaged: &Damaged, catalog: &Catalog) -> Done {
        let (pair, area, before) = (self.pair.clone(), self.area, self.lines.len());
        for line in damaged.damage.iter().flat_map(|damage| damage.on(&pair.second)) {
            self.take(line)?;
        }
        let call = damaged.call.iter().map(|(call, room)| (call.on(catalog), room));
        let reading = damaged.reading.iter().map(|(reading, room)| (reading.on(catalog), room));
        let is_damaged = (&self.pair.second.words, self.pair.second.counts) != (&pair.second.words, pair.second.counts);
        self.tally.damaged += u64::from(is_damaged);
        self.tally.still_sound += u64::from(is_damaged && self.pair.is_sound());
        for (step, room) in call.chain(reading) {
            self.lend_area(*room)?;
            let played = self.take(Line::Step(step.clone()))?.expect("a step is played");
            self.tally.meet(&step, played.outcome.number);
        }
        self.lines.truncate(before);
        (self.pair, self.area) = (pair, area);
        Ok(())
    }

    /// The lists that one call plays after so many moves.
    fn sessions_at(&mut self, at: usize, list: &List) -> Done {
        let last = list.moves.len() as u64;
        let mut sessions = list.sessions.iter().filter(|session| session.before_last.up_to(last) == at as u64);
        sessions.try_for_each(|session| self.session(session).map_err(differs))
    }

    /// On a copy, as it is and bent; the lines stay where it shows a difference.
    fn session(&mut self, session: &Session) -> Result<(), String> {
        let (mut pair, before) = (self.pair.clone(), self.lines.len());
        for line in session.damage.iter().flat_map(|damage| damage.on(&self.pair.second)) {
            pair.take(&line)?;
            self.lines.push(line);
        }
        let whole = Lent::whole(self.list_of(session), session.area);
        let found = whole.compare(&pair, self.lines)?;
        found.count(self.tally);
        if let Some((bend, bent)) = session.bend.and_then(|bend| Some((bend, bend.on(&whole, found.answered)?))) {
            let found = bent.lent.compare(&pair, self.lines)?;
            found.count(self.tally);
            self.tally.bent[bend.way] += u64::from(bent.showed(&bend, &found)?);
        }
        self.lines.truncate(before);
        Ok(())
    }

    /// Its steps, each chosen on what those before it leave, as far as that is sound.
    fn list_of(&self, session: &Session) -> CallList {
        let mut tables = self.pair.second.clone();
        let mut list = CallList::new();
        let mut add = |step: Step, tables: &mut Second| {
            push(&mut list, &step);
            play::step(tables, &step, &mut vec![0; session.area]);
        };
        if let Some(time) = session.fresh {
            add(Step::Call(Call::Fresh { time }), &mut tables);
        }
        for asked in &session.asked {
            let Ok(catalog) = load(&tables.words, &tables.counts) else { break };
            add(asked.on(&catalog), &mut tables);
        }
        list
    }
}
