//! Choices that are made before the tables are known, and what they come to on tables as they are.

use proptest::prelude::*;
use proptest::sample::select;
use second::dice::damage::EDGES;
use second::Catalog;

/// Both sides of the types' ranges.
const BOUNDS: [i64; 22] = [
    0,
    1,
    2,
    -1,
    127,
    128,
    -128,
    -129,
    255,
    256,
    32_767,
    32_768,
    -32_768,
    -32_769,
    65_535,
    65_536,
    2_147_483_647,
    -2_147_483_648,
    -2_147_483_649,
    4_294_967_295,
    i64::MAX,
    i64::MIN,
];

/// Words that stand at the limits of counts and lists.
const LIMITS: [u64; 5] = [4_096, 65_536, 65_537, 1_048_576, 1 << 63];

/// A word at an edge, low ones first.
pub fn edge() -> impl Strategy<Value = u64> {
    prop_oneof![0..8_u64, select(&EDGES[..]), select(&LIMITS[..]), bound().prop_map(|bound| bound as u64)]
}

pub fn bound() -> impl Strategy<Value = i64> {
    select(&BOUNDS[..])
}

/// True once in so many.
pub fn one_in(sides: u32) -> impl Strategy<Value = bool> {
    proptest::bool::weighted(1.0 / f64::from(sides))
}

/// Something once in so many.
pub fn rarely<S: Strategy>(sides: u32, what: S) -> impl Strategy<Value = Option<S::Value>> {
    proptest::option::weighted(1.0 / f64::from(sides), what)
}

/// Something nearly always; nothing where shrinking comes to it.
pub fn mostly<S: Strategy>(what: S) -> impl Strategy<Value = Option<S::Value>> {
    proptest::option::weighted(0.98, what)
}

/// Which of those that are there.
#[derive(Clone, Copy, Debug)]
pub struct Pick(pub u8);

pub fn pick() -> impl Strategy<Value = Pick> {
    any::<u8>().prop_map(Pick)
}

impl Pick {
    /// An index below the length; 0 of none.
    pub fn below(self, length: usize) -> usize {
        usize::from(self.0) % length.max(1)
    }

    /// None of none.
    pub fn of<T: Copy>(self, list: &[T]) -> Option<T> {
        list.get(self.below(list.len())).copied()
    }

    /// The same, where the choice 0 is the last: what is newest outlives a shorter list.
    pub fn of_newest<T>(self, mut list: impl DoubleEndedIterator<Item = T> + ExactSizeIterator) -> Option<T> {
        let back = self.below(list.len());
        list.nth_back(back)
    }

    /// A number up to a last one, which is the choice 0.
    pub fn up_to(self, last: u64) -> u64 {
        last - u64::from(self.0) % last.saturating_add(1)
    }
}

/// What is live at the latest snapshot.
pub struct Live {
    pub schemas: Vec<u64>,
    pub tables: Vec<u64>,
    pub data_files: Vec<u64>,
}

impl Live {
    pub fn on(catalog: &Catalog) -> Live {
        let latest = catalog.latest_id();
        let schemas = catalog.schemas.iter().filter(|(_, schema)| schema.life.is_live_at(latest)).map(|(id, _)| *id);
        let tables = catalog.tables.iter().filter(|(_, table)| table.life.is_live_at(latest)).map(|(id, _)| *id);
        let data_files = catalog.data_files.iter().filter(|(_, file)| file.life.is_live_at(latest)).map(|(id, _)| *id);
        Live { schemas: schemas.collect(), tables: tables.collect(), data_files: data_files.collect() }
    }
}

/// An id that a call names: mostly one that is live, else any up to the next to be given out.
#[derive(Clone, Copy, Debug)]
pub struct Id {
    pick: Pick,
    is_any: bool,
}

pub fn id() -> impl Strategy<Value = Id> {
    (one_in(10), pick()).prop_map(|(is_any, pick)| Id { pick, is_any })
}

impl Id {
    /// The newest that is live.
    pub const NEWEST: Id = Id { pick: Pick(0), is_any: false };

    pub fn among(self, live: &[u64], next: u64) -> u64 {
        self.pick.of_newest(live.iter().copied()).filter(|_| !self.is_any).unwrap_or_else(|| self.pick.up_to(next))
    }
}

/// A time beside that of the latest snapshot.
#[derive(Clone, Copy, Debug)]
pub enum Time {
    After(u64),
    JustBefore,
}

pub fn time() -> impl Strategy<Value = Time> {
    prop_oneof![23 => (0..3_u64).prop_map(Time::After), 1 => Just(Time::JustBefore)]
}

impl Time {
    pub fn on(self, catalog: &Catalog) -> u64 {
        let latest = catalog.latest().1.time;
        match self {
            Time::After(step) => latest.saturating_add(step),
            Time::JustBefore => latest.saturating_sub(1),
        }
    }
}

/// A UUID: mostly a new one, else one that may be taken; some differ in the high word alone.
#[derive(Clone, Copy, Debug)]
pub struct Uuid {
    high: u64,
    taken: Option<Pick>,
}

pub fn uuid() -> impl Strategy<Value = Uuid> {
    (rarely(6, pick()), one_in(6)).prop_map(|(taken, high)| Uuid { high: u64::from(high), taken })
}

impl Uuid {
    pub const NEW: Uuid = Uuid { high: 0, taken: None };

    pub fn on(self, catalog: &Catalog) -> (u64, u64) {
        let next = catalog.latest().1.next_file_id;
        (self.high, self.taken.map_or(next, |taken| taken.up_to(next)))
    }
}

/// A word that becomes another: one beside it, one that differs in a bit, or one at an edge.
#[derive(Clone, Copy, Debug)]
pub enum Near {
    Above,
    Below,
    Flipped(u8),
    Edge(u64),
}

pub fn near() -> impl Strategy<Value = Near> {
    prop_oneof![Just(Near::Above), Just(Near::Below), edge().prop_map(Near::Edge), (0..64_u8).prop_map(Near::Flipped)]
}

impl Near {
    pub fn to(self, word: u64) -> u64 {
        match self {
            Near::Above => word.wrapping_add(1),
            Near::Below => word.wrapping_sub(1),
            Near::Flipped(bit) => word ^ 1 << bit,
            Near::Edge(edge) => edge,
        }
    }
}
