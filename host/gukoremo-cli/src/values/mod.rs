//! What a person writes, as values: times, UUIDs, numbers, names, columns, statistics. Each parser gives a value or a sentence.

pub mod columns;
pub mod files;
pub mod names;
pub mod numbers;
pub mod statistics;
pub mod times;
pub mod uuids;
