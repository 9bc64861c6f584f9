//! Document 01, the DuckLake 0.3 snapshot catalogue on lent tables, implemented a second time.
//!
//! A call loads the lent words into maps of records by id (`load`, which is also the check of
//! 'Sound tables'), works on the maps, and stores them again (`store`). No word is written before
//! every refusal has been judged.
//!
//! | section of document 01 | files |
//! |---|---|
//! | The lent tables | `lent`, `names`, `paths`, `types`, `records`, `catalog`, `store` |
//! | Sound tables | `load`, `sound` |
//! | Commits | `commits` |
//! | Readings | `readings` |
//! | Expiry and cleanup | `expiry`, `cleanup` |
//! | Who can cause which refusal | `refusals` |
//! | Demand 3 | `calls`, `row_book`, `history` |
//! | The diary session | `diary` |
//! | none: lists that one call plays | `call_list` |
//! | tests | `dice` |
//!
//! R and a number cites a point of docs/READINGS.md or of docs/DECISIONS.md.

pub mod call_list;
pub mod calls;
pub mod catalog;
pub mod cleanup;
pub mod commits;
pub mod diary;
pub mod dice;
pub mod expiry;
pub mod history;
pub mod lent;
pub mod load;
pub mod names;
pub mod paths;
pub mod readings;
pub mod records;
pub mod refusals;
pub mod row_book;
pub mod sound;
pub mod store;
pub mod types;

pub use call_list::{play, CallList, Session, Step};
pub use calls::{perform, read, Call, Reading};
pub use catalog::Catalog;
pub use cleanup::cleanup;
pub use commits::delete::delete;
pub use commits::fresh::fresh;
pub use commits::insert::insert;
pub use commits::schemas::{create_schema, drop_schema};
pub use commits::tables::{create_table, drop_table};
pub use expiry::expire;
pub use history::History;
pub use lent::{Counts, Run, Words, ABSENT};
pub use load::load;
pub use readings::by_time::snapshot_by_time;
pub use readings::files::{list_files, list_filtered_files};
pub use readings::lists::{list_columns, list_schemas, list_tables, table_by_name};
pub use readings::lookup::find_file;
pub use readings::rows::list_rows;
pub use refusals::{Outcome, Refusal};
pub use sound::Unsound;
pub use store::store;
