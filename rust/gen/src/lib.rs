//! Seeded generators of tables sound and unsound, of names that use what a
//! table has, and of table files. The same seed gives the same things.

mod damage;
pub mod disturbed;
mod draft;
pub mod files;
pub mod lists;
pub mod names;
mod pools;
pub mod rng;
pub mod screens;
pub mod small;
pub mod tables;
pub mod tiny;
mod unsound;
pub mod wholes;
pub mod worst;

pub use files::file;
pub use names::Vocabulary;
pub use rng::Rng;
pub use small::small_table;
pub use tables::{sound_table, table, Made};
