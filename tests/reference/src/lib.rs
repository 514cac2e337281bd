//! An ordinary formatter for the rules of "Build requirements and exact
//! rules", with requests Eleven and Thirteen of "After the base": a format
//! string is parsed once into a tree, and the tree is run over an argument
//! table, into one buffer or into small windows.

#![forbid(unsafe_code)]

mod act;
mod directive;
mod encode;
mod job;
mod piece;
mod run;
mod table;
mod tree;
mod vet;
mod windows;

pub use encode::{encode, entry, table_of, Value};
pub use job::{hex, job_line};
pub use run::{format, Answer};
pub use table::{check_table, ENTRY, HEADER};
pub use tree::{check_format, conditionals, Conditional};
pub use vet::{brute_tables, picks, try_tables, vet, vet_brute, Vetted};
pub use windows::{Windows, MORE};

/// "n (2 bytes, at most 1,024)"; also the most kinds that vet takes.
pub const MOST_ENTRIES: usize = 1024;
/// "pool length (4 bytes, at most 65,536)".
pub const MOST_POOL: usize = 65_536;
/// "format above 4,096 bytes".
pub const MOST_FORMAT: usize = 4096;
/// "A parameter is a number 0 to 4,096".
pub const MOST_NUMBER: u32 = 4096;
/// "Blocks nest at most 8 deep".
pub const MOST_DEPTH: usize = 8;
/// "A call does at most 65,536."
pub const MOST_STEPS: usize = 65_536;
/// "L above 4,096" is refused by vet.
pub const MOST_LONGEST: usize = 4096;
