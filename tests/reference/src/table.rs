//! The argument table: its check, and reading one entry.

use crate::{MOST_ENTRIES, MOST_POOL};

/// The bytes of the header.
pub const HEADER: usize = 8;
/// The bytes of an entry.
pub const ENTRY: usize = 12;

/// One entry, read.
#[derive(Clone, Copy, Debug, PartialEq, Eq)]
pub enum Entry<'a> {
    Bool(bool),
    Int(i64),
    Char(u8),
    Str(&'a [u8]),
    List { first: usize, count: usize },
}

/// A table that has passed its check.
#[derive(Clone, Copy)]
pub struct Table<'a> {
    entries: &'a [u8],
    pool: &'a [u8],
    arguments: usize,
}

impl<'a> Table<'a> {
    /// The table, or the position of its first fault: "shorter than 8 bytes
    /// (0), n (0), m (2), pool (4), total length (4), then the first bad
    /// entry i (8 + 12i)".
    pub fn read(bytes: &'a [u8]) -> Result<Table<'a>, usize> {
        if bytes.len() < HEADER {
            return Err(0);
        }
        let n = be16(bytes, 0);
        let m = be16(bytes, 2);
        let pool_length = be32(bytes, 4);
        if n > MOST_ENTRIES {
            return Err(0);
        }
        if m > n {
            return Err(2);
        }
        if pool_length > MOST_POOL {
            return Err(4);
        }
        if bytes.len() != HEADER + ENTRY * n + pool_length {
            return Err(4);
        }
        let (entries, pool) = bytes[HEADER..].split_at(ENTRY * n);
        let table = Table {
            entries,
            pool,
            arguments: m,
        };
        match (0..n).find(|&i| table.try_entry(i).is_none()) {
            Some(bad) => Err(HEADER + ENTRY * bad),
            None => Ok(table),
        }
    }

    /// How many arguments: "The arguments are entries 0 to m-1."
    pub fn arguments(&self) -> usize {
        self.arguments
    }

    /// An entry of a checked table.
    pub fn entry(&self, index: usize) -> Entry<'a> {
        self.try_entry(index).expect("the table was checked")
    }

    fn try_entry(&self, index: usize) -> Option<Entry<'a>> {
        let entry = &self.entries[ENTRY * index..ENTRY * (index + 1)];
        // "An entry is a tag, three zero bytes, and eight bytes".
        if entry[1..4] != [0, 0, 0] {
            return None;
        }
        let whole = u64::from_be_bytes(entry[4..12].try_into().expect("eight bytes"));
        let (high, low) = (be32(entry, 4), be32(entry, 8));
        match entry[0] {
            0 if whole <= 1 => Some(Entry::Bool(whole == 1)),
            1 => Some(Entry::Int(whole as i64)),
            2 if whole <= 127 => Some(Entry::Char(whole as u8)),
            // "ending within the pool"
            3 => self.pool.get(high..high.checked_add(low)?).map(Entry::Str),
            // "first is above the entry's own number, and first + count is
            // at most n"
            4 => {
                let n = self.entries.len() / ENTRY;
                let fits = high > index && high.checked_add(low)? <= n;
                fits.then_some(Entry::List {
                    first: high,
                    count: low,
                })
            }
            _ => None,
        }
    }
}

/// The table check: the position that code 1 reports.
pub fn check_table(table: &[u8]) -> Result<(), usize> {
    Table::read(table).map(|_| ())
}

fn be16(bytes: &[u8], at: usize) -> usize {
    usize::from(u16::from_be_bytes([bytes[at], bytes[at + 1]]))
}

fn be32(bytes: &[u8], at: usize) -> usize {
    u32::from_be_bytes([bytes[at], bytes[at + 1], bytes[at + 2], bytes[at + 3]]) as usize
}
