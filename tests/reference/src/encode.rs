//! Building tables.

use crate::table::ENTRY;

/// A value to put in a table.
#[derive(Clone, Debug, PartialEq, Eq)]
pub enum Value {
    Bool(bool),
    Int(i64),
    Char(u8),
    Str(Vec<u8>),
    List(Vec<Value>),
}

impl Value {
    /// The tag of its kind.
    pub fn tag(&self) -> u8 {
        match self {
            Value::Bool(_) => 0,
            Value::Int(_) => 1,
            Value::Char(_) => 2,
            Value::Str(_) => 3,
            Value::List(_) => 4,
        }
    }
}

/// The table of these arguments: they are entries 0 to m-1, list members
/// come after them, and strings are appended to the pool. Panics only if a
/// number does not fit its header field.
pub fn encode(args: &[Value]) -> Vec<u8> {
    let mut waiting: Vec<&Value> = args.iter().collect();
    let mut entries: Vec<[u8; ENTRY]> = Vec::new();
    let mut pool: Vec<u8> = Vec::new();
    while entries.len() < waiting.len() {
        let value = waiting[entries.len()];
        let (high, low) = match value {
            Value::Bool(value) => (0, u32::from(*value)),
            Value::Int(value) => ((value >> 32) as u32, *value as u32),
            Value::Char(c) => (0, u32::from(*c)),
            Value::Str(bytes) => {
                let offset = pool.len();
                pool.extend_from_slice(bytes);
                (four(offset), four(bytes.len()))
            }
            Value::List(members) => {
                let first = waiting.len();
                waiting.extend(members);
                (four(first), four(members.len()))
            }
        };
        entries.push(entry(value.tag(), high, low));
    }
    let n = u16::try_from(entries.len()).expect("entries");
    let m = u16::try_from(args.len()).expect("arguments");
    table_of(n, m, four(pool.len()), &entries, &pool)
}

/// An entry: its tag, and the two halves of its eight bytes.
pub fn entry(tag: u8, high: u32, low: u32) -> [u8; ENTRY] {
    let mut bytes = [0; ENTRY];
    bytes[0] = tag;
    bytes[4..8].copy_from_slice(&high.to_be_bytes());
    bytes[8..12].copy_from_slice(&low.to_be_bytes());
    bytes
}

/// A table of these parts, whether its header goes with the rest or not.
pub fn table_of(n: u16, m: u16, pool: u32, entries: &[[u8; ENTRY]], pool_bytes: &[u8]) -> Vec<u8> {
    let mut table = n.to_be_bytes().to_vec();
    table.extend(m.to_be_bytes());
    table.extend(pool.to_be_bytes());
    table.extend(entries.concat());
    table.extend(pool_bytes);
    table
}

fn four(number: usize) -> u32 {
    u32::try_from(number).expect("four bytes")
}
