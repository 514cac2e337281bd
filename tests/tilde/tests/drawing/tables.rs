//! Tables drawn at random: sound, loose and damaged ones.

use super::values;
use random::Random;
use reference::{encode, entry, Value, ENTRY, HEADER};

/// Now and then the arguments are fewer, more, or others than a format wants.
pub fn unsettle(random: &Random, arguments: &mut Vec<Value>) {
    let at = random.below(arguments.len().max(1));
    match random.below(12) {
        0 => arguments.truncate(at),
        1 if at < arguments.len() => {
            arguments.remove(at);
        }
        2 if at < arguments.len() => arguments[at] = values::any(random, 2),
        3 => arguments.insert(at.min(arguments.len()), values::any(random, 2)),
        4 | 5 => arguments.extend((0..random.below(4)).map(|_| values::any(random, 2))),
        6 if random.once_in(4) => {
            // So many that `#` is above the greatest charnum.
            arguments.extend((0..150).map(|_| values::printable(random)));
        }
        _ => {}
    }
}

/// The table of these arguments, loosened now and then.
pub fn table(random: &Random, arguments: &[Value]) -> Vec<u8> {
    let table = encode(arguments);
    if random.once_in(4) {
        loosened(random, &table)
    } else {
        table
    }
}

/// With entries and pool bytes that no argument leads to, or fewer arguments than entries before.
fn loosened(random: &Random, table: &[u8]) -> Vec<u8> {
    let n = field(table, 0);
    let more = random.below(4);
    let pool = table.len() - HEADER - ENTRY * n;
    let junk = random.below(20);
    let mut loose = ((n + more) as u16).to_be_bytes().to_vec();
    loose.extend_from_slice(&table[2..4]);
    loose.extend(((pool + junk) as u32).to_be_bytes());
    loose.extend_from_slice(&table[HEADER..HEADER + ENTRY * n]);
    for own in n..n + more {
        // An integer, or a list of no entries just above its own number.
        let list = random.once_in(2);
        loose.extend(if list {
            entry(4, own as u32 + 1, 0)
        } else {
            entry(1, 0, 7)
        });
    }
    loose.extend_from_slice(&table[HEADER + ENTRY * n..]);
    loose.extend((0..junk).map(|_| random.byte()));
    if random.once_in(4) {
        let m = random.below(n + more + 1) as u16;
        loose[2..4].copy_from_slice(&m.to_be_bytes());
    }
    loose
}

/// One damage: a byte of the header or of an entry, a field of one entry, the length.
pub fn damage(random: &Random, table: &mut Vec<u8>) {
    let entries = table.len().saturating_sub(HEADER) / ENTRY;
    match random.below(8) {
        0 => table.truncate(random.below(table.len() + 1)),
        1 => table.push(random.byte()),
        2 if !table.is_empty() => {
            let at = random.below(table.len().min(HEADER));
            table[at] = random.pick(&[0, 1, 4, 5, random.byte()]);
        }
        3 | 4 if entries > 0 => {
            let at = HEADER + ENTRY * random.below(entries);
            table[at] = random.below(7) as u8;
        }
        5 | 6 if entries > 0 => {
            let at = HEADER + ENTRY * random.below(entries) + 1 + random.below(ENTRY - 1);
            table[at] = random.pick(&[table[at].wrapping_add(1), 1, 127, 128, random.byte()]);
        }
        _ if !table.is_empty() => {
            let at = random.below(table.len());
            table[at] ^= 1 << random.below(8);
        }
        _ => table.push(0),
    }
}

fn field(table: &[u8], at: usize) -> usize {
    usize::from(u16::from_be_bytes([table[at], table[at + 1]]))
}
