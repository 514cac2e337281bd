//! The proved table check against the cases, and against the reference check
//! on damaged tables.

use random::Random;
use reference::{entry, hex, table_of, ENTRY, HEADER, MOST_ENTRIES, MOST_POOL};
use std::collections::BTreeMap;

const SEED: u64 = 1;
const TABLES: usize = 300_000;

/// A table check: code and position.
type Check = fn(&[u8]) -> (u32, usize);

fn reference_check(table: &[u8]) -> (u32, usize) {
    match reference::check_table(table) {
        Ok(()) => (0, 0),
        Err(position) => (1, position),
    }
}

#[test]
fn cases() {
    let cases = vectors::tables();
    for case in &cases {
        let answer = probe::check_table(&case.table);
        assert_eq!(answer, (case.code, case.position), "{:?}", case.place);
    }
    println!(
        "tables.txt: {} tables agree with the proved check",
        cases.len()
    );
}

#[test]
fn damaged_tables() {
    let random = Random::new(SEED);
    let mut met: BTreeMap<&str, usize> = BTreeMap::new();
    for _ in 0..TABLES {
        let table = next_table(&random);
        compare(&table, probe::check_table, reference_check);
        *met.entry(kind_of_end(&table)).or_default() += 1;
    }
    println!("{TABLES} damaged tables agree: {met:?}");
    // Each way in which the check ends is met often enough to count.
    assert_eq!(met.len(), 7, "{met:?}");
    assert!(met.values().all(|&count| count >= 1000), "{met:?}");
}

#[test]
fn every_byte_of_an_entry() {
    // Each byte of each field of each kind of entry takes every value, in first, middle and last place.
    let mut compared = 0;
    let kinds = [(0, 0, 1), (1, 7, 7), (2, 0, 65), (3, 1, 2), (4, 3, 0)];
    for (tag, high, low) in kinds {
        for index in 0..3 {
            let mut entries = [entry(1, 0, 0); 3];
            entries[index] = entry(tag, high, low);
            let table = table_of(3, 3, 3, &entries, b"abc");
            for at in 0..table.len() {
                for value in 0..=255 {
                    let mut damaged = table.clone();
                    damaged[at] = value;
                    compare(&damaged, probe::check_table, reference_check);
                    compared += 1;
                }
            }
        }
    }
    println!("{compared} tables with one byte set agree");
}

#[test]
fn every_length() {
    // A table cut or extended to each length: only its own is right.
    let entries: Vec<_> = (0..20).map(|i| entry(3, i, 1)).collect();
    let table = table_of(20, 20, 21, &entries, &[b'p'; 21]);
    let mut longer = table.clone();
    longer.extend([0; 40]);
    for length in 0..longer.len() {
        compare(&longer[..length], probe::check_table, reference_check);
        assert_eq!(
            probe::check_table(&longer[..length]).0 == 0,
            length == table.len()
        );
    }
}

/// The comparison itself is seen to fail, and shrinks to the smallest table that shows a fault.
#[test]
fn a_faulty_check_is_found() {
    // It takes a list that begins at its own entry.
    let faulty: Check = |table| match reference_check(table) {
        (1, position) if position >= HEADER && table[position] == 4 => {
            let own = ((position - HEADER) / ENTRY) as u8;
            let mut mended = table.to_vec();
            if table[position + 4..position + 8] == [0, 0, 0, own] {
                mended[position + 7] += 1;
            }
            reference_check(&mended)
        }
        answer => answer,
    };
    let random = Random::new(SEED);
    let found = (0..TABLES)
        .map(|_| next_table(&random))
        .find(|table| faulty(table) != reference_check(table))
        .expect("a damaged table that shows the fault");
    let smallest = shrink(&found, faulty, reference_check);
    assert_eq!(hex(&smallest), "0001000000000000040000000000000000000000");
}

// ---- comparing ------------------------------------------------------------

fn compare(table: &[u8], one: Check, other: Check) {
    if one(table) != other(table) {
        let smallest = shrink(table, one, other);
        panic!(
            "{:?} and {:?} on the table {}",
            one(&smallest),
            other(&smallest),
            hex(&smallest)
        );
    }
}

/// The smallest table found on which the two differ: entries and bytes are
/// taken out and bytes made 0 while they still do.
fn shrink(table: &[u8], one: Check, other: Check) -> Vec<u8> {
    let mut smallest = table.to_vec();
    loop {
        let next = smaller(&smallest).find(|table| one(table) != other(table));
        match next {
            Some(table) => smallest = table,
            None => return smallest,
        }
    }
}

fn smaller(table: &[u8]) -> impl Iterator<Item = Vec<u8>> + '_ {
    let entries = table.len().saturating_sub(HEADER) / ENTRY;
    let without_entries = [512, 64, 8, 1].into_iter().flat_map(move |count| {
        (0..entries.saturating_sub(count - 1)).map(move |i| without_entries(table, i, count))
    });
    let cut = [4096, 256, 16, 1].into_iter().filter_map(|count| {
        let length = table.len().checked_sub(count)?;
        Some(table[..length].to_vec())
    });
    let pool = [4096, 256, 16, 1].into_iter().filter_map(|count| {
        let length = table.len().checked_sub(count)?;
        let pool = u32::from_be_bytes(table.get(4..8)?.try_into().ok()?);
        let mut bytes = table[..length].to_vec();
        let less = pool.checked_sub(count as u32)?;
        bytes.get_mut(4..8)?.copy_from_slice(&less.to_be_bytes());
        Some(bytes)
    });
    let lower = |to: fn(u8) -> u8| {
        (0..table.len()).filter(|&at| table[at] > 0).map(move |at| {
            let mut bytes = table.to_vec();
            bytes[at] = to(bytes[at]);
            bytes
        })
    };
    without_entries
        .chain(pool)
        .chain(cut)
        .chain(lower(|_| 0))
        .chain(lower(|byte| byte - 1))
}

/// The table without some entries: n is less, m no greater than it, and the list places above are less.
fn without_entries(table: &[u8], first: usize, count: usize) -> Vec<u8> {
    let mut bytes = table.to_vec();
    bytes.drain(HEADER + ENTRY * first..HEADER + ENTRY * (first + count));
    let field = |at: usize| usize::from(u16::from_be_bytes([table[at], table[at + 1]]));
    let n = field(0).saturating_sub(count);
    bytes[0..2].copy_from_slice(&(n as u16).to_be_bytes());
    bytes[2..4].copy_from_slice(&(field(2).min(n) as u16).to_be_bytes());
    for at in (HEADER..bytes.len().saturating_sub(ENTRY - 1)).step_by(ENTRY) {
        let place: [u8; 4] = bytes[at + 4..at + 8].try_into().expect("four bytes");
        let place = u32::from_be_bytes(place);
        if bytes[at] == 4 && place as usize > first {
            let less = place.saturating_sub(count as u32);
            bytes[at + 4..at + 8].copy_from_slice(&less.to_be_bytes());
        }
    }
    bytes
}

/// Which of the ways to end this table takes, for the count of each.
fn kind_of_end(table: &[u8]) -> &'static str {
    match reference_check(table) {
        (0, _) => "accepted",
        _ if table.len() < HEADER => "shorter than 8 bytes",
        (_, 0) => "n",
        (_, 2) => "m",
        (_, 4) if table[4..8] > [0, 1, 0, 0][..] => "pool",
        (_, 4) => "length",
        _ => "entry",
    }
}

// ---- tables ---------------------------------------------------------------

/// A sound table with none to three damages, or bytes of no shape.
fn next_table(random: &Random) -> Vec<u8> {
    if random.once_in(20) {
        return shapeless(random);
    }
    let mut table = sound(random);
    for _ in 0..random.pick(&[0, 1, 1, 1, 1, 2, 3]) {
        damage(random, &mut table);
    }
    table
}

/// Random bytes, half of them under a header that goes with their length.
fn shapeless(random: &Random) -> Vec<u8> {
    let length = random.below(80);
    let mut bytes: Vec<u8> = (0..length).map(|_| random.byte()).collect();
    if length >= HEADER && random.once_in(2) {
        let n = (length - HEADER) / ENTRY;
        let pool = (length - HEADER - ENTRY * n) as u8;
        bytes[..HEADER].copy_from_slice(&[0, n as u8, 0, 0, 0, 0, 0, pool]);
        for i in 0..n {
            let at = HEADER + ENTRY * i;
            bytes[at] = random.pick(&[0, 1, 2, 3, 4, 5]);
            bytes[at + 1..at + 4].fill(0);
        }
    }
    bytes
}

fn sound(random: &Random) -> Vec<u8> {
    let n = match random.below(100) {
        0 => MOST_ENTRIES,
        1 => MOST_ENTRIES - random.below(8),
        2..=9 => random.below(60),
        _ => random.below(9),
    };
    let pool = match random.below(400) {
        0 => MOST_POOL,
        1 => MOST_POOL - random.below(8),
        2..=20 => random.below(1000),
        _ => random.below(20),
    };
    let m = random.pick(&[0, n, random.below(n + 1)]);
    // In some tables nearly all entries are lists, so that lists hold lists.
    let lists = random.once_in(5);
    let entries: Vec<_> = (0..n)
        .map(|i| {
            let tag = if lists && !random.once_in(8) {
                4
            } else {
                random.below(5) as u8
            };
            match tag {
                0 => entry(0, 0, random.below(2) as u32),
                1 => {
                    let word = random.magnitude();
                    entry(1, (word >> 32) as u32, word as u32)
                }
                2 => entry(2, 0, random.below(128) as u32),
                3 => {
                    let (offset, length) = span(random, pool);
                    entry(3, offset, length)
                }
                _ => {
                    let (first, count) = span(random, n - i - 1);
                    entry(4, (i + 1) as u32 + first, count)
                }
            }
        })
        .collect();
    let pool_bytes: Vec<u8> = (0..pool).map(|_| random.byte()).collect();
    table_of(n as u16, m as u16, pool as u32, &entries, &pool_bytes)
}

/// A start and a count within `length`, often up to its end.
fn span(random: &Random, length: usize) -> (u32, u32) {
    let start = random.pick(&[0, length, random.below(length + 1)]);
    let count = random.pick(&[length - start, random.below(length - start + 1)]);
    (start as u32, count as u32)
}

fn damage(random: &Random, table: &mut Vec<u8>) {
    match random.below(12) {
        0..=2 => damage_header(random, table),
        3..=7 => damage_entry(random, table),
        8 => {
            table.push(random.byte());
        }
        9 => {
            table.pop();
        }
        10 => {
            let length = random.below(table.len() + 1);
            table.truncate(random.pick(&[length, length.min(HEADER), length.min(HEADER + ENTRY)]));
        }
        _ => {
            if !table.is_empty() {
                let at = random.below(table.len());
                table[at] = random.pick(&[random.byte(), table[at] ^ (1 << random.below(8))]);
            }
        }
    }
}

/// One of n, m and the pool length: beside its value, at its limit, with its bytes turned round, or anything.
fn damage_header(random: &Random, table: &mut [u8]) {
    if table.len() < HEADER {
        return;
    }
    let n = u16::from_be_bytes([table[0], table[1]]);
    if random.once_in(3) {
        let pool = u32::from_be_bytes(table[4..8].try_into().expect("four bytes"));
        let values = [
            pool.wrapping_add(1),
            pool.wrapping_sub(1),
            pool.swap_bytes(),
            65_536,
            65_537,
            65_535,
            u32::MAX,
            random.word() as u32,
            1 << random.below(32),
        ];
        table[4..8].copy_from_slice(&random.pick(&values).to_be_bytes());
    } else {
        let at = random.pick(&[0, 2]);
        let field = u16::from_be_bytes([table[at], table[at + 1]]);
        let values = [
            field.wrapping_add(1),
            field.wrapping_sub(1),
            field.swap_bytes(),
            n,
            n.wrapping_add(1),
            1024,
            1025,
            1023,
            u16::MAX,
            random.word() as u16,
        ];
        table[at..at + 2].copy_from_slice(&random.pick(&values).to_be_bytes());
    }
}

/// A tag, one of the three zero bytes, or one of the two halves of the eight bytes.
fn damage_entry(random: &Random, table: &mut [u8]) {
    let entries = table.len().saturating_sub(HEADER) / ENTRY;
    if entries == 0 {
        return;
    }
    let n = u32::from(u16::from_be_bytes([table[0], table[1]]));
    let pool = u32::from_be_bytes(table[4..8].try_into().expect("four bytes"));
    let i = random.pick(&[0, entries - 1, random.below(entries)]);
    let at = HEADER + ENTRY * i;
    match random.below(8) {
        0 => table[at] = random.pick(&[0, 1, 2, 3, 4, 5, 6, 128, 255, random.byte()]),
        1 => table[at + 1 + random.below(3)] = random.pick(&[1, 128, random.byte()]),
        _ => {
            let half = at + random.pick(&[4, 8]);
            let value = u32::from_be_bytes(table[half..half + 4].try_into().expect("four bytes"));
            let own = i as u32;
            let edges = [
                0,
                1,
                2,
                127,
                128,
                255,
                256,
                own,
                own + 1,
                n,
                pool,
                1 << 31,
                u32::MAX,
            ];
            let edge = random.pick(&edges);
            let values = [
                value.wrapping_add(1),
                value.wrapping_sub(1),
                value.swap_bytes(),
                edge,
                edge.wrapping_add(1),
                edge.wrapping_sub(1),
                random.word() as u32,
            ];
            table[half..half + 4].copy_from_slice(&random.pick(&values).to_be_bytes());
        }
    }
}
