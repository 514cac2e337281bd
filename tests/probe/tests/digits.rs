//! The proved digits against a plain loop and against Rust's own formatting.

use random::Random;

const SEED: u64 = 2;
const RANDOM_NUMBERS: usize = 100_000;
/// Longer than any number: 64 digits in base 2.
const ROOM: usize = 80;

/// The digits, by the plain loop.
fn plain(base: u64, n: u64) -> Vec<u8> {
    let mut digits = Vec::new();
    let mut rest = n;
    loop {
        digits.push(b"0123456789abcdefghijklmnopqrstuvwxyz"[(rest % base) as usize]);
        rest /= base;
        if rest == 0 {
            break;
        }
    }
    digits.reverse();
    digits
}

/// A byte that no digit is, and another at each place.
fn filler(at: usize) -> u8 {
    128 + (at % 128) as u8
}

fn filled(length: usize) -> Vec<u8> {
    (0..length).map(filler).collect()
}

/// The digits in a buffer of this length: written whole with the rest untouched, or nothing touched.
fn compare_in(base: u64, n: u64, length: usize, expected: &[u8]) {
    let mut out = filled(length);
    let count = probe::digits(base, n, &mut out);
    let mut after = filled(length);
    if expected.len() <= length {
        after[..expected.len()].copy_from_slice(expected);
        assert_eq!(count, expected.len(), "{n} in base {base}, room {length}");
    } else {
        assert_eq!(count, 0, "{n} in base {base}, room {length}");
    }
    assert_eq!(out, after, "{n} in base {base}, room {length}");
}

/// Much room, just enough, one too few and none.
fn compare(base: u64, n: u64) {
    let expected = plain(base, n);
    let own = match base {
        2 => format!("{n:b}"),
        8 => format!("{n:o}"),
        10 => format!("{n}"),
        16 => format!("{n:x}"),
        _ => String::from_utf8(expected.clone()).expect("digits"),
    };
    assert_eq!(own.as_bytes(), expected);
    for length in [
        ROOM,
        expected.len(),
        expected.len() + 1,
        expected.len() - 1,
        0,
    ] {
        compare_in(base, n, length, &expected);
    }
}

fn edges(base: u64) -> Vec<u64> {
    let mut numbers = vec![0, 1, 2, u64::MAX, u64::MAX - 1];
    let mut add = |n: u64| numbers.extend([n - 1, n, n.saturating_add(1)]);
    for bit in 0..64 {
        add(1 << bit);
    }
    let mut power = base;
    add(power);
    while let Some(next) = power.checked_mul(base) {
        power = next;
        add(power);
        // the least number of its length that begins with the greatest digit
        add(power.saturating_mul(base - 1));
    }
    numbers
}

#[test]
fn edge_values() {
    let mut compared = 0;
    for base in 2..=36 {
        for n in edges(base) {
            compare(base, n);
            compared += 1;
        }
    }
    println!("{compared} edge values in bases 2 to 36 agree");
}

#[test]
fn small_numbers() {
    for base in 2..=36 {
        for n in 0..2000 {
            compare(base, n);
        }
    }
}

#[test]
fn random_values() {
    let random = Random::new(SEED);
    for _ in 0..RANDOM_NUMBERS {
        let n = random.magnitude();
        for base in [2, 8, 10, 16, 2 + random.below(35) as u64] {
            compare(base, n);
        }
    }
    println!("{RANDOM_NUMBERS} random numbers in bases 2, 8, 10, 16 and one other agree");
}

#[test]
fn other_bases_write_nothing() {
    for base in [
        0,
        1,
        37,
        38,
        64,
        255,
        256,
        258,
        1 << 32,
        (1 << 32) + 10,
        u64::MAX,
    ] {
        for n in [0, 1, 9, 36, 1000, u64::MAX] {
            for length in [0, 1, ROOM] {
                let mut out = filled(length);
                assert_eq!(probe::digits(base, n, &mut out), 0, "{n} in base {base}");
                assert_eq!(out, filled(length), "{n} in base {base}");
            }
        }
    }
}
