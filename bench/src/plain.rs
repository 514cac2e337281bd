//! The same work in Rust, written as one would without proofs.

use reference::{table_of, ENTRY};

/// The digits of n at the start of out, and how many they are, one at a time: a loop that counts them by dividing, and
/// one that goes on while a digit is left. The usual bases have loops of their own.
#[inline(never)]
pub fn digits(base: u64, n: u64, out: &mut [u8]) -> usize {
    match base {
        10 => digits_in(10, n, out),
        16 => digits_in(16, n, out),
        8 => digits_in(8, n, out),
        2 => digits_in(2, n, out),
        3..=36 => digits_in(base, n, out),
        _ => 0,
    }
}

#[inline(always)]
fn digits_in(base: u64, n: u64, out: &mut [u8]) -> usize {
    let count = count_in(base, n);
    if out.len() < count {
        return 0;
    }
    let out = &mut out[..count];
    let mut i = count - 1;
    let mut rest = n;
    while base <= rest {
        out[i] = digit_byte(rest % base);
        rest /= base;
        i -= 1;
    }
    out[i] = digit_byte(rest);
    count
}

#[inline(always)]
fn count_in(base: u64, n: u64) -> usize {
    let mut count = 1;
    let mut rest = n;
    while base <= rest {
        rest /= base;
        count += 1;
    }
    count
}

#[inline(always)]
fn digit_byte(digit: u64) -> u8 {
    if digit < 10 {
        b'0' + digit as u8
    } else {
        b'a' - 10 + digit as u8
    }
}

/// The two digits of each number below 100.
static PAIRS: [u8; 200] = pairs();

const fn pairs() -> [u8; 200] {
    let mut pairs = [0; 200];
    let mut n = 0;
    while n < 100 {
        pairs[2 * n] = b'0' + (n / 10) as u8;
        pairs[2 * n + 1] = b'0' + (n % 10) as u8;
        n += 1;
    }
    pairs
}

/// The powers of ten, but for the first, which no number is below.
static POWERS: [u64; 20] = powers();

const fn powers() -> [u64; 20] {
    let mut powers = [0; 20];
    let mut power = 1;
    let mut k = 1;
    while k < 20 {
        power *= 10;
        powers[k] = power;
        k += 1;
    }
    powers
}

/// As fast as we could write it in Rust: the count by leading zeros and a table of powers, the digits by a table of
/// pairs, two of them in a turn, and no place checked that is known to be inside.
#[inline(never)]
pub fn decimal_by_tables(_: u64, n: u64, out: &mut [u8]) -> usize {
    let guess = (64 - n.leading_zeros()) as usize * 1233 >> 12;
    let count = guess + 1 - usize::from(n < POWERS[guess]);
    if out.len() < count {
        return 0;
    }
    let put = |out: &mut [u8], place: usize, pair: usize| {
        // SAFETY: a pair is below 100, and the count leaves room for the two bytes at each place that is asked for.
        unsafe {
            let from = PAIRS.as_ptr().add(2 * pair);
            std::ptr::copy_nonoverlapping(from, out.as_mut_ptr().add(place), 2);
        }
    };
    let mut place = count;
    let mut rest = n;
    while 10_000 <= rest {
        let four = (rest % 10_000) as usize;
        rest /= 10_000;
        place -= 4;
        put(out, place, four / 100);
        put(out, place + 2, four % 100);
    }
    let mut rest = rest as usize;
    if 100 <= rest {
        place -= 2;
        put(out, place, rest % 100);
        rest /= 100;
    }
    if 10 <= rest {
        put(out, 0, rest);
    } else {
        out[0] = b'0' + rest as u8;
    }
    count
}

/// The check of a table: code and position.
#[inline(never)]
pub fn check_table(table: &[u8]) -> (u32, usize) {
    if table.len() < 8 {
        return (1, 0);
    }
    let n = usize::from(u16::from_be_bytes([table[0], table[1]]));
    let m = usize::from(u16::from_be_bytes([table[2], table[3]]));
    let pool = be32(&table[4..8]);
    if n > 1024 {
        return (1, 0);
    }
    if m > n {
        return (1, 2);
    }
    if pool > 65_536 || table.len() != 8 + ENTRY * n + pool {
        return (1, 4);
    }
    for (i, entry) in table[8..8 + ENTRY * n].chunks_exact(ENTRY).enumerate() {
        let (high, low) = (be32(&entry[4..8]), be32(&entry[8..12]));
        let right = entry[1..4] == [0, 0, 0]
            && match entry[0] {
                0 => high == 0 && low <= 1,
                1 => true,
                2 => high == 0 && low <= 127,
                3 => high + low <= pool,
                4 => i < high && high + low <= n,
                _ => false,
            };
        if !right {
            return (1, 8 + ENTRY * i);
        }
    }
    (0, 0)
}

fn be32(bytes: &[u8]) -> usize {
    u32::from_be_bytes([bytes[0], bytes[1], bytes[2], bytes[3]]) as usize
}

/// A table of n entries, all of them arguments, and a pool of so many bytes.
pub fn table(n: usize, pool: usize, entry: impl Fn(usize) -> [u8; ENTRY]) -> Vec<u8> {
    let entries: Vec<_> = (0..n).map(entry).collect();
    table_of(n as u16, n as u16, pool as u32, &entries, &vec![b'p'; pool])
}
