//! Whole calls: a format against the C library's snprintf writing the same bytes, and a vet against a format.

use crate::printing::printed;
use crate::{plain, rounds, title, SEED};
use random::Random;
use reference::entry;
use std::ffi::{c_longlong, CStr, CString};
use std::hint::black_box;

/// So many arguments of one sort in a round: one line over and over would be foreseen by the processor.
const LINES: usize = 256;
const BULLETIN: &[u8] = b"~a ~5d ~2,'0d:~2,'0d wind ~d kt~%";
const LITERAL: &CStr = c"Observations of the last hour. Stations that have not reported are left out; times are UTC, \
    heights are metres above the sea, winds are of the last ten minutes. The next bulletin follows at five past.";

/// The same arguments for both sides.
struct Given {
    text: CString,
    numbers: Vec<c_longlong>,
    table: Vec<u8>,
}

type Print = fn(&Given, &mut [u8]) -> usize;

fn print_bulletin(given: &Given, out: &mut [u8]) -> usize {
    let (text, n) = (given.text.as_ptr(), &given.numbers);
    let format = c"%s %5lld %02lld:%02lld wind %lld kt\n";
    printed!(out, format, text, n[0], n[1], n[2], n[3])
}

fn print_string(given: &Given, out: &mut [u8]) -> usize {
    printed!(out, c"%s", given.text.as_ptr())
}

fn print_wide_string(given: &Given, out: &mut [u8]) -> usize {
    printed!(out, c"%-20s", given.text.as_ptr())
}

fn print_number(given: &Given, out: &mut [u8]) -> usize {
    printed!(out, c"%lld", given.numbers[0])
}

fn print_wide_number(given: &Given, out: &mut [u8]) -> usize {
    printed!(out, c"%20lld", given.numbers[0])
}

fn print_literal(_: &Given, out: &mut [u8]) -> usize {
    printed!(out, LITERAL)
}

/// A table of the string, unless it is empty, and the numbers.
fn given(text: &str, numbers: &[i64]) -> Given {
    let strings = usize::from(!text.is_empty());
    let length = text.len() as u32;
    let mut table = plain::table(strings + numbers.len(), 0, |i| {
        if i < strings {
            return entry(3, 0, length);
        }
        let number = numbers[i - strings] as u64;
        entry(1, (number >> 32) as u32, number as u32)
    });
    table[4..8].copy_from_slice(&length.to_be_bytes());
    table.extend(text.as_bytes());
    Given {
        text: CString::new(text).expect("no zero byte in these texts"),
        numbers: numbers.to_vec(),
        table,
    }
}

fn letters(random: &Random, length: usize) -> String {
    (0..length)
        .map(|_| char::from(b'A' + random.below(26) as u8))
        .collect()
}

fn bulletins() -> Vec<Given> {
    let random = Random::new(SEED);
    let below = |limit| random.below(limit) as i64;
    (0..LINES)
        .map(|_| {
            let numbers = [below(3000), below(24), below(60), below(100)];
            given(&letters(&random, 4), &numbers)
        })
        .collect()
}

fn strings(length: usize) -> Vec<Given> {
    let random = Random::new(SEED);
    (0..LINES)
        .map(|_| given(&letters(&random, length), &[]))
        .collect()
}

fn numbers(number: impl Fn(&Random) -> i64) -> Vec<Given> {
    let random = Random::new(SEED);
    (0..LINES).map(|_| given("", &[number(&random)])).collect()
}

/// The bytes written, after a call that must not be refused.
fn formatted(format: &[u8], given: &Given, out: &mut [u8]) -> usize {
    let (code, _, _, written) = tilde::format(format, &given.table, out);
    assert_eq!(code, 0);
    written
}

/// Medians of the time of a call, and their ratio.
fn compare(name: &str, ours: &mut dyn FnMut() -> usize, theirs: &mut dyn FnMut() -> usize) {
    let (mut ours, mut theirs) = rounds(LINES, ours, theirs);
    let (ours, theirs) = (median(&mut ours), median(&mut theirs));
    let ratio = ours / theirs;
    println!("  {name:<48} {ours:>8.1} ns {theirs:>8.1} ns {ratio:>6.2}");
}

fn median(times: &mut [f64]) -> f64 {
    times.sort_by(f64::total_cmp);
    times[times.len() / 2]
}

fn against_snprintf(name: &str, format: &[u8], lines: &[Given], print: Print) {
    let (mut one, mut other) = ([0; 512], [0; 512]);
    for line in lines {
        let length = formatted(format, line, &mut one);
        assert_eq!(length, print(line, &mut other), "{name}: lengths");
        assert_eq!(one[..length], other[..length], "{name}: bytes");
    }
    let format = black_box(format);
    compare(
        name,
        &mut || {
            lines
                .iter()
                .map(|line| formatted(format, line, black_box(&mut one)))
                .sum()
        },
        &mut || {
            lines
                .iter()
                .map(|line| print(line, black_box(&mut other)))
                .sum()
        },
    );
}

fn formats() {
    let short = |random: &Random| random.below(1000) as i64;
    let mixed = |random: &Random| random.magnitude() as i64;
    let none = || (0..LINES).map(|_| given("", &[])).collect();
    for (name, format, lines, print) in [
        (
            "bulletin line",
            BULLETIN,
            bulletins(),
            print_bulletin as Print,
        ),
        ("~a, string of 200 bytes", b"~a", strings(200), print_string),
        ("~a, string of 8 bytes", b"~a", strings(8), print_string),
        (
            "~20a, string of 8 bytes",
            b"~20a",
            strings(8),
            print_wide_string,
        ),
        ("~d, below 1,000", b"~d", numbers(short), print_number),
        ("~d, mixed magnitudes", b"~d", numbers(mixed), print_number),
        (
            "~20d, mixed magnitudes",
            b"~20d",
            numbers(mixed),
            print_wide_number,
        ),
        (
            "200 literal bytes",
            LITERAL.to_bytes(),
            none(),
            print_literal,
        ),
    ] {
        against_snprintf(name, format, &lines, print);
    }
}

fn vets() {
    let lines = bulletins();
    let format = black_box(BULLETIN);
    let kinds = black_box([3, 1, 1, 1, 1]);
    let mut out = [0; 512];
    let (code, _, count) = tilde::vet(format, &kinds, 4);
    assert_eq!(
        (code, count),
        (0, 4 + 1 + 20 + 1 + 20 + 1 + 20 + 6 + 20 + 4)
    );
    compare(
        "bulletin line",
        &mut || {
            (0..LINES)
                .map(|_| tilde::vet(format, black_box(&kinds), 4).2)
                .sum()
        },
        &mut || {
            lines
                .iter()
                .map(|line| formatted(format, line, black_box(&mut out)))
                .sum()
        },
    );
}

pub fn measure() {
    title(
        "whole calls, medians, against snprintf",
        "format",
        "snprintf",
    );
    formats();
    title("a vet, medians, against formatting", "vet", "format");
    vets();
}
