//! A line against the ordinary formatter, how the cost grows, and the longest vets, plain and with conditionals.

use crate::lines::{LINES, ROOM, STATIONS};
use crate::slowest::filled;
use crate::{race, title};
use reference::{encode, Value};
use std::hint::black_box;
use std::io::Write;

/// The longest text that 01 lets a format have, and the longest string of a vet.
const MOST: usize = 4096;

fn formatted(format: &[u8], table: &[u8], out: &mut [u8]) -> usize {
    let (code, _, _, written) = tilde::format(format, table, out);
    assert_eq!(code, 0);
    written
}

/// The first of the lines, which the ordinary formatter writes too.
fn ordinary() {
    let line = &LINES[0];
    let (tables, mut out) = (line.given(STATIONS).tables, [0; ROOM]);
    let ordinary = |table| {
        reference::format(line.format.as_bytes(), table, ROOM)
            .text
            .len()
    };
    race(
        line.format,
        STATIONS,
        || tables.iter().map(|t| line.formatted(t, &mut out)).sum(),
        || tables.iter().map(|t| ordinary(t)).sum(),
    );
}

fn strings() {
    for length in [1_000, 8_000, 64_000] {
        let text = vec![b'a'; length];
        let table = encode(&[Value::Str(text.clone())]);
        let (mut one, mut other) = (vec![0; length], vec![0; length]);
        race(
            &format!("~a over {length} bytes, against memcpy"),
            1,
            || formatted(b"~a", &table, black_box(&mut one)),
            || {
                other.copy_from_slice(black_box(&text));
                black_box(&other).len()
            },
        );
    }
}

fn number() {
    let table = encode(&[Value::Int(1_013_250)]);
    let (mut one, mut other) = ([0; 32], [0; 32]);
    race(
        "~d, against write!",
        1,
        || formatted(b"~d", &table, black_box(&mut one)),
        || {
            let mut out = &mut other[..];
            write!(out, "{}", black_box(1_013_250i64)).expect("room");
            32 - out.len()
        },
    );
}

/// Per entry of a table that is gone through once.
fn entries() {
    for count in [16, 128, 1_024] {
        let table = encode(&vec![Value::Int(7); count]);
        let (mut one, mut other) = (vec![0; count], vec![0; count]);
        race(
            &format!("an entry of {count}, against the ordinary formatter"),
            count,
            || formatted(b"~@{~d~}", &table, black_box(&mut one)),
            || {
                other = reference::format(b"~@{~d~}", &table, count).text;
                other.len()
            },
        );
    }
}

/// Formats of the greatest length and the longest strings, against a call of format that checks the text and ends at
/// the first directive, for want of an argument.
fn vets() {
    let none = encode(&[]);
    for (unit, kind) in [("~99s", 3), ("~a~:p", 3), ("~9,9s", 2), ("~:x", 1)] {
        let times = (MOST / unit.len()).min(1_024);
        let (format, kinds) = (unit.repeat(times).into_bytes(), vec![kind; times]);
        race(
            &format!("{unit}, {times} times"),
            1,
            || usize::from(tilde::vet(&format, black_box(&kinds), MOST).0 == 0),
            || usize::from(tilde::format(&format, black_box(&none), &mut []).0 == 6),
        );
    }
}

/// Formats of the greatest length with conditionals, over integers, against a plain one of as many bytes.
fn conditional_vets() {
    let of = |before: &str, unit: &str, after: &str| filled(MOST, before, unit, after).1;
    let nest = ["~0[".repeat(8), "~]".repeat(8)];
    let (plain, kinds) = (of("", "~99d", ""), vec![1; 1_024]);
    let accepted = |format: &[u8]| usize::from(tilde::vet(format, black_box(&kinds), MOST).0 == 0);
    for (name, format) in [
        ("~[~], 1,024 times", of("", "~[~]", "")),
        ("~0[~d~:;~x~], 341 times", of("", "~0[~d~:;~x~]", "")),
        (
            "eight ~0[ in one another, 102 times",
            of("", &nest.concat(), ""),
        ),
        (
            "~99% 1,014 times inside eight ~0[",
            of(&nest[0], "~99%", &nest[1]),
        ),
        ("~0[ of 1,022 clauses", of("~0[", "~d~;", "~d~:;~d~]")),
    ] {
        race(name, 1, || accepted(&format), || accepted(&plain));
    }
}

pub fn measure() {
    title(
        "a line, against the ordinary formatter",
        "format",
        "ordinary",
    );
    ordinary();
    title("how the cost grows", "format", "other");
    strings();
    number();
    entries();
    title("the longest vets, against a check", "vet", "check");
    vets();
    title(
        "the longest vets with conditionals, against ~99d, 1,024 times",
        "vet",
        "plain",
    );
    conditional_vets();
}
