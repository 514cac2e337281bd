//! A line through windows against one call of format that writes the same bytes, and strings in quotes through windows
//! of one byte.

use crate::clock::processor_time;
use crate::lines::{LINES, ROOM, STATIONS};
use crate::{race, slowest, title};
use reference::{encode, Value};
use std::hint::black_box;
use tilde::{State, MORE};

/// A side is timed so often, or until it has taken so long, in nanoseconds.
const ROUNDS: usize = 301;
const LONG_ENOUGH: f64 = 500e6;
/// What callers with little memory have, and smaller ones, in which the cost of a call counts.
const USUAL: usize = 512;
const SMALLER: [usize; 3] = [64, 16, 1];

/// A format and its table.
struct Line {
    name: &'static str,
    format: Vec<u8>,
    table: Vec<u8>,
}

/// The length of a line that goes through one window over and over.
fn drained(format: &[u8], table: &[u8], window: &mut [u8]) -> usize {
    let (mut state, mut length) = (State::default(), 0);
    loop {
        let answer = tilde::resume(format, table, black_box(&mut *window), state);
        length += answer.written;
        if answer.code != MORE {
            assert_eq!(answer.code, 0);
            return length;
        }
        state = answer.state;
    }
}

/// The bytes of a line, from windows of one size.
fn joined(format: &[u8], table: &[u8], size: usize) -> Vec<u8> {
    let (mut window, mut text, mut state) = (vec![0; size], Vec::new(), State::default());
    loop {
        let answer = tilde::resume(format, table, &mut window, state);
        text.extend(&window[..answer.written]);
        if answer.code != MORE {
            return text;
        }
        state = answer.state;
    }
}

fn formatted(format: &[u8], table: &[u8], out: &mut [u8]) -> usize {
    let (code, _, _, written) = tilde::format(format, table, black_box(out));
    assert_eq!(code, 0);
    written
}

/// The best time of each side, by turns. A round of a side may take milliseconds, so the processor's own time counts.
fn best(ours: &mut dyn FnMut() -> usize, theirs: &mut dyn FnMut() -> usize) -> (f64, f64) {
    let time = |work: &mut dyn FnMut() -> usize| {
        let start = processor_time();
        black_box(work());
        processor_time() - start
    };
    let (mut best, mut whole) = ((f64::MAX, f64::MAX), 0.0);
    for _ in 0..ROUNDS {
        let times = (time(ours), time(theirs));
        best = (best.0.min(times.0), best.1.min(times.1));
        whole += times.0.max(times.1);
        if whole > LONG_ENOUGH {
            break;
        }
    }
    best
}

/// Padded columns of a table of 20 arguments, which each pass goes through from the first on.
fn columns() -> Line {
    let row = |i: i64| {
        let text = |text: &str| Value::Str(text.into());
        [
            text("EDDF"),
            Value::Int(7 * i),
            Value::Int(9_870 + 35 * i),
            text("overcast"),
        ]
    };
    let arguments: Vec<Value> = (1..=5).flat_map(row).collect();
    let row = "~10a ~6d ~8,'0d ~12a | ".repeat(5);
    Line {
        name: "padded columns of 20 arguments",
        format: format!("~78@{{{row}~%~0@*~}}").into_bytes(),
        table: encode(&arguments),
    }
}

/// A table that takes long to check, at each window.
fn list() -> Line {
    let strings = vec![Value::Str(b"fifteen letters".to_vec()); 1_000];
    Line {
        name: "a list of 1,000 short strings",
        format: b"~{~a~^ ~}".to_vec(),
        table: encode(&[Value::List(strings)]),
    }
}

/// Next to nothing but copies.
fn strings() -> Line {
    let arguments = [b'a', b'b', b'c', b'd'].map(|byte| Value::Str(vec![byte; 4 << 10]));
    Line {
        name: "four strings of 4 KiB",
        format: b"~a~a~a~a".to_vec(),
        table: encode(&arguments),
    }
}

/// Lines of 16 KiB, or a little less or more.
fn lines() {
    for line in [columns(), list(), strings()] {
        let Line {
            name,
            format,
            table,
        } = line;
        let mut out = vec![0; 20 << 10];
        let length = formatted(&format, &table, &mut out);
        let text = out[..length].to_vec();
        for size in [USUAL].into_iter().chain(SMALLER) {
            assert_eq!(joined(&format, &table, size), text, "{name}, {size}");
            let mut window = vec![0; size];
            let (ours, theirs) = best(
                &mut || drained(black_box(&format), &table, &mut window),
                &mut || formatted(black_box(&format), &table, &mut out),
            );
            let name = format!("{name}, windows of {size}");
            let (ratio, ours, theirs) = (ours / theirs, ours / 1e3, theirs / 1e3);
            println!("  {name:<48} {ours:>8.1} us {theirs:>8.1} us {ratio:>6.2}");
        }
    }
}

/// The line that `lines` has against snprintf, in one window that has room for all of it.
fn station() {
    let line = &LINES[0];
    let (tables, format) = (line.given(STATIONS).tables, line.format.as_bytes());
    let (mut window, mut out) = ([0; USUAL], [0; ROOM]);
    race(
        line.format,
        STATIONS,
        || {
            tables
                .iter()
                .map(|t| drained(black_box(format), t, &mut window))
                .sum()
        },
        || tables.iter().map(|t| line.formatted(t, &mut out)).sum(),
    );
}

/// One string of a byte over and over, under one directive.
fn string(format: &str, byte: u8, length: usize) -> Line {
    Line {
        name: "",
        format: format.into(),
        table: encode(&[Value::Str(vec![byte; length])]),
    }
}

/// Two lines through windows of one byte, for each byte that they write.
fn by_bytes(name: &str, ours: Line, theirs: Line) {
    let drained = |line: &Line| drained(black_box(&line.format), &line.table, &mut [0]);
    let lengths = (drained(&ours) as f64, drained(&theirs) as f64);
    let times = best(&mut || drained(&ours), &mut || drained(&theirs));
    let (ours, theirs) = (times.0 / lengths.0, times.1 / lengths.1);
    let ratio = ours / theirs;
    println!("  {name:<48} {ours:>8.1} ns {theirs:>8.1} ns {ratio:>6.2}");
}

/// A string in quotes that is searched again from its start at each window would cost more for each byte the longer it is.
fn quotes() {
    let (long, short) = (64 << 10, 8 << 10);
    for (kind, byte) in [("no", b'a'), ("only", b'"')] {
        by_bytes(
            &format!("~s of 64 KiB, {kind} escapes, against ~a"),
            string("~s", byte, long),
            string("~a", byte, long),
        );
        by_bytes(
            &format!("~s of 64 KiB, {kind} escapes, against 8 KiB"),
            string("~s", byte, long),
            string("~s", byte, short),
        );
    }
}

pub fn measure() {
    title(
        "a line of 16 KiB, against one call of format",
        "windows",
        "format",
    );
    lines();
    title(
        "40,000 lines in one window of 512, for each",
        "window",
        "format",
    );
    station();
    title("for each byte, windows of one byte", "~s", "other");
    quotes();
    slowest::measure_windows();
}
