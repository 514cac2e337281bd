//! Calls that try to be slow: as many steps as a call may do, each as dear as a format can make it, against the plainest
//! loop of as many steps.

mod formats;

use crate::clock::processor_time;
use crate::title;
use formats::{GROUPS, ONE};
use reference::{encode, Value};
use std::hint::black_box;
use tilde::{State, MORE};

/// The longest text that a format may have, and the longest string of a vet.
const MOST: usize = 4096;
/// As many arguments as there may be.
const MOST_ARGUMENTS: usize = 1024;
/// Bytes written are no part of what a step costs, so a call may not write more than these.
const ROOM: usize = 300_000;
/// A call is timed so often, or until it has taken so long, in nanoseconds.
const ROUNDS: usize = 21;
const LONG_ENOUGH: f64 = 200e6;

/// Half of its steps are passes, half are literal bytes.
const PLAINEST: &[u8] = b"~@{x~}";
const PLAINEST_START: &[u8] = b"~@{";

/// So many rows of a table of windows are printed.
const SHOWN: usize = 10;

/// How a format is run.
#[derive(Clone, Copy, PartialEq)]
enum Way {
    Format,
    OneWindow,
    /// Each of so many bytes, as far as the room goes.
    Windows(usize),
}

/// A call that is timed, with its time over that of the plainest loop.
struct Row {
    ratio: f64,
    name: String,
    line: String,
}

struct Slowest {
    way: Way,
    rows: Vec<Row>,
    room: Vec<u8>,
}

impl Way {
    /// The code, or MORE, and the steps, or for windows how many there were.
    fn run(self, format: &[u8], table: &[u8], room: &mut [u8]) -> (u32, usize) {
        match self {
            Way::Format => {
                let (code, _, steps, _) = tilde::format(format, table, room);
                (code, steps)
            }
            Way::OneWindow => {
                let answer = tilde::resume(format, table, room, State::default());
                (answer.code, 1)
            }
            Way::Windows(size) => {
                let (mut state, mut windows) = (State::default(), 0);
                for window in room.chunks_mut(size) {
                    let answer = tilde::resume(format, table, window, state);
                    windows += 1;
                    if answer.code != MORE {
                        return (answer.code, windows);
                    }
                    state = answer.state;
                }
                (MORE, windows)
            }
        }
    }

    /// How long a format may be, before it is changed.
    fn most(self) -> usize {
        match self {
            Way::Windows(_) => MOST - 1,
            _ => MOST,
        }
    }

    /// A format that writes nothing never needs a second window, so each pass of its loop is made to write a byte.
    fn changed(self, format: &[u8]) -> Vec<u8> {
        let (start, rest) = format.split_at(PLAINEST_START.len().min(format.len()));
        let changes = start == PLAINEST_START && format.len() < MOST;
        match self {
            Way::Windows(_) if changes => [start, b"x", rest].concat(),
            _ => format.to_vec(),
        }
    }
}

/// The best time of a call.
fn timed(mut call: impl FnMut()) -> f64 {
    let (mut best, mut whole) = (f64::MAX, 0.0);
    for _ in 0..ROUNDS {
        let start = processor_time();
        call();
        let time = processor_time() - start;
        best = best.min(time);
        whole += time;
        if whole > LONG_ENOUGH {
            break;
        }
    }
    best
}

/// A format of at most so many bytes, a unit over and over between two parts, and its name.
pub fn filled(most: usize, before: &str, unit: &str, after: &str) -> (String, Vec<u8>) {
    let times = (most - before.len() - after.len()) / unit.len();
    let name = format!("{before}{unit}..{after}")
        .replace('\n', "\\n")
        .replace('\t', "\\t");
    let format = format!("{before}{}{after}", unit.repeat(times));
    (name, format.into_bytes())
}

impl Slowest {
    /// The base is timed again for each row: a machine with other work is not always as fast.
    fn row(&mut self, name: &str, time: f64, count: &str) {
        let (table, room) = (encode(ONE), &mut self.room);
        let base = timed(|| {
            black_box(tilde::format(black_box(PLAINEST), &table, room));
        });
        let (milliseconds, ratio) = (time / 1e6, time / base);
        let line = format!("  {name:<48} {milliseconds:>8.3} ms {count:>11} {ratio:>6.1}");
        if self.way == Way::Format {
            println!("{line}");
        }
        let name = name.to_string();
        self.rows.push(Row { ratio, name, line });
    }

    /// A call that goes on to its last step, or until its room is full.
    fn format(&mut self, name: &str, format: &[u8], arguments: &[Value]) {
        let (way, format) = (self.way, self.way.changed(format));
        let (table, room) = (encode(arguments), &mut self.room);
        let (code, count) = way.run(&format, &table, room);
        assert!([9, 10, MORE].contains(&code), "{name}: {code}");
        let time = timed(|| {
            black_box(way.run(black_box(&format), &table, room));
        });
        self.row(name, time, &count.to_string());
    }

    fn fill(&mut self, before: &str, unit: &str, after: &str, arguments: &[Value]) {
        let (name, format) = filled(self.way.most(), before, unit, after);
        self.format(&name, &format, arguments);
    }

    /// A vet of a format of the greatest length, over arguments of one kind.
    fn vet(&mut self, unit: &str, kind: u8) {
        if self.way != Way::Format {
            return;
        }
        let mut format = unit
            .repeat(MOST_ARGUMENTS.min(MOST / unit.len()))
            .into_bytes();
        format.resize(MOST, b'x');
        let kinds = [kind; MOST_ARGUMENTS];
        let name = format!("vet of {unit}.., kind {kind}").replace('\n', "\\n");
        let (code, position, _) = tilde::vet(&format, &kinds, MOST);
        assert!(code == 0 || code == 11, "{name}: {code} at {position}");
        let time = timed(|| {
            black_box(tilde::vet(black_box(&format), &kinds, MOST));
        });
        self.row(&name, time, "");
    }
}

/// All calls in one way, the slowest first.
fn rows(way: Way) -> Vec<Row> {
    let (rows, room) = (Vec::new(), vec![0; ROOM]);
    let mut slowest = Slowest { way, rows, room };
    slowest.format("~@{x~}, the base", PLAINEST, ONE);
    slowest.fill("~@{", "x", "~}", ONE);
    for group in GROUPS {
        group(&mut slowest);
    }
    let mut rows = slowest.rows;
    rows.sort_by(|one, other| other.ratio.total_cmp(&one.ratio));
    rows
}

pub fn measure() {
    title("the slowest calls, in processor time", "time", "steps");
    let Row { ratio, name, .. } = rows(Way::Format).swap_remove(0);
    println!("the slowest call takes {ratio:.0} times as long as ~@{{x~}}: {name}");
}

/// The same formats in one window, and with a byte in each pass through windows of 64 bytes.
pub fn measure_windows() {
    for (what, way) in [
        ("the slowest in one window", Way::OneWindow),
        ("the slowest through windows of 64", Way::Windows(64)),
    ] {
        title(what, "time", "windows");
        for row in rows(way).iter().take(SHOWN) {
            println!("{}", row.line);
        }
    }
}
