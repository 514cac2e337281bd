//! Four lines as sites write them, against the C library's snprintf, which writes the same bytes from the same values.

use crate::printing::printed;
use crate::{race, title, SEED};
use random::Random;
use reference::{encode, Value};
use std::ffi::{c_char, CString};
use std::hint::black_box;

pub const STATIONS: usize = 40_000;
pub const ROOM: usize = 128;

/// What a station reports.
pub struct Station {
    name: CString,
    sky: CString,
    reporting: bool,
    wind: i64,
    pressure: i64,
    heights: [i64; 8],
}

/// A format, the values that it takes from a station, and the same line printed by snprintf, in how many calls of it.
pub struct Line {
    pub format: &'static str,
    pub peer: &'static str,
    values: fn(&Station) -> Vec<Value>,
    print: fn(&Station, &mut [u8]) -> usize,
}

const ONE_CALL: &str = "one call";

pub const LINES: [Line; 5] = [
    Line {
        format: "~8a ~3d ~5,'0d ~a~%",
        peer: ONE_CALL,
        values: |s| {
            vec![
                text(&s.name),
                Value::Int(s.wind),
                Value::Int(s.pressure),
                text(&s.sky),
            ]
        },
        print: print_station,
    },
    Line {
        format: "~a ~:[missing~;ok~] ~d~%",
        peer: ONE_CALL,
        values: |s| {
            vec![
                text(&s.name),
                Value::Bool(s.reporting),
                Value::Int(s.pressure),
            ]
        },
        print: print_state,
    },
    Line {
        format: "~a ~d report~:p ~8:d~%",
        peer: ONE_CALL,
        values: reports,
        print: print_reports,
    },
    Line {
        format: "~a ~d report~:p ~8:d~%",
        peer: "five calls",
        values: reports,
        print: print_parts,
    },
    Line {
        format: "~a:~{ ~d~}~%",
        peer: ONE_CALL,
        values: |s| {
            vec![
                text(&s.name),
                Value::List(s.heights.map(Value::Int).to_vec()),
            ]
        },
        print: print_heights,
    },
];

fn reports(s: &Station) -> Vec<Value> {
    vec![text(&s.name), Value::Int(s.wind), Value::Int(s.pressure)]
}

fn text(text: &CString) -> Value {
    Value::Str(text.as_bytes().to_vec())
}

fn print_station(s: &Station, out: &mut [u8]) -> usize {
    let (name, sky) = (s.name.as_ptr(), s.sky.as_ptr());
    printed!(
        out,
        c"%-8s %3lld %05lld %s\n",
        name,
        s.wind,
        s.pressure,
        sky
    )
}

fn print_state(s: &Station, out: &mut [u8]) -> usize {
    let state = if s.reporting { c"ok" } else { c"missing" };
    printed!(
        out,
        c"%s %s %lld\n",
        s.name.as_ptr(),
        state.as_ptr(),
        s.pressure
    )
}

fn print_reports(s: &Station, out: &mut [u8]) -> usize {
    let plural = if s.wind == 1 { c"" } else { c"s" };
    let (name, pressure) = (s.name.as_ptr(), grouped(s.pressure));
    printed!(
        out,
        c"%s %lld report%s %8s\n",
        name,
        s.wind,
        plural.as_ptr(),
        pressure.text()
    )
}

/// Each part by a call of its own, as a program does that puts a line together from parts that a site chooses.
fn print_parts(s: &Station, out: &mut [u8]) -> usize {
    let mut at = printed!(&mut out[..], c"%s ", s.name.as_ptr());
    at += printed!(&mut out[at..], c"%lld", s.wind);
    let plural = if s.wind == 1 { c"" } else { c"s" };
    at += printed!(&mut out[at..], c" report%s ", plural.as_ptr());
    at += printed!(&mut out[at..], c"%8s", grouped(s.pressure).text());
    at + printed!(&mut out[at..], c"\n")
}

fn print_heights(s: &Station, out: &mut [u8]) -> usize {
    let (name, h) = (s.name.as_ptr(), &s.heights);
    let format = c"%s: %lld %lld %lld %lld %lld %lld %lld %lld\n";
    printed!(out, format, name, h[0], h[1], h[2], h[3], h[4], h[5], h[6], h[7])
}

/// The digits of a number in groups of three, at the end of these bytes, before a zero byte.
struct Grouped {
    bytes: [u8; 28],
    start: usize,
}

impl Grouped {
    fn text(&self) -> *const c_char {
        self.bytes[self.start..].as_ptr().cast()
    }
}

#[inline(always)]
fn grouped(number: i64) -> Grouped {
    let mut grouped = Grouped {
        bytes: [0; 28],
        start: 27,
    };
    let mut put = |byte| {
        grouped.start -= 1;
        grouped.bytes[grouped.start] = byte;
    };
    let mut rest = number.unsigned_abs();
    for digits in 1.. {
        put(b'0' + (rest % 10) as u8);
        rest /= 10;
        if rest == 0 {
            break;
        }
        if digits % 3 == 0 {
            put(b',');
        }
    }
    if number < 0 {
        put(b'-');
    }
    grouped
}

fn station(random: &Random) -> Station {
    let letters =
        |length| -> Vec<u8> { (0..length).map(|_| b'A' + random.below(26) as u8).collect() };
    let text = |bytes| CString::new(bytes).expect("letters");
    let below = |limit| random.below(limit) as i64;
    Station {
        name: text(letters(4 + random.below(4))),
        sky: text(letters(3 + random.below(9))),
        reporting: !random.once_in(4),
        wind: below(120),
        pressure: below(11_000),
        heights: [(); 8].map(|()| below(1_000)),
    }
}

/// The same values for both sides. Those of one side lie together, so that neither reads past the other's.
pub struct Given {
    pub stations: Vec<Station>,
    pub tables: Vec<Vec<u8>>,
}

impl Line {
    pub fn name(&self) -> String {
        format!("{}, {}", self.format, self.peer)
    }

    /// Values of a fixed seed, for which both sides write the same bytes.
    pub fn given(&self, count: usize) -> Given {
        let random = Random::new(SEED);
        let stations: Vec<Station> = (0..count).map(|_| station(&random)).collect();
        let tables: Vec<Vec<u8>> = stations.iter().map(|s| encode(&(self.values)(s))).collect();
        let (mut one, mut other) = ([0; ROOM], [0; ROOM]);
        for (station, table) in stations.iter().zip(&tables) {
            let length = self.formatted(table, &mut one);
            let other_length = self.printed(station, &mut other);
            assert_eq!(one[..length], other[..other_length], "{}", self.format);
        }
        Given { stations, tables }
    }

    pub fn arguments(&self, station: &Station) -> Vec<Value> {
        (self.values)(station)
    }

    pub fn formatted(&self, table: &[u8], out: &mut [u8]) -> usize {
        let (code, _, _, written) = tilde::format(self.format.as_bytes(), table, black_box(out));
        assert_eq!(code, 0);
        written
    }

    pub fn printed(&self, station: &Station, out: &mut [u8]) -> usize {
        (self.print)(station, black_box(out))
    }
}

pub fn measure() {
    title(
        "40,000 lines, for each, against snprintf",
        "format",
        "snprintf",
    );
    for line in &LINES {
        let Given { stations, tables } = line.given(STATIONS);
        let (mut one, mut other) = ([0; ROOM], [0; ROOM]);
        race(
            &line.name(),
            STATIONS,
            || tables.iter().map(|t| line.formatted(t, &mut one)).sum(),
            || stations.iter().map(|s| line.printed(s, &mut other)).sum(),
        );
    }
}
