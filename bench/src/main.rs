//! The proved calls against the same work in Rust or in the C library, as ratios of times measured in one run.

mod clock;
mod counting;
mod growth;
mod lines;
mod plain;
mod printing;
mod slowest;
mod tool;
mod whole;
mod windows;

use clock::processor_time;
use random::Random;
use reference::entry;
use std::hint::black_box;
use std::process::ExitCode;
use std::time::Instant;

const SEED: u64 = 3;
/// More than a processor remembers: of a few thousand numbers it would learn how long each is.
const NUMBERS: usize = 65_536;
/// Each side is timed this often, by turns.
const ROUNDS: usize = 301;

/// A call that writes digits: base, number, buffer, and the count as its answer.
type Digits = fn(u64, u64, &mut [u8]) -> usize;

/// The tables that are printed, with their names: all of them, or one that is named.
const TABLES: [(&str, fn()); 8] = [
    ("lines", lines::measure),
    ("growth", growth::measure),
    ("whole", whole::measure),
    ("windows", windows::measure),
    ("slowest", slowest::measure),
    ("digits", all_digits),
    ("check", tables),
    ("tool", tool::measure),
];

fn main() -> ExitCode {
    let given: Vec<String> = std::env::args().skip(1).collect();
    let given: Vec<&str> = given.iter().map(String::as_str).collect();
    match given[..] {
        [] => TABLES.iter().for_each(|(_, measure)| measure()),
        ["--instructions"] => return counting::measure(),
        ["--counted", line, side] => counting::run(line, side),
        [name] => match TABLES.iter().find(|table| table.0 == name) {
            Some((_, measure)) => measure(),
            None => return usage(),
        },
        _ => return usage(),
    }
    ExitCode::SUCCESS
}

fn usage() -> ExitCode {
    let names = TABLES.map(|(name, _)| name).join(" | ");
    eprintln!("usage: bench/run [{names} | --instructions]");
    ExitCode::from(2)
}

fn title(what: &str, ours: &str, theirs: &str) {
    println!("{what:<50} {ours:>11} {theirs:>11} {:>6}", "ratio");
}

/// Rounds of so many items are long enough for the processor to turn to other work meanwhile.
const LONG_ROUND: usize = 10_000;

/// Nanoseconds for each of `count` items, in each round of each side. The processor's own clock, which other work does
/// not move, takes too long to read for a short round.
fn rounds(
    count: usize,
    ours: &mut dyn FnMut() -> usize,
    theirs: &mut dyn FnMut() -> usize,
) -> (Vec<f64>, Vec<f64>) {
    let time = |work: &mut dyn FnMut() -> usize| {
        let time = if count < LONG_ROUND {
            let start = Instant::now();
            black_box(work());
            start.elapsed().as_nanos() as f64
        } else {
            let start = processor_time();
            black_box(work());
            processor_time() - start
        };
        time / count as f64
    };
    (0..ROUNDS).map(|_| (time(ours), time(theirs))).unzip()
}

/// The best round of each side.
fn race(
    name: &str,
    count: usize,
    mut proved: impl FnMut() -> usize,
    mut rust: impl FnMut() -> usize,
) {
    assert_eq!(proved(), rust(), "{name}: the two sides do the same work");
    let (ours, theirs) = rounds(count, &mut proved, &mut rust);
    let best = |times: Vec<f64>| times.into_iter().fold(f64::MAX, f64::min);
    let (ours, theirs) = (best(ours), best(theirs));
    println!(
        "  {name:<48} {ours:>8.1} ns {theirs:>8.1} ns {:>6.2}",
        ours / theirs
    );
}

fn all_digits() {
    title("digits, against one at a time", "proved", "Rust");
    digits(&[10, 16, 8, 2], plain::digits);
    title("digits, against pairs from a table", "proved", "Rust");
    digits(&[10], plain::decimal_by_tables);
}

fn digits(bases: &[u64], rust: Digits) {
    let random = Random::new(SEED);
    let drawn = |draw: &dyn Fn() -> u64| -> Vec<u64> { (0..NUMBERS).map(|_| draw()).collect() };
    for (kind, numbers) in [
        ("mixed magnitudes", drawn(&|| random.magnitude())),
        ("below 1,000", drawn(&|| random.word() % 1_000)),
        ("below 11,000", drawn(&|| random.word() % 11_000)),
        ("64 bits", drawn(&|| random.word() | 1 << 63)),
    ] {
        for base in bases {
            let base = black_box(*base);
            let name = format!("base {base}, {kind}");
            let (mut one, mut other) = ([0; 80], [0; 80]);
            race(
                &name,
                NUMBERS,
                || {
                    let digits = |&n: &u64| probe::digits(base, n, black_box(&mut one));
                    numbers.iter().map(digits).sum()
                },
                || {
                    let digits = |&n: &u64| rust(base, n, black_box(&mut other));
                    numbers.iter().map(digits).sum()
                },
            );
        }
    }
}

fn tables() {
    title(
        "check of a table, against a plain check in Rust",
        "proved",
        "Rust",
    );
    let random = Random::new(SEED);
    let integers = |n| plain::table(n, 0, |_| entry(1, 7, 7));
    let mixed = |n: usize| {
        plain::table(n, 64, |i| match random.below(5) {
            0 => entry(0, 0, 1),
            1 => entry(1, 7, 7),
            2 => entry(2, 0, 65),
            3 => entry(3, 8, 16),
            _ => entry(4, i as u32 + 1, (n - i - 1) as u32),
        })
    };
    let mut refused = integers(1024);
    refused[2] = 255;
    for (name, table, often) in [
        ("4 mixed entries", mixed(4), 1000),
        ("64 mixed entries", mixed(64), 100),
        ("1,024 mixed entries", mixed(1024), 20),
        ("1,024 integers", integers(1024), 20),
        ("refused in its header, 1,024 entries", refused, 1000),
    ] {
        let answers = |check: fn(&[u8]) -> (u32, usize)| {
            let (code, position) = check(black_box(&table));
            code as usize + position
        };
        race(
            name,
            often,
            || (0..often).map(|_| answers(probe::check_table)).sum(),
            || (0..often).map(|_| answers(plain::check_table)).sum(),
        );
    }
}
