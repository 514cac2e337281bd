//! Some table fills the count of a vet to the last byte, and is refused in a buffer of one byte less.

mod drawing;

use drawing::{texts, values};
use random::Random;
use reference::{encode, hex, Value};

const SEED: u64 = 5;
/// Each worker has a seed of its own, so that the cases do not depend on the machine.
const WORKERS: u64 = 4;
const CASES: usize = 100_000;
/// Strings of every length up to this one are tried, each with every number of bytes that `~s` escapes.
const LONGEST: usize = 6;

#[test]
fn counts_are_filled() {
    std::thread::scope(|scope| {
        for worker in 0..WORKERS {
            scope.spawn(move || fill_many(&Random::new(SEED + worker), CASES / WORKERS as usize));
        }
    });
    println!("{CASES} counts of the proved vet are filled to the last byte by a table");
}

fn fill_many(random: &Random, cases: usize) {
    let mut filled = 0;
    while filled < cases {
        let (format, arguments) = texts::plain(random);
        let kinds: Vec<u8> = arguments.iter().map(Value::tag).collect();
        let longest = random.below(LONGEST + 1);
        let (code, _, count) = tilde::vet(&format, &kinds, longest);
        if code == 0 {
            fill(&format, &kinds, longest, count);
            filled += 1;
        }
    }
}

fn fill(format: &[u8], kinds: &[u8], longest: usize, count: usize) {
    let table = encode(&greatest(format, kinds, longest));
    let exact = in_room(format, &table, count);
    let tight = count == 0 || in_room(format, &table, count - 1).0 == 10;
    if exact != (0, count) || !tight {
        let (format, kinds, table) = (hex(format), hex(kinds), hex(&table));
        panic!("format {format} kinds {kinds} longest {longest} count {count}\ntable {table} {exact:?}");
    }
}

/// The code, and the bytes written.
fn in_room(format: &[u8], table: &[u8], room: usize) -> (u32, usize) {
    let (code, _, _, written) = tilde::format(format, table, &mut vec![0; room]);
    (code, written)
}

/// The text of a plain format is a sum over its arguments, so each may be chosen for itself.
fn greatest(format: &[u8], kinds: &[u8], longest: usize) -> Vec<Value> {
    let mut chosen: Vec<Value> = kinds
        .iter()
        .map(|&kind| every(kind, longest).remove(0))
        .collect();
    for at in 0..kinds.len() {
        let size = |value: &Value| {
            let mut arguments = chosen.clone();
            arguments[at] = value.clone();
            reference::format(format, &encode(&arguments), 1 << 20)
                .text
                .len()
        };
        let best = every(kinds[at], longest).into_iter().max_by_key(size);
        chosen[at] = best.expect("each kind has a value");
    }
    chosen
}

/// A value for every length that one of this kind can have in some directive.
fn every(kind: u8, longest: usize) -> Vec<Value> {
    match kind {
        0 => vec![Value::Bool(false), Value::Bool(true)],
        1 => integers().into_iter().map(Value::Int).collect(),
        2 => (0..128).map(Value::Char).collect(),
        3 => (0..=longest)
            .flat_map(values::strings)
            .map(Value::Str)
            .collect(),
        _ => vec![Value::List(Vec::new())],
    }
}

/// Zero, one, and a number of each sign for each length of digits in the bases 2, 8, 10 and 16.
fn integers() -> Vec<i64> {
    let binary = (0..63).map(|bits| 1i64 << bits);
    let decimal = (0..19).map(|digits| 10i64.pow(digits));
    let mut both: Vec<i64> = binary.chain(decimal).flat_map(|n| [n, -n]).collect();
    both.extend([0, i64::MIN]);
    both
}
