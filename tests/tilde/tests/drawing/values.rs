//! Arguments drawn at random.

use random::Random;
use reference::Value;

/// A value of any kind; lists hold lists so many levels down.
pub fn any(random: &Random, levels: usize) -> Value {
    of_kind(random, random.below(5) as u8, 12, levels)
}

/// A value that `~a` takes.
pub fn printable(random: &Random) -> Value {
    of_kind(random, random.below(4) as u8, 12, 0)
}

/// A value of the kind with this tag, no string longer than `longest`.
pub fn of_kind(random: &Random, tag: u8, longest: usize, levels: usize) -> Value {
    match tag {
        0 => Value::Bool(random.once_in(2)),
        1 => Value::Int(integer(random)),
        2 => Value::Char(random.below(128) as u8),
        3 => Value::Str(string(random, longest)),
        _ if levels == 0 => Value::List(Vec::new()),
        _ => {
            let member = |_| any(random, levels - 1);
            Value::List((0..random.below(4)).map(member).collect())
        }
    }
}

/// Another value of the same kind, or the same again.
pub fn like(random: &Random, value: &Value) -> Value {
    match value {
        Value::List(members) => {
            Value::List(members.iter().map(|member| like(random, member)).collect())
        }
        _ if random.once_in(2) => value.clone(),
        _ => of_kind(random, value.tag(), 12, 0),
    }
}

/// How many entries a value has in a table.
pub fn entries(value: &Value) -> usize {
    match value {
        Value::List(members) => 1 + members.iter().map(entries).sum::<usize>(),
        _ => 1,
    }
}

/// Both ends of the range, the numbers about powers of 2 and 10, small ones, and each length of digits.
pub fn integer(random: &Random) -> i64 {
    let near = random.below(3) as i64 - 1;
    match random.below(8) {
        0 => random.pick(&[i64::MIN, i64::MIN + 1, i64::MAX, 0, 1, -1]),
        1 => 10i64.pow(random.below(19) as u32) + near,
        2 => -(10i64.pow(random.below(19) as u32)) + near,
        3 => (1i64 << random.below(63)).wrapping_add(near),
        4 | 5 => random.below(6) as i64,
        _ => random.magnitude() as i64,
    }
}

/// Letters, what `~s` escapes, tildes, control characters and bytes above 127.
fn string(random: &Random, longest: usize) -> Vec<u8> {
    let length = random.pick(&[
        longest,
        random.below(longest + 1),
        random.below(longest + 1),
    ]);
    let letters = random.once_in(3);
    let byte = |_| match random.below(4) {
        _ if letters => b'a' + random.below(26) as u8,
        0 => random.pick(b"\"\\"),
        1 => random.pick(b"~\n\0\x1b\x7f\x80\xff"),
        _ => random.byte(),
    };
    (0..length).map(byte).collect()
}

/// Few values of a kind: one for each of so many clauses that it can choose and for none of them, one for each length that
/// it has in `~a` and `~s`, and the longest in any other directive.
pub fn few(kind: u8, longest: usize, clauses: usize) -> Vec<Value> {
    match kind {
        0 => vec![Value::Bool(false), Value::Bool(true)],
        1 => {
            let decimal = (1..19).map(|zeros| 10i64.pow(zeros));
            let chosen = -1..=clauses as i64;
            let numbers = decimal.chain(chosen).chain([i64::MIN]);
            numbers.map(Value::Int).collect()
        }
        // All lengths from 3 to 9, and 11.
        2 => b"a\x01\x10\0\x07\r\n\x08"
            .iter()
            .map(|&c| Value::Char(c))
            .collect(),
        3 => (0..=longest).flat_map(strings).map(Value::Str).collect(),
        _ => vec![Value::List(Vec::new())],
    }
}

/// With every number of bytes that `~s` escapes.
pub fn strings(length: usize) -> Vec<Vec<u8>> {
    let with = |quotes: usize| [vec![b'"'; quotes], vec![b'a'; length - quotes]].concat();
    (0..=length).map(with).collect()
}
