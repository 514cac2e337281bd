//! Short names for building cases.
#![allow(dead_code)]

use reference::{brute_tables, encode, format, vet, vet_brute, Answer, Value, Vetted};

pub const ROOM: usize = 100_000;

pub fn int(value: i64) -> Value {
    Value::Int(value)
}

pub fn string(text: &str) -> Value {
    Value::Str(text.as_bytes().to_vec())
}

pub fn character(c: u8) -> Value {
    Value::Char(c)
}

pub fn boolean(value: bool) -> Value {
    Value::Bool(value)
}

pub fn list(members: &[Value]) -> Value {
    Value::List(members.to_vec())
}

pub fn ints(values: &[i64]) -> Vec<Value> {
    values.iter().map(|&value| Value::Int(value)).collect()
}

pub fn run(text: &str, args: &[Value]) -> Answer {
    format(text.as_bytes(), &encode(args), ROOM)
}

/// The format gives this text.
pub fn gives(text: &str, args: &[Value], expected: &str) {
    let answer = run(text, args);
    let shown = String::from_utf8_lossy(&answer.text).into_owned();
    assert_eq!(
        (answer.code, answer.position, shown.as_str()),
        (0, 0, expected),
        "{text:?}"
    );
}

/// The format gives this text in so many steps.
pub fn gives_in(text: &str, args: &[Value], expected: &str, steps: usize) {
    gives(text, args, expected);
    assert_eq!(run(text, args).steps, steps, "{text:?}");
}

/// The run is refused thus, with so many steps and this text kept.
pub fn refused(text: &str, args: &[Value], code: u32, position: usize, steps: usize, kept: &str) {
    let answer = run(text, args);
    let expected = Answer {
        code,
        position,
        steps,
        text: kept.as_bytes().to_vec(),
    };
    assert_eq!(answer, expected, "{text:?}");
}

/// The text itself is refused thus.
pub fn faulty(text: &str, code: u32, position: usize) {
    assert_eq!(
        reference::check_format(text.as_bytes()),
        Err((code, position)),
        "{text:?}"
    );
    let expected = Answer {
        code,
        position,
        steps: 0,
        text: vec![],
    };
    assert_eq!(run(text, &ints(&[1, 2, 3])), expected, "{text:?}");
}

/// The text has no fault.
pub fn sound(text: &str) {
    assert_eq!(reference::check_format(text.as_bytes()), Ok(()), "{text:?}");
}

/// Vet accepts the format with this count, and so does trying where the tables are not too many.
pub fn accepts(text: &str, kinds: &[u8], longest: usize, count: usize) {
    let expected = Vetted {
        code: 0,
        position: 0,
        count,
    };
    assert_eq!(
        vet(text.as_bytes(), kinds, longest),
        expected,
        "{text:?} {kinds:?} {longest}"
    );
    if brute_tables(kinds, longest) <= 50_000 {
        assert_eq!(
            vet_brute(text.as_bytes(), kinds, longest),
            expected,
            "{text:?} by trying"
        );
    }
}
