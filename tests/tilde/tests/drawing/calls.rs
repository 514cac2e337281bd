//! Whole calls drawn at random: formats of every directive, damaged ones and random bytes, over sound and damaged tables.

use super::{damage, tables, texts};
use random::{pieced, Random};
use reference::Value;

/// So many, unless the environment's TILDE_CALLS asks for another number.
pub fn how_many(usually: usize) -> usize {
    match std::env::var("TILDE_CALLS") {
        Ok(given) => given.parse().expect("TILDE_CALLS is a number of calls"),
        Err(_) => usually,
    }
}

/// A format, and arguments that most of the sound ones take.
pub fn format(random: &Random) -> (Vec<u8>, Vec<Value>) {
    if random.once_in(200) {
        return endless(random);
    }
    let deep = random.once_in(20);
    let levels = random.below(if deep { 10 } else { 5 });
    let (mut text, arguments) = texts::format(random, levels, deep);
    match random.below(20) {
        0..=4 => (0..=random.below(3)).for_each(|_| damage::damage(random, &mut text)),
        5 | 6 => text = pieced(random).into_bytes(),
        7 => text = damage::shapeless(random),
        _ => {}
    }
    if random.once_in(150) {
        damage::lengthen(random, &mut text);
    }
    (text, arguments)
}

/// An iteration whose body takes nothing, so that only steps or room end it.
fn endless(random: &Random) -> (Vec<u8>, Vec<Value>) {
    let body = random.pick(&[
        "x",
        "~_",
        "~0_",
        "~a~:*",
        "~:[~;~]~:*",
        "~a~0@*",
        "~@[~]",
        "ab~\n c",
        "~4096@{x~}",
    ]);
    let (mut text, mut arguments) = texts::format(random, 1, false);
    text.extend_from_slice(format!("~@{{{body}~}}").as_bytes());
    arguments.push(Value::Int(random.below(3) as i64));
    (text, arguments)
}

pub fn table(random: &Random, mut arguments: Vec<Value>) -> Vec<u8> {
    tables::unsettle(random, &mut arguments);
    let mut table = tables::table(random, &arguments);
    if random.once_in(12) {
        (0..=random.below(2)).for_each(|_| tables::damage(random, &mut table));
    }
    table
}
