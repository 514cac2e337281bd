//! Long formats drawn at random: blocks of many clauses and of long ones, most of them passed over, and loops that meet
//! them again. Nearly every directive leaves the next argument as it was, so that a run goes on to the end of the text.

use crate::drawing::values;
use random::Random;
use reference::Value;

const LONGEST: usize = 4096;

const FILLERS: &[&str] = &[
    "x",
    "yyyyyyyy",
    "~a~:*",
    "~8a~:*",
    "~00005,,1a~:*",
    "~%",
    "~~",
    "~0_",
    "~*~:*",
    "~\n     z",
    "~:[n~;~]~:*",
    "~#[~]",
    "~1@{z~}",
    "~,1,,'~s~:*",
];

/// A format of hundreds or thousands of bytes, and a few arguments.
pub fn long(random: &Random) -> (Vec<u8>, Vec<Value>) {
    let mut text = String::new();
    let length = 200 + random.below(LONGEST - 200);
    while text.len() < length {
        let before = text.len();
        filler(random, 3, &mut text);
        block(random, random.below(9), &mut text);
        if text.len() > LONGEST {
            text.truncate(before);
            break;
        }
    }
    let small = |_| Value::Int(random.below(60) as i64);
    let mut arguments: Vec<Value> = (0..1 + random.below(3)).map(small).collect();
    arguments.push(values::any(random, 1));
    (text.into_bytes(), arguments)
}

fn filler(random: &Random, most: usize, text: &mut String) {
    (0..random.below(most)).for_each(|_| text.push_str(random.pick(FILLERS)));
}

/// Blocks nest up to so many levels.
fn block(random: &Random, levels: usize, text: &mut String) {
    if levels == 0 {
        return filler(random, 8, text);
    }
    match random.below(8) {
        0..=3 => numbered(random, levels - 1, text),
        4 => {
            text.push_str("~:[");
            clause(random, levels - 1, text);
            text.push_str("~;");
            clause(random, levels - 1, text);
            text.push_str("~]~:*");
        }
        5 => {
            text.push_str("~@[");
            clause(random, levels - 1, text);
            text.push_str("~]");
        }
        _ => {
            text.push_str(random.pick(&["~0@{", "~1@{", "~2@{", "~3@{", "~#@{"]));
            text.push_str("w");
            clause(random, levels - 1, text);
            text.push_str(random.pick(&["~}", "~^~}", "~#[~:;~]~}"]));
        }
    }
}

/// A conditional with a few clauses or with many, by its own number, by that of the arguments, or by an argument.
fn numbered(random: &Random, levels: usize, text: &mut String) {
    let clauses = 1 + random.below(random.pick(&[3, 8, 100]));
    let n = random.below(clauses + 2);
    let (opener, after) = random.pick(&[
        ("~", ""),
        ("~", ""),
        ("~#[", ""),
        ("~[", "~:*"),
        ("~v[", "~:*"),
        ("~4096[", ""),
    ]);
    text.push_str(opener);
    if opener == "~" {
        text.push_str(&format!("{n}["));
    }
    let nested = random.below(clauses);
    for i in 0..clauses {
        if i > 0 {
            let last = i + 1 == clauses && random.once_in(2);
            text.push_str(if last { "~:;" } else { "~;" });
        }
        if i == nested {
            block(random, levels, text);
        } else {
            clause(random, 0, text);
        }
    }
    text.push_str("~]");
    text.push_str(after);
}

/// A clause of little, of many bytes, or with a block in it.
fn clause(random: &Random, levels: usize, text: &mut String) {
    match random.below(6) {
        0 => filler(random, 60, text),
        1 | 2 => block(random, levels, text),
        _ => filler(random, 3, text),
    }
}
