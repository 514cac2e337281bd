//! The proved format against the reference formatter on random calls: formats of every directive, damaged ones and
//! random bytes, over sound and damaged tables, in buffers of every size.

mod drawing;

use drawing::calls;
use drawing::field::{Field, VAST};
use drawing::smallest::{fewer, shorter, smallest, Steps};
use drawing::{damage, tables, texts, Tally};
use random::Random;
use reference::{hex, Answer};

const SEED: u64 = 3;
const CALLS: usize = 250_000;
const LONG_FORMATS: usize = 25_000;
/// More than most texts need; a run that never ends goes on until a buffer of this size is full, or its steps are done.
const AMPLE: usize = 2000;

#[test]
fn random_calls() {
    let random = Random::new(SEED);
    let mut field = Field::new();
    let mut tally = Tally::default();
    let calls = calls::how_many(CALLS);
    for _ in 0..calls {
        let (format, arguments) = calls::format(&random);
        let table = calls::table(&random, arguments);
        let room = next_room(&random, &format, &table);
        tally.add(compare(&mut field, &format, &table, room));
    }
    println!("{calls} calls of the proved format agree with the reference:{tally}");
    tally.assert_each(&[0, 1, 2, 3, 4, 5, 6, 7, 8, 9, 10], 300 * calls / CALLS);
}

/// Formats with long blocks, which are run by landmarks.
#[test]
fn long_formats() {
    let random = Random::new(SEED + 2);
    let mut field = Field::new();
    let mut tally = Tally::default();
    let (mut whole, mut longer) = (0, 0);
    for _ in 0..LONG_FORMATS {
        let (mut format, arguments) = texts::long(&random);
        if random.once_in(10) {
            damage::damage(&random, &mut format);
        }
        let table = tables::table(&random, &arguments);
        let code = compare(&mut field, &format, &table, VAST);
        tally.add(code);
        whole += usize::from(code == 0);
        longer += usize::from(format.len() > 208);
    }
    println!("{LONG_FORMATS} long formats agree, {longer} of more than 208 bytes:{tally}");
    assert!(whole > LONG_FORMATS / 3, "too few end: {whole}");
    assert!(longer > LONG_FORMATS / 2, "too few are long: {longer}");
}

/// Every length of the buffer, up to one more than the text needs.
#[test]
fn every_room() {
    let random = Random::new(SEED + 1);
    let mut field = Field::new();
    let mut compared = 0;
    for _ in 0..2000 {
        let (format, arguments) = texts::format(&random, random.below(4), false);
        let table = tables::table(&random, &arguments);
        let most = reference::format(&format, &table, 60).text.len() + 1;
        for room in 0..=most {
            compare(&mut field, &format, &table, room);
            compared += 1;
        }
    }
    println!("{compared} calls in buffers of every length agree");
}

// ---- comparing ------------------------------------------------------------

/// The code on which both agree. Where they do not, the smallest call found that shows it is told.
fn compare(field: &mut Field, format: &[u8], table: &[u8], room: usize) -> u32 {
    match difference(field, format, table, room) {
        Ok(code) => code,
        Err(first) => panic!("{}", least(format, table, room).unwrap_or(first)),
    }
}

fn difference(field: &mut Field, format: &[u8], table: &[u8], room: usize) -> Result<u32, String> {
    let expected = reference::format(format, table, room);
    let (code, position, steps, written) = tilde::format(format, table, field.lend(room));
    let answer = field.text(room, written).map(|text| Answer {
        code,
        position,
        steps,
        text,
    });
    if answer.as_ref() == Ok(&expected) {
        return Ok(code);
    }
    let (format, table) = (hex(format), hex(table));
    Err(format!(
        "format {format} table {table} room {room}\nproved {answer:?}\nreference {expected:?}"
    ))
}

type Call = (Vec<u8>, Vec<u8>, usize);

/// Bytes are left out of the format and the table, and room is taken away, as long as a difference is left.
fn least(format: &[u8], table: &[u8], room: usize) -> Option<String> {
    let call = (format.to_vec(), table.to_vec(), room);
    smallest(call, smaller, |(format, table, room)| {
        difference(&mut Field::new(), format, table, *room).err()
    })
}

fn smaller((format, table, room): &Call) -> Steps<'_, Call> {
    let formats = shorter(format).map(move |f| (f, table.clone(), *room));
    let tables = shorter(table).map(move |t| (format.clone(), t, *room));
    let rooms = fewer(*room).map(move |less| (format.clone(), table.clone(), less));
    Box::new(formats.chain(tables).chain(rooms))
}

// ---- room -----------------------------------------------------------------

/// None, just enough, one too few, less or more than that.
fn next_room(random: &Random, format: &[u8], table: &[u8]) -> usize {
    let ample = if random.once_in(20) { VAST } else { AMPLE };
    let answer = reference::format(format, table, ample);
    let needed = answer.text.len();
    if answer.code == 9 {
        return needed;
    }
    match random.below(10) {
        0 => 0,
        1 | 2 => needed,
        3 => needed.saturating_sub(1),
        4 => random.below(needed + 1),
        5 => (needed + random.below(20)).min(VAST),
        _ => ample,
    }
}
