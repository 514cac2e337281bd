//! One vet: the proved one against the reference's, and against the proved format over tables of its kinds.

use super::smallest::{fewer, shorter_pairs, smallest, Steps};
use super::values;
use random::Random;
use reference::{conditionals, encode, hex, Value, MOST_ENTRIES, MOST_LONGEST, MOST_POOL};

/// No text before a refusal drawn here is longer.
const VAST: usize = 1 << 24;

#[derive(Clone)]
pub struct Case {
    pub format: Vec<u8>,
    pub kinds: Vec<u8>,
    pub longest: usize,
}

/// Code, position and count.
pub type Vetted = (u32, usize, usize);

/// The answer on which both agree. Where they do not, the smallest vet found that shows it is told.
pub fn compare(case: &Case) -> Vetted {
    difference(case).unwrap_or_else(|first| {
        let least = smallest(case.clone(), smaller, |case| difference(case).err());
        panic!("{}", least.unwrap_or(first))
    })
}

fn difference(case: &Case) -> Result<Vetted, String> {
    let answer = proved(case);
    let expected = reference::vet(&case.format, &case.kinds, case.longest);
    if answer == (expected.code, expected.position, expected.count) {
        return Ok(answer);
    }
    Err(format!("{case}\nproved {answer:?}\nreference {expected:?}"))
}

fn proved(case: &Case) -> Vetted {
    tilde::vet(&case.format, &case.kinds, case.longest)
}

fn smaller(case: &Case) -> Steps<'_, Case> {
    let longest = case.longest;
    let pairs = shorter_pairs(&case.format, &case.kinds).map(move |(format, kinds)| Case {
        format,
        kinds,
        longest,
    });
    let lengths = fewer(longest).map(move |longest| Case {
        longest,
        ..case.clone()
    });
    Box::new(pairs.chain(lengths))
}

/// What a vet says of every table of its kinds holds of the one with these arguments: accepted, it is formatted in a
/// buffer of the count; refused for its arguments as a plain format, it is refused so. The bytes written. Where it does
/// not hold, the smallest call found that shows it is told.
pub fn hold(case: &Case, arguments: &[Value], vetted: Vetted) -> usize {
    broken(case, arguments, vetted).unwrap_or_else(|first| {
        let run = (case.clone(), arguments.to_vec());
        let least = smallest(run, smaller_run, |(case, arguments)| {
            broken(case, arguments, proved(case)).err()
        });
        panic!("{}", least.unwrap_or(first))
    })
}

fn broken(case: &Case, arguments: &[Value], vetted: Vetted) -> Result<usize, String> {
    let (format, table) = (&case.format, encode(arguments));
    assert_eq!(reference::check_table(&table), Ok(()));
    let (refusal, room) = match vetted {
        (0, _, count) => ((0, 0), count),
        (6..=8, ..) if !conditionals(format).is_empty() => return Ok(0),
        (6..=8, position, _) => {
            let before = reference::format(format, &table, VAST).text.len();
            ((vetted.0, position), before)
        }
        _ => return Ok(0),
    };
    let mut buffer = vec![0; room];
    let (code, position, _, written) = tilde::format(format, &table, &mut buffer);
    let expected = reference::format(format, &table, room).text;
    if ((code, position), &buffer[..written]) == (refusal, &expected) {
        return Ok(written);
    }
    let table = hex(&table);
    Err(format!(
        "{case}\nvet {vetted:?} table {table}\nformat {code} at {position}, {written} bytes of {room}"
    ))
}

fn smaller_run((case, arguments): &(Case, Vec<Value>)) -> Steps<'_, (Case, Vec<Value>)> {
    let pairs = shorter_pairs(&case.format, arguments);
    Box::new(pairs.map(move |(format, arguments)| {
        let case = Case {
            format,
            kinds: arguments.iter().map(Value::tag).collect(),
            longest: case.longest,
        };
        (case, arguments)
    }))
}

impl std::fmt::Display for Case {
    fn fmt(&self, out: &mut std::fmt::Formatter) -> std::fmt::Result {
        let (format, kinds) = (hex(&self.format), hex(&self.kinds));
        write!(
            out,
            "format {format} kinds {kinds} longest {}",
            self.longest
        )
    }
}

// ---- drawing --------------------------------------------------------------

/// A vet of this format; now and then more kinds, another kind or longer strings than may be asked for.
pub fn case(random: &Random, format: Vec<u8>, mut kinds: Vec<u8>) -> Case {
    let longest = match random.below(100) {
        0 => random.pick(&[MOST_LONGEST + 1, MOST_LONGEST + 2, 1 << 32, usize::MAX]),
        1 => random.pick(&[MOST_LONGEST, MOST_LONGEST - 1]),
        2..=9 => random.below(300),
        _ => random.below(14),
    };
    if random.once_in(100) {
        kinds.resize(random.pick(&[MOST_ENTRIES, MOST_ENTRIES + 1, 2000]), 1);
    }
    if random.once_in(100) && !kinds.is_empty() {
        let at = random.below(kinds.len());
        kinds[at] = random.pick(&[5, 6, 128, 255, random.byte()]);
    }
    Case {
        format,
        kinds,
        longest,
    }
}

/// Arguments of exactly these kinds and no longer strings, as long ones as the pool holds.
pub fn arguments(random: &Random, case: &Case) -> Vec<Value> {
    let kinds = &case.kinds;
    let longest = case.longest.min(MOST_POOL / kinds.len().max(1));
    // Each list has at most three members, which must fit as well.
    let levels = usize::from(kinds.len() * 4 <= MOST_ENTRIES);
    let value = |&kind: &u8| values::of_kind(random, kind, longest, levels);
    kinds.iter().map(value).collect()
}
