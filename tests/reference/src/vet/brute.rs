//! Vet by trying tables.

use super::{allowed_nodes, answer, Refusal, Vetted, BOOL, CHAR, INT, LIST, STR};
use crate::encode::{encode, Value};
use crate::run::format as run_format;

/// Vet of a plain format: the greatest length that format gives over the
/// tables tried. Exact wherever they hold a greatest one. Panics if two of
/// them are refused differently, which the rules exclude without conditionals.
pub fn vet_brute(format: &[u8], kinds: &[u8], longest: usize) -> Vetted {
    if let Err(refusal) = allowed_nodes(format, kinds, longest) {
        return answer(Err(refusal));
    }
    let same = |one, other| match (one, other) {
        (Ok(most), Ok(length)) => Ok(usize::max(most, length)),
        (Err(one), Err(other)) if one == other => Err(one),
        (one, other) => panic!("tables of the same kinds differ: {one:?} and {other:?}"),
    };
    let tried = try_tables(format, kinds, longest).reduce(same);
    answer(tried.expect("at least one table"))
}

/// The length that format gives, or its refusal, over each of a finite but
/// rich set of tables; their number is `brute_tables`.
pub fn try_tables<'a>(
    format: &'a [u8],
    kinds: &[u8],
    longest: usize,
) -> impl Iterator<Item = Result<usize, Refusal>> + use<'a> {
    let choices = kinds.iter().map(|&kind| brute_values(kind, longest));
    picks(choices.collect()).map(move |arguments| {
        let done = run_format(format, &encode(&arguments), usize::MAX);
        match done.code {
            0 => Ok(done.text.len()),
            code => Err((code, done.position)),
        }
    })
}

/// Every way to pick one value from each of these lists.
pub fn picks(choices: Vec<Vec<Value>>) -> impl Iterator<Item = Vec<Value>> {
    let ways = choices.iter().map(Vec::len).product();
    (0..ways).map(move |mut way: usize| {
        let pick = |from: &Vec<Value>| {
            let picked = from[way % from.len()].clone();
            way /= from.len();
            picked
        };
        choices.iter().map(pick).collect()
    })
}

/// How many tables are tried.
pub fn brute_tables(kinds: &[u8], longest: usize) -> u128 {
    let each = |&kind: &u8| match kind {
        STR => 1u128
            .checked_shl(longest as u32 + 1)
            .map_or(u128::MAX, |two| two - 1),
        _ => brute_values(kind, 0).len() as u128,
    };
    kinds.iter().map(each).fold(1, u128::saturating_mul)
}

fn brute_values(kind: u8, longest: usize) -> Vec<Value> {
    match kind {
        BOOL => vec![Value::Bool(false), Value::Bool(true)],
        INT => {
            // Among them the number of every clause up to the ninth.
            let mut values = vec![0, 3, 5, 6, 7, i64::MIN, i64::MIN + 1, i64::MAX];
            let tens = (0..19).map(|k| 10i64.pow(k));
            let twos = (1..63).map(|k| 1i64 << k);
            values.extend(tens.chain(twos).flat_map(|power| [power, -power]));
            values.into_iter().map(Value::Int).collect()
        }
        CHAR => (0..128).map(Value::Char).collect(),
        STR => {
            // All strings over `a` and `"`, shortest first.
            let mut strings: Vec<Vec<u8>> = vec![Vec::new()];
            let mut from = 0;
            for _ in 0..longest {
                let upto = strings.len();
                for i in from..upto {
                    for byte in [b'a', b'"'] {
                        let mut longer = strings[i].clone();
                        longer.push(byte);
                        strings.push(longer);
                    }
                }
                from = upto;
            }
            strings.into_iter().map(Value::Str).collect()
        }
        LIST => vec![Value::List(Vec::new()), Value::List(vec![Value::Int(1)])],
        _ => vec![],
    }
}
