//! What holds of every answer, over drawn formats and tables.

mod common;
use common::*;
use random::{pieced, Random};
use reference::{check_format, check_table, conditionals, encode, format, vet, Value};

fn value(random: &Random, depth: usize) -> Value {
    match random.below(if depth == 0 { 4 } else { 6 }) {
        0 => boolean(random.once_in(2)),
        1 => int(random.below(6) as i64 - 1),
        2 => character(random.below(128) as u8),
        3 => string(random.pick(&["", "ab", "\"q\\"])),
        _ => Value::List(
            (0..random.below(4))
                .map(|_| value(random, depth - 1))
                .collect(),
        ),
    }
}

#[test]
fn answers_hold_together() {
    let random = Random::new(3);
    let mut seen = [0; 11];
    for _ in 0..400_000 {
        let text = pieced(&random);
        let args: Vec<Value> = (0..random.below(5)).map(|_| value(&random, 2)).collect();
        let table = encode(&args);
        assert_eq!(check_table(&table), Ok(()));
        let whole = format(text.as_bytes(), &table, ROOM);
        seen[whole.code as usize] += 1;
        assert!(whole.steps <= 65_536);
        assert!(whole.code == 9 || whole.position <= text.len());
        match check_format(text.as_bytes()) {
            Err((code, position)) => {
                assert_eq!(
                    (whole.code, whole.position, whole.steps),
                    (code, position, 0),
                    "{text:?}"
                );
                assert!(whole.text.is_empty());
                assert_eq!(text.as_bytes()[position], b'~');
            }
            Ok(()) => {
                assert!(matches!(whole.code, 0 | 6..=10));
                if matches!(whole.code, 6..=8) {
                    assert_eq!(text.as_bytes()[whole.position], b'~');
                }
                // Less room keeps a beginning of the text; enough changes nothing.
                let room = random.below(whole.text.len() + 1);
                let less = format(text.as_bytes(), &table, room);
                assert!(whole.text.starts_with(&less.text), "{text:?}");
                assert!(less.text.len() <= room && less.steps <= whole.steps);
                assert!(less == whole || less.code == 10, "{text:?}");
                assert_eq!(
                    format(text.as_bytes(), &table, whole.text.len()).code == 10,
                    whole.code == 10
                );
            }
        }
        // Vet agrees with this table about its kinds.
        let kinds: Vec<u8> = args.iter().map(Value::tag).collect();
        let vetted = vet(text.as_bytes(), &kinds, 4);
        match vetted.code {
            0 => assert!(
                whole.code == 0 && whole.text.len() <= vetted.count,
                "{text:?}"
            ),
            11 => {}
            // The clause that fails need not be the one that this table runs.
            6..=8 if !conditionals(text.as_bytes()).is_empty() => {}
            _ => assert_eq!(
                (whole.code, whole.position),
                (vetted.code, vetted.position),
                "{text:?}"
            ),
        }
    }
    for code in [0, 3, 4, 5, 6, 7, 8, 9] {
        assert!(seen[code] > 50, "code {code}: {}", seen[code]);
    }
}

#[test]
fn any_bytes_are_answered() {
    let random = Random::new(5);
    for _ in 0..100_000 {
        let text: Vec<u8> = (0..random.below(12)).map(|_| random.byte()).collect();
        let mut table = encode(&[value(&random, 1), value(&random, 1)]);
        for _ in 0..random.below(3) {
            let at = random.below(table.len());
            table[at] = random.byte();
        }
        table.truncate(table.len() - random.below(2));
        let answer = format(&text, &table, 64);
        assert_eq!(answer.code == 1, check_table(&table).is_err());
    }
}
