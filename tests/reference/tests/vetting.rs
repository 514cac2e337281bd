//! Vet of plain formats: its refusals, its counts, and the counts against trying.

mod common;
use common::*;
use random::Random;
use reference::{brute_tables, encode, format, vet, vet_brute, Value, Vetted};

fn refuses(text: &[u8], kinds: &[u8], longest: usize, code: u32, position: usize) {
    let expected = Vetted {
        code,
        position,
        count: 0,
    };
    assert_eq!(
        vet(text, kinds, longest),
        expected,
        "{:?}",
        String::from_utf8_lossy(text)
    );
    if brute_tables(kinds, longest) <= 50_000 {
        assert_eq!(vet_brute(text, kinds, longest), expected);
    }
}

#[test]
fn refused_inputs() {
    accepts("", &[0; 1024], 4096, 0);
    refuses(b"", &[0; 1025], 0, 12, 0);
    refuses(b"", &[5], 0, 12, 0);
    refuses(b"", &[0, 1, 2, 3, 4, 255], 0, 12, 0);
    refuses(b"", &[], 4097, 12, 0);
    // 12 before 2, 2 before 3.
    refuses(&[b'~'; 4097], &[], 4097, 12, 0);
    refuses(&[b'~'; 4097], &[], 4096, 2, 4096);
    refuses(b"ab~q~^", &[], 0, 3, 2);
    refuses(b"ab~[~^", &[], 0, 4, 2);
    refuses(b"~^ab~:a", &[], 0, 5, 4);
}

#[test]
fn not_plain() {
    for text in [
        "~*", "~:*", "~@*", "~0*", "~v[~]", "~V[~:;~]", "~{x~}", "~@{x~}", "~^", "~va", "~V%",
        "~,,,Va", "~vc", "~,vd",
    ] {
        refuses(format!("ab~%{text}~^").as_bytes(), &[1, 1, 1], 0, 11, 4);
        // 11 before 6 to 8 of earlier directives.
        refuses(format!("~c{text}").as_bytes(), &[1], 0, 11, 2);
    }
    accepts("~,,,'va", &[0], 0, 2);
    accepts("~#%", &[1, 1], 0, 2);
}

#[test]
fn refused_for_the_arguments() {
    refuses(b"x~a", &[], 0, 6, 1);
    refuses(b"~:p", &[1], 0, 6, 0);
    refuses(b"~a~a", &[1], 0, 6, 2);
    refuses(b"~a~a", &[1, 4], 0, 7, 2);
    refuses(b"~d", &[3], 0, 7, 0);
    refuses(b"~c", &[1], 0, 7, 0);
    refuses(b"~,#a", &[], 0, 8, 0);
    refuses(b"~a~,#a", &[1], 0, 8, 2);
    refuses(b"~,,,#:d", &[], 0, 8, 0);
    refuses(b"~#c", &[0; 128], 0, 8, 0);
    accepts("~#c", &[0; 127], 0, 1);
    accepts("~#@c", &[0; 127], 0, 8);
    accepts("~#:c", &[4, 4], 0, 2);
    // As a run meets them.
    refuses(b"~d~a~,#a", &[1, 4], 0, 7, 2);
    for (kind, bad) in [
        (0, "dxobc"),
        (1, "c"),
        (2, "dxob"),
        (3, "dxobc"),
        (4, "asdxobc"),
    ] {
        for code in "asdxobcp".chars() {
            let text = format!("~{code}");
            if bad.contains(code) {
                refuses(text.as_bytes(), &[kind], 2, 7, 0);
            } else {
                assert_eq!(vet(text.as_bytes(), &[kind], 2).code, 0);
            }
        }
    }
}

#[test]
fn greatest_lengths() {
    accepts("abc~%~3_~~~\n  ~@\n", &[], 0, 3 + 1 + 3 + 1 + 1);
    accepts("~a", &[3], 7, 7);
    accepts("~s", &[3], 7, 16);
    accepts("~s", &[3], 4096, 8194);
    accepts("~a~s", &[0, 0], 0, 4);
    accepts("~a", &[1], 0, 20);
    accepts("~d ~x", &[1, 1], 0, 20 + 1 + 17);
    accepts("~o", &[1], 0, 23);
    accepts("~b", &[1], 0, 65);
    accepts("~:d", &[1], 0, 26);
    accepts("~@d", &[1], 0, 20);
    accepts("~@x", &[1], 0, 17);
    accepts("~,,,1:b", &[1], 0, 65 + 63);
    accepts("~100d", &[1], 0, 100);
    accepts("~a", &[2], 0, 1);
    accepts("~s", &[2], 0, 11);
    accepts("~c", &[2], 0, 1);
    accepts("~:c", &[2], 0, 2);
    accepts("~@c", &[2], 0, 11);
    accepts("~127@c~0:c~65@c", &[], 0, 8 + 2 + 3);
    accepts("~p~@p", &[4, 4], 0, 4);
    accepts("~p~:p~:@p", &[1], 0, 5);
}

#[test]
fn the_longest_is_not_the_worst() {
    accepts("~5,4a", &[3], 5, 8);
    // The empty string is padded by 8.
    accepts("~5,4a", &[3], 0, 8);
    accepts("~6,4a", &[3], 0, 8);
    accepts("~6,4a", &[3], 1, 9);
    accepts("~5,4s", &[3], 5, 12);
    accepts("~5,4s", &[3], 1, 8);
    accepts("~4000,4096a", &[3], 4000, 3999 + 4096);
    accepts("~20,10a~:p", &[1], 0, 30);
    // Character names have lengths 3 to 9 and 11.
    accepts("~11,5s", &[2], 0, 15);
    accepts("~10,7s", &[2], 0, 16);
    accepts("~9,20s", &[2], 0, 28);
    // The length that is greatest for `~a` must not be the integer 1.
    accepts("~2,10a~:p~:@p", &[1], 0, 20 + 4);
    accepts("~2,40a~:p~:@p", &[1], 0, 41 + 4);
    accepts("~5,7,2a", &[0], 0, 11);
    accepts("~#,#a", &[3, 4, 4], 3, 5);
}

#[test]
fn many_arguments() {
    let text = "~s".repeat(1024);
    accepts(&text, &[3; 1024], 4096, 1024 * 8194);
    // All in one pool: strings may share their bytes.
    let mut table = encode(&[Value::Str(vec![b'"'; 4096])]);
    let entry = table[8..20].to_vec();
    table[0..4].copy_from_slice(&[4, 0, 4, 0]);
    for _ in 1..1024 {
        table.splice(8..8, entry.iter().copied());
    }
    let answer = format(text.as_bytes(), &table, usize::MAX);
    assert_eq!((answer.code, answer.text.len()), (0, 1024 * 8194));
}

fn plain_directive(random: &Random) -> String {
    let small = || match random.below(4) {
        0 => String::new(),
        1 => "#".to_string(),
        _ => random.below(14).to_string(),
    };
    match random.below(6) {
        0 => {
            let code = random.pick(&["a", "s", "@a", "@s"]);
            format!("~{},{},{}{code}", small(), small(), small())
        }
        1 => {
            let code = random.pick(&["d", "x", "o", "b", ":d", "@d", ":@x", ":b", "@:o"]);
            format!("~{},,,{}{code}", small(), small())
        }
        2 => random
            .pick(&["~c", "~:c", "~@c", "~5c", "~#@c", "~s", "~a"])
            .to_string(),
        3 => random.pick(&["~p", "~@p", "~:p", "~:@p"]).to_string(),
        4 => random
            .pick(&["x", "~%", "~3_", "~#~", "~\n ", "~@\n "])
            .to_string(),
        _ => random
            .pick(&["~a~:p", "~d~:@p", "~s~:p~:p", "~5,4a", "~9,7s"])
            .to_string(),
    }
}

#[test]
fn against_trying() {
    let random = Random::new(7);
    let mut accepted = 0;
    for _ in 0..4000 {
        let text: String = (0..1 + random.below(4))
            .map(|_| plain_directive(&random))
            .collect();
        let kinds: Vec<u8> = (0..random.below(4))
            .map(|_| random.below(5) as u8)
            .collect();
        let longest = random.below(5);
        if brute_tables(&kinds, longest) > 3000 {
            continue;
        }
        let vetted = vet(text.as_bytes(), &kinds, longest);
        assert_eq!(
            vetted,
            vet_brute(text.as_bytes(), &kinds, longest),
            "{text:?} {kinds:?} {longest}"
        );
        accepted += usize::from(vetted.code == 0);
    }
    assert!(accepted > 500, "{accepted}");
}

#[test]
fn no_integer_gives_more() {
    // Integers drawn at every size stay within the count.
    let random = Random::new(11);
    for _ in 0..400 {
        let text = format!("{}{}", plain_directive(&random), plain_directive(&random));
        let vetted = vet(text.as_bytes(), &[1, 1], 0);
        for _ in 0..200 {
            let draw = || (random.word() as i64) >> random.below(64);
            let answer = format(text.as_bytes(), &encode(&ints(&[draw(), draw()])), ROOM);
            assert_eq!(
                (answer.code, answer.position),
                (vetted.code, vetted.position),
                "{text:?}"
            );
            assert!(
                answer.code != 0 || answer.text.len() <= vetted.count,
                "{text:?}"
            );
        }
    }
}
