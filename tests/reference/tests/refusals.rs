//! Codes 6 to 10: positions, steps and the pieces kept.

mod common;
use common::*;
use reference::{encode, format, Answer, Value};

fn in_room(text: &str, args: &[Value], room: usize) -> (u32, usize, usize, String) {
    let answer = format(text.as_bytes(), &encode(args), room);
    (
        answer.code,
        answer.position,
        answer.steps,
        String::from_utf8(answer.text).unwrap(),
    )
}

#[test]
fn no_such_argument() {
    for directive in [
        "~a", "~s", "~d", "~x", "~o", "~b", "~c", "~p", "~@p", "~[~]", "~:[~;~]", "~@[~]", "~{x~}",
        "~v%", "~va", "~v@{x~}", "~v[~]",
    ] {
        let text = format!("ab{directive}");
        refused(&text, &[], 6, 2, 3, "ab");
    }
    refused("~d~d", &ints(&[1]), 6, 2, 2, "1");
    refused("~:p", &ints(&[1]), 6, 0, 1, "");
    gives("~*~:p", &ints(&[1]), "");
    refused("~va", &ints(&[1]), 6, 0, 1, "");
    // Inside a list, the arguments are the list's.
    refused("~{~d~d~}", &[list(&ints(&[1])), int(2)], 6, 4, 4, "1");
    refused("~{~:p~}", &[list(&ints(&[1])), int(2)], 6, 2, 3, "");
}

#[test]
fn jumps_outside() {
    refused("~3*", &ints(&[1, 2]), 6, 0, 1, "");
    refused("~d~2*", &ints(&[1, 2]), 6, 2, 2, "1");
    refused("~:*", &ints(&[1, 2]), 6, 0, 1, "");
    refused("~d~2:*", &ints(&[1, 2]), 6, 2, 2, "1");
    refused("~3@*", &ints(&[1, 2]), 6, 0, 1, "");
    refused(
        "~{~3@*~}",
        &[list(&ints(&[1, 2])), int(1), int(2)],
        6,
        2,
        3,
        "",
    );
    refused("~4096*", &[], 6, 0, 1, "");
}

#[test]
fn wrong_kinds() {
    let kinds = [
        boolean(true),
        int(5),
        character(b'c'),
        string("s"),
        list(&[]),
    ];
    let takes: &[(&str, [bool; 5])] = &[
        ("~a", [true, true, true, true, false]),
        ("~s", [true, true, true, true, false]),
        ("~d", [false, true, false, false, false]),
        ("~x", [false, true, false, false, false]),
        ("~o", [false, true, false, false, false]),
        ("~b", [false, true, false, false, false]),
        ("~c", [false, false, true, false, false]),
        ("~p", [true; 5]),
        ("~[~]", [false, true, false, false, false]),
        ("~:[~;~]", [true; 5]),
        ("~@[~]", [true; 5]),
        ("~{x~}", [false, false, false, false, true]),
        ("~v%", [false, true, false, false, false]),
        ("~vc", [false, true, false, false, false]),
        ("~v[~]", [false, true, false, false, false]),
        ("~v@{~d~}", [false, true, false, false, false]),
        ("~v*", [false, true, false, false, false]),
    ];
    for (text, taken) in takes {
        for (kind, &taken) in kinds.iter().zip(taken) {
            // Five arguments follow, so that a jump of 5 is within.
            let mut args = vec![kind.clone()];
            args.extend(ints(&[1, 2, 3, 4, 5]));
            let answer = run(text, &args);
            if taken {
                assert_eq!(answer.code, 0, "{text} {kind:?}");
            } else {
                let expected = Answer {
                    code: 7,
                    position: 0,
                    steps: 1,
                    text: vec![],
                };
                assert_eq!(answer, expected, "{text} {kind:?}");
            }
        }
    }
    // A character place takes a character.
    gives("~3,,,va", &[character(b'.'), int(1)], "1..");
    refused("~3,,,va", &[int(46), int(1)], 7, 0, 1, "");
    refused("~3,vd", &[string("."), int(1)], 7, 0, 1, "");
}

#[test]
fn values_outside_their_range() {
    for (value, fits) in [
        (-1, false),
        (0, true),
        (4096, true),
        (4097, false),
        (i64::MIN, false),
        (i64::MAX, false),
    ] {
        for text in ["~v%", "~va", "~,,va", "~vd", "~v[~]", "~v@{~d~}"] {
            let answer = run(text, &ints(&[value, 1]));
            let expected = if fits { (0, 0) } else { (8, 0) };
            assert_eq!((answer.code, answer.position), expected, "{text} {value}");
        }
    }
    for (value, fits) in [
        (0, false),
        (1, true),
        (4096, true),
        (4097, false),
        (-1, false),
    ] {
        for text in ["~,va", "~,vs", "~,,,vd", "~,,,v:d"] {
            let answer = run(text, &ints(&[value, 1]));
            assert_eq!(answer.code, if fits { 0 } else { 8 }, "{text} {value}");
        }
    }
    for (value, fits) in [(0, true), (127, true), (128, false), (-1, false)] {
        let answer = run("~vc", &ints(&[value]));
        assert_eq!(answer.code, if fits { 0 } else { 8 }, "{value}");
    }
    // `#` of 0 as padinc, before the missing argument.
    refused("~,#a", &[], 8, 0, 1, "");
    refused("~,,,#d", &[], 8, 0, 1, "");
    gives("~,#a", &ints(&[1]), "1");
    let many = vec![int(1); 128];
    assert_eq!(run("~#c", &many[..127]).text, [127]);
    refused("~#c", &many, 8, 0, 1, "");
}

#[test]
fn parameters_in_order() {
    // Left to right: each with 6, 7, 8.
    refused("~v,va", &[int(-1), string("x")], 8, 0, 1, "");
    refused("~v,va", &[string("x"), int(0)], 7, 0, 1, "");
    refused("~v,va", &[int(1), int(0)], 8, 0, 1, "");
    refused("~v,va", &[int(1)], 6, 0, 1, "");
    // Range before the jump, parameters before the own argument.
    refused("~v*", &ints(&[-1]), 8, 0, 1, "");
    refused("~v*", &ints(&[4097]), 8, 0, 1, "");
    refused("~v*", &ints(&[4096]), 6, 0, 1, "");
    refused("~vd", &[int(5000)], 8, 0, 1, "");
    refused("~vd", &[int(5)], 6, 0, 1, "");
    refused("~vd", &[int(5), string("x")], 7, 0, 1, "");
    // `#` after a `v` sees one fewer.
    gives("~v,,#a", &[int(0), int(1)], "1 ");
}

#[test]
fn room() {
    assert_eq!(in_room("abc", &[], 3), (0, 0, 3, "abc".into()));
    assert_eq!(in_room("abc", &[], 2), (10, 2, 3, "ab".into()));
    assert_eq!(in_room("abc", &[], 0), (10, 0, 1, "".into()));
    assert_eq!(in_room("", &[], 0), (0, 0, 0, "".into()));
    assert_eq!(in_room("a~db", &ints(&[123]), 5), (0, 0, 3, "a123b".into()));
    assert_eq!(
        in_room("a~db", &ints(&[123]), 4),
        (10, 4 - 1, 3, "a123".into())
    );
    // A piece is written whole or not at all, and nothing follows it.
    assert_eq!(in_room("a~db", &ints(&[123]), 3), (10, 1, 2, "a".into()));
    assert_eq!(in_room("~5%", &[], 4), (10, 0, 1, "".into()));
    assert_eq!(
        in_room("~{~d~}", &[list(&ints(&[1, 2, 33, 4]))], 3),
        (10, 2, 7, "12".into())
    );
    // Empty pieces fit in no room.
    assert_eq!(
        in_room("~p~0%~*~\n~^", &ints(&[1, 2]), 0),
        (0, 0, 5, "".into())
    );
    // Kind before room, room before a later fault.
    assert_eq!(in_room("~d", &[string("x")], 0), (7, 0, 1, "".into()));
    assert_eq!(in_room("x~d", &[], 0), (10, 0, 1, "".into()));
}

// ---- code 9 -------------------------------------------------------------

/// A format of exactly so many steps, then `rest`, with its arguments.
/// Literal bytes in passes: each pass of `~@{` over one argument, which is
/// never taken, is 1 + body.
fn limit(text: &str, args: &[Value]) -> (u32, usize, usize, usize) {
    let answer = format(text.as_bytes(), &encode(args), 1 << 20);
    (
        answer.code,
        answer.position,
        answer.steps,
        answer.text.len(),
    )
}

#[test]
fn the_last_step() {
    // 1 + passes x (1 + body): 4096 passes of 1 + 15 make 65,537 with the
    // opener, so the last byte of the last pass is step 65,537.
    let text = format!("~4096@{{{}~}}", "x".repeat(15));
    assert_eq!(
        limit(&text, &ints(&[1])),
        (9, 7 + 14, 65_536, 4096 * 15 - 1)
    );
    // 4095 passes of 16 and the opener are 65,521; 15 bytes more are allowed.
    let text = format!("~4095@{{{}~}}{}", "x".repeat(15), "y".repeat(15));
    assert_eq!(limit(&text, &ints(&[1])), (0, 0, 65_536, 4096 * 15));
    let text = format!("~4095@{{{}~}}{}", "x".repeat(15), "y".repeat(16));
    assert_eq!(
        limit(&text, &ints(&[1])),
        (9, 7 + 15 + 2 + 15, 65_536, 4096 * 15)
    );
    // A directive, a block, a pass as step 65,537.
    let head = format!("~4095@{{{}~}}{}", "x".repeat(15), "y".repeat(15));
    for rest in ["~d", "~va", "~[a~]", "~{x~}", "~@{x~}", "~^", "~\n", "~0%"] {
        let text = format!("{head}{rest}");
        assert_eq!(
            limit(&text, &ints(&[1])),
            (9, head.len(), 65_536, 4096 * 15),
            "{rest}"
        );
    }
    let head = format!("~4095@{{{}~}}{}", "x".repeat(15), "y".repeat(14));
    let text = format!("{head}~@{{x~}}");
    assert_eq!(
        limit(&text, &ints(&[1])),
        (9, head.len(), 65_536, 4096 * 15 - 1)
    );
    // The limit before any other refusal.
    let text = format!("{head}y~q");
    assert_eq!(limit(&text, &ints(&[1])).0, 3);
    let text = format!("{head}y~2*");
    assert_eq!(limit(&text, &ints(&[1])).0, 9);
    let text = format!("{head}~2*");
    assert_eq!(
        limit(&text, &ints(&[1])),
        (6, head.len(), 65_536, 4096 * 15 - 1)
    );
}

#[test]
fn limit_before_room() {
    let text = format!("~4095@{{{}~}}{}", "x".repeat(15), "y".repeat(16));
    let answer = format(text.as_bytes(), &encode(&ints(&[1])), 4096 * 15);
    assert_eq!((answer.code, answer.steps), (9, 65_536));
    let answer = format(text.as_bytes(), &encode(&ints(&[1])), 4096 * 15 - 1);
    assert_eq!(
        (answer.code, answer.position, answer.steps),
        (10, 7 + 15 + 2 + 14, 65_536)
    );
}

#[test]
fn deep_blocks_to_the_limit() {
    let text = "~@{".repeat(8) + "~0%" + &"~}".repeat(8);
    let answer = run(&text, &ints(&[1]));
    // The innermost runs for ever: 8 openers, 8 first passes, then two a pass.
    assert_eq!((answer.code, answer.steps), (9, 65_536));
    // 8 openers and 7 outer passes are 15; the 65,521 left are odd, so the
    // last is a pass and the directive is wanting.
    assert_eq!(answer.position, 24);
    // An iteration that only nests is ended by the limit too.
    let text = "~@{".repeat(7) + "~@{~^~}" + &"~}".repeat(7);
    assert_eq!(run(&text, &ints(&[1])).code, 9);
}
