//! Vet of formats with conditionals: which are accepted, with what count, and how the others are refused.

mod common;
use common::*;
use random::Random;
use reference::{brute_tables, conditionals, try_tables, vet, Conditional, Vetted};

const BOOL: u8 = 0;
const INT: u8 = 1;
const CHAR: u8 = 2;
const STR: u8 = 3;
const LIST: u8 = 4;

fn refuses(text: &str, kinds: &[u8], code: u32, position: usize) {
    let expected = Vetted {
        code,
        position,
        count: 0,
    };
    assert_eq!(
        vet(text.as_bytes(), kinds, 3),
        expected,
        "{text:?} {kinds:?}"
    );
}

/// Accepted with a count that no text has: the longest is `reached`.
fn exceeds(text: &str, kinds: &[u8], longest: usize, count: usize, reached: usize) {
    let vetted = vet(text.as_bytes(), kinds, longest);
    assert_eq!((vetted.code, vetted.count), (0, count), "{text:?}");
    assert_eq!(most_tried(text, kinds, longest), reached, "{text:?}");
}

/// The longest text over the tables tried, of which none is refused.
fn most_tried(text: &str, kinds: &[u8], longest: usize) -> usize {
    let length = |tried: Result<usize, _>| tried.unwrap_or_else(|met| panic!("{text:?} {met:?}"));
    let lengths = try_tables(text.as_bytes(), kinds, longest).map(length);
    lengths.max().expect("at least one table")
}

#[test]
fn each_conditional() {
    accepts("~[a~]", &[INT], 0, 1);
    accepts("~[a~;bcd~;ef~]", &[INT], 0, 3);
    accepts("~[a~;b~:;cd~]", &[INT], 0, 2);
    accepts("~:[no~;yes~]", &[BOOL], 0, 3);
    accepts("~@[~a~]", &[BOOL], 0, 2);
    accepts("~0[a~]", &[], 0, 1);
    accepts("~#[a~]", &[], 0, 1);
    accepts("~[~]", &[INT], 0, 0);
    accepts("~:[~;~]", &[LIST], 0, 0);
}

#[test]
fn pieces_add() {
    accepts("<~:[~d~;~x~]>", &[BOOL, INT], 0, 1 + 20 + 1);
    accepts("~d~[ day~; days~:; weeks~]", &[INT, INT], 0, 20 + 6);
    accepts("~:[~5,4a~;~s~]~a", &[BOOL, STR, CHAR], 5, 12 + 1);
    accepts("~:[~:[a~;bc~]~;~:[def~;g~]~]", &[BOOL, BOOL], 0, 3);
    // The longest clause of each block, wherever it stands.
    accepts("~:[abc~;d~]~:[e~;fg~]", &[BOOL, BOOL], 0, 5);
    accepts("~[~%~;~3%~:;~2%~]~[~4_~]", &[INT, INT], 0, 7);
    accepts("~:[~\n  a~;~@\n~:\n b~]", &[BOOL], 0, 3);
    accepts("~@[~s~:p~]", &[BOOL], 0, 3);
    accepts("~[a~;b~]~:p", &[INT], 0, 2);
    accepts("~:[~65@c~;~9@c~]", &[INT], 0, 5);
}

#[test]
fn counts_that_no_text_has() {
    // The integer 1 chooses the clause and has no plural.
    exceeds("~[~;b~]~:p", &[INT], 0, 2, 1);
    // A small integer chooses the clause, but the piece is taken at its greatest.
    exceeds("~[~:@p~;~:@p~]", &[INT], 0, 3, 3);
    exceeds("~[~;~:@p~]", &[INT], 0, 3, 1);
    // A clause that no table runs.
    exceeds("~:[abc~;d~]", &[INT], 0, 3, 1);
    exceeds("~0[a~;bcd~]", &[], 0, 3, 1);
    exceeds("~#[abc~;d~:;ef~]", &[LIST], 0, 3, 1);
    exceeds("~7[abc~]", &[], 0, 3, 0);
}

#[test]
fn clauses_that_fail() {
    refuses("~[~d~:;~a~]", &[INT], 6, 2);
    refuses("~[~d~:;~a~]", &[INT, STR], 7, 2);
    refuses("~[~a~:;~d~]", &[INT, STR], 7, 7);
    refuses("~:[a~;~c~]", &[BOOL, INT], 7, 6);
    // `#` is 0 at the end, below the least padinc and commawidth.
    accepts("~:[~,#a~;~a~]", &[BOOL, INT], 0, 20);
    refuses("~:[~a~;~p~,#a~]", &[BOOL, INT], 8, 9);
    refuses("~a~:[~,,,#:d~;x~]", &[INT, BOOL], 8, 5);
    // Also the clauses that cannot be chosen.
    refuses("~:[~d~;x~]", &[INT], 6, 3);
    refuses("~1[~d~;x~:;y~]", &[], 6, 3);
    refuses("~#[~c~:;~d~]", &[INT], 7, 3);
    refuses("~0[x~:;~a~]", &[LIST], 7, 7);
    // `~:p` steps back as in any run, to what chose the clause or before it.
    refuses("~0[~:p~]", &[INT], 6, 3);
    refuses("~@[~:p~]", &[BOOL], 6, 3);
    accepts("~:[~:p~;~:@p~]", &[BOOL], 0, 3);
    accepts("~d~0[~:p~]", &[INT], 0, 21);
}

#[test]
fn what_chooses() {
    refuses("x~[a~]", &[], 6, 1);
    refuses("x~[a~]", &[BOOL], 7, 1);
    refuses("x~:[a~;b~]", &[], 6, 1);
    refuses("~a~[a~]", &[INT, STR], 7, 2);
    for kind in 0..5 {
        assert_eq!(vet(b"~:[a~;b~]", &[kind], 0).code, 0);
        let code = if kind == INT { 0 } else { 7 };
        assert_eq!(vet(b"~[a~]", &[kind], 0).code, code);
    }
    // A number or `#` takes no argument.
    exceeds("~3[a~]~a", &[CHAR], 0, 2, 1);
    accepts("~#[~a~:;~s~]", &[CHAR], 0, 11);
    accepts("~#[a~]", &[LIST; 1024], 0, 1);
}

#[test]
fn unequal_ends() {
    refuses("~:[~d~;~]", &[BOOL, INT], 11, 0);
    refuses("~:[~;~d~]", &[BOOL, INT], 11, 0);
    refuses("~[~d~;~d~:;~d~d~]", &[INT, INT, INT], 11, 0);
    accepts("~[~d~;~x~:;~o~]", &[INT, INT], 0, 23);
    // The same number of directives, but not of arguments.
    refuses("~:[~d~:p~;~d~p~]", &[BOOL, INT, INT], 11, 0);
    accepts("~:[~d~:p~;~:p~d~]", &[BOOL, INT], 0, 21);
    // The inner closer is met first, then the outer one.
    refuses("~:[~:[~d~;~]~;~]", &[BOOL, BOOL, INT], 11, 3);
    refuses("~:[~:[~d~;~d~]~;~]", &[BOOL, BOOL, INT], 11, 0);
    refuses("~:[x~;~:[~;~d~]~]~c", &[BOOL, BOOL, INT], 11, 6);
    // What comes after goes on at the common end.
    accepts("~:[~d~;~a~]~c", &[BOOL, INT, CHAR], 0, 21);
    refuses("~:[~d~;~a~]~c", &[BOOL, INT, INT], 7, 11);
    refuses("~:[~d~;~a~]~c", &[BOOL, INT], 6, 11);
}

#[test]
fn running_none_is_a_way() {
    refuses("~[~d~]", &[INT, INT], 11, 0);
    refuses("~[~d~;~d~]", &[INT, INT], 11, 0);
    accepts("~[~d~:;~d~]", &[INT, INT], 0, 20);
    // Also where a number picks a clause.
    refuses("~0[~d~]", &[INT], 11, 0);
    refuses("~#[x~;~d~]", &[INT], 11, 0);
    accepts("~0[~d~:;~d~]", &[INT], 0, 20);
    accepts("~:[~0[a~]~;~1[b~]~]", &[BOOL], 0, 1);
}

#[test]
fn one_clause() {
    refuses("x~@[~a~]", &[], 6, 1);
    // Not a boolean, whatever the clause does with it.
    for kind in [INT, CHAR, STR, LIST] {
        refuses("~@[~a~]", &[kind], 11, 0);
    }
    refuses("~@[~d~]", &[INT], 11, 0);
    refuses("~@[~q~]", &[INT], 3, 3);
    refuses("~@[~d~]", &[BOOL], 7, 3);
    // Exactly one argument on: `#f` is taken and a true one is left to the clause.
    refuses("~@[x~]", &[BOOL], 11, 0);
    refuses("~@[~a~a~]", &[BOOL, INT], 11, 0);
    refuses("~@[~a~a~]", &[BOOL], 6, 5);
    refuses("~a~@[~:p~]", &[INT, BOOL], 11, 2);
    accepts("~a~@[~:p~p~]", &[INT, BOOL], 0, 22);
    accepts("~@[~:[a~;bc~]~]", &[BOOL], 0, 2);
    accepts("~@[~@[~@[~p~]~]~]~d", &[BOOL, INT], 0, 21);
    refuses("~@[~@[x~]~]", &[BOOL], 11, 3);
}

#[test]
fn the_first_met() {
    // A clause that fails before unequal ends, which are met at the closer.
    refuses("~[~d~:;~c~]", &[INT, INT], 7, 7);
    refuses("~[~d~;~;~c~]", &[INT, INT], 7, 8);
    refuses("~:[~d~;~]~c", &[BOOL, INT], 11, 0);
    refuses("~@[~d~d~]", &[BOOL], 7, 3);
    // In the order of the text.
    refuses("~c~:[~d~;~]", &[INT, BOOL], 7, 0);
    refuses("~:[~d~;~]~:[~;~d~]", &[BOOL, INT, BOOL, INT], 11, 0);
    refuses("~:[~@[~a~]~;~d~]", &[BOOL, INT], 11, 3);
    refuses("~:[~d~;~@[~a~]~]", &[BOOL, STR], 7, 3);
}

#[test]
fn still_not_allowed() {
    for text in [
        "~*", "~:*", "~@*", "~{x~}", "~@{x~}", "~^", "~va", "~,vd", "~v[~]",
    ] {
        for kinds in [&[][..], &[INT], &[BOOL, INT, INT]] {
            refuses(&format!("~[a~]{text}"), kinds, 11, 5);
            refuses(&format!("~[{text}~]~*"), kinds, 11, 2);
            refuses(&format!("~[a~;{text}~]~*"), kinds, 11, 5);
            refuses(&format!("~:[~c~;~@[x{text}~]~]"), kinds, 11, 11);
        }
    }
    refuses("~v[~*~]", &[INT], 11, 0);
    refuses("~V[a~:;b~]", &[INT], 11, 0);
    refuses("~[~{~*~}~]", &[INT], 11, 2);
    // After 3 to 5, and before all that a run meets.
    refuses("~[~*~]~q", &[], 3, 6);
    refuses("~@[~*~;~]", &[], 4, 0);
    refuses("~[~*~2]", &[], 5, 4);
    refuses("~:[~d~;~]~*", &[BOOL, INT], 11, 9);
    refuses("~@[~a~]~c~^", &[INT], 11, 9);
}

#[test]
fn eight_deep() {
    let nested = |opener: &str, inner: &str| {
        let closers = "~]".repeat(8);
        format!("{}{inner}{closers}", opener.repeat(8))
    };
    accepts(&nested("~0[", "abc"), &[], 0, 3);
    refuses(&nested("~0[", "~a"), &[INT], 11, 21);
    accepts(&nested("~@[", "~a"), &[BOOL], 0, 2);
    refuses(&nested("~@[", "~d"), &[BOOL], 7, 24);
    refuses(&nested("~0[", "~0[~]"), &[], 4, 24);
    let numbered = nested("~[", "x");
    assert_eq!(vet(numbered.as_bytes(), &[INT; 8], 0).code, 11);
    refuses(&numbered, &[INT; 7], 6, 14);
    // Each block takes one argument, so every other clause takes the rest.
    let chosen: String = (1..=8)
        .map(|left| format!("~:[{}~;", "~p".repeat(8 - left)))
        .collect();
    accepts(&format!("{chosen}abc{}", "~]".repeat(8)), &[BOOL; 8], 0, 7);
}

const PLAIN: &[&str] = &[
    "~a",
    "~s",
    "~5,4a",
    "~9,7s",
    "~20,10a~:p",
    "~:d",
    "~@x",
    "~b",
    "~c",
    "~:c",
    "~@c",
    "~p",
    "~:p",
    "~@:p",
    "x",
    "~#%",
    "~,#a",
    "~#c",
    "~\n ",
];

fn next_kinds(random: &Random) -> Vec<u8> {
    let kind = |_| random.below(5) as u8;
    (0..random.below(5)).map(kind).collect()
}

/// A clause does what it does alone, three bytes on.
#[test]
fn plain_formats_inside_a_clause() {
    let random = Random::new(13);
    let mut accepted = 0;
    for _ in 0..5000 {
        let text: String = (0..random.below(6)).map(|_| random.pick(PLAIN)).collect();
        let kinds = next_kinds(&random);
        let alone = vet(text.as_bytes(), &kinds, 4);
        let clause = vet(format!("~0[{text}~:;{text}~]").as_bytes(), &kinds, 4);
        let position = if alone.code == 0 {
            0
        } else {
            alone.position + 3
        };
        assert_eq!(clause, Vetted { position, ..alone }, "{text:?} {kinds:?}");
        accepted += usize::from(alone.code == 0);
    }
    assert!(accepted > 500, "{accepted}");
}

/// A format with conditionals, not all of them sound.
fn drawn(random: &Random, depth: usize) -> String {
    let piece = |_| match random.below(if depth == 0 { 6 } else { 9 }) {
        0 | 1 => random.pick(&["~a", "~p", "~s", "~2,3a"]).to_string(),
        2 => random.pick(&["~d", "~c", "~:d"]).to_string(),
        3 => random.pick(&["~:p", "~@:p", "~#%", "~\n"]).to_string(),
        4 | 5 => random.pick(&["x", "yy", ""]).to_string(),
        6 => format!("~@[{}~]", drawn(random, depth - 1)),
        7 => format!(
            "~:[{}~;{}~]",
            drawn(random, depth - 1),
            drawn(random, depth - 1)
        ),
        _ => {
            let opener = random.pick(&["~[", "~1[", "~#["]);
            let part = random.pick(&["~;", "~:;", "~:;"]);
            format!(
                "{opener}{}{part}{}~]",
                drawn(random, depth - 1),
                drawn(random, depth - 1)
            )
        }
    };
    (0..random.below(4)).map(piece).collect()
}

#[test]
fn no_table_is_refused() {
    let random = Random::new(17);
    let (mut accepted, mut reached) = (0, 0);
    while accepted < 1500 {
        let text = drawn(&random, 3);
        let kinds = next_kinds(&random);
        let longest = random.below(4);
        let vetted = vet(text.as_bytes(), &kinds, longest);
        let conditional = !conditionals(text.as_bytes()).is_empty();
        if vetted.code != 0 || !conditional || brute_tables(&kinds, longest) > 500 {
            continue;
        }
        let most = most_tried(&text, &kinds, longest);
        assert!(most <= vetted.count, "{text:?} {kinds:?} {longest}: {most}");
        accepted += 1;
        reached += usize::from(most == vetted.count);
    }
    println!("{reached} of {accepted} counts reached");
    assert!(reached > accepted / 2);
}

#[test]
fn conditionals_are_found() {
    let found = |text: &str| conditionals(text.as_bytes());
    assert_eq!(found("~a~~[~{x~}"), []);
    assert_eq!(found("~[a"), []);
    let expected = |tilde, depth, at, clauses, has_default| Conditional {
        tilde,
        depth,
        at,
        clauses,
        has_default,
    };
    assert_eq!(
        found("x~[~@[~]~:;~{~:[~;~]~}~]~0[~;~;~]"),
        [
            expected(1, 1, false, 2, true),
            expected(3, 2, true, 1, false),
            expected(13, 3, false, 2, false),
            expected(24, 1, false, 3, false),
        ]
    );
}
