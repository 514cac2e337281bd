//! Formats that try to be slow, in groups.

use super::{filled, Slowest, MOST, MOST_ARGUMENTS};
use crate::SEED;
use random::Random;
use reference::Value;

/// The longest format that is run without landmarks, and a little less than what lies between two of them.
const UNMARKED: usize = 208;
const NEAR: usize = 76;

pub const ONE: &[Value] = &[Value::Int(1)];
const ZERO: &[Value] = &[Value::Int(0)];
const NO: &[Value] = &[Value::Bool(false)];
const LEAST: &[Value] = &[Value::Int(i64::MIN)];
const EMPTY_STRING: &[Value] = &[Value::Str(Vec::new())];
const EMPTY_LIST: &[Value] = &[Value::List(Vec::new())];

pub const GROUPS: [fn(&mut Slowest); 11] = [
    skipped_items,
    ways_to_skip,
    far_clauses,
    many_blocks,
    lengths,
    unmarked,
    long_directives,
    short_directives,
    nests,
    long_pieces,
    vets,
];

fn list_of_one() -> [Value; 1] {
    [Value::List(ONE.to_vec())]
}

/// Arguments that each pick another clause of so many.
fn picks(clauses: usize) -> Vec<Value> {
    let random = Random::new(SEED);
    let pick = |_| Value::Int(random.below(clauses) as i64);
    (0..MOST_ARGUMENTS).map(pick).collect()
}

/// A clause that no pass runs, of each item that might be dear to read.
fn skipped_items(slowest: &mut Slowest) {
    for unit in [
        "x",
        "~a",
        "~ax",
        "~9a",
        "~:d",
        "~:@d",
        "~V:@d",
        "~-0d",
        "~@c",
        "~p",
        "~*",
        "~^",
        "~%",
        "~~",
        "~,'xd",
        "~,'~d",
        "~,,,'~a",
        "~1,1,1,'x@a",
        "~v,v,v,va",
        "~#,#,#,'xa",
        "~0000000000000000a",
        "~[~]",
        "~[~;~]",
        "~@[~]",
        "~:[~;~]",
        "~{x~}",
        "~v{~^~}",
        "~[~[~[~[~[~[~]~]~]~]~]~]",
        "~\n",
        "~:\n",
        "~@\n\t",
        "~\n        ",
    ] {
        slowest.fill("~@{~0[~;", unit, "~]~}", ONE);
    }
}

/// Each way to skip a clause or a body: by a parameter, by an argument, for want of one, or by ~^.
fn ways_to_skip(slowest: &mut Slowest) {
    let list = list_of_one();
    for unit in ["~a", "~[~]"] {
        for (before, after, arguments) in [
            ("~@{~1[", "~;~]~}", ONE),
            ("~@{~2[~;", "~:;~]~}", ONE),
            ("~@{~#[~;~;", "~]~}", ONE),
            ("~@{~[~;", "~]~:*~}", ZERO),
            ("~@{~v[~;", "~]~:*~}", ZERO),
            ("~@{~:[~;", "~]~:*~}", NO),
            ("~@{~:[", "~;~]~:*~}", ONE),
            ("~@{~@[", "~]~:*~}", NO),
            ("~@{~0@{", "~}~}", ONE),
            ("~@{~v@{", "~}~:*~}", ZERO),
            ("~@{~{", "~}~:*~}", EMPTY_LIST),
            ("~@{~0{", "~}~:*~}", &list),
            ("~@{~{~*~^", "~}~:*~}", &list),
            ("~@{~@{~*~^", "~}~:*~}", ONE),
            ("~@{~{~0[~*~^~]", "~}~:*~}", &list),
        ] {
            slowest.fill(before, unit, after, arguments);
        }
    }
}

/// As many clauses as there may be, of which a far one is chosen, another at each pass, or none.
fn far_clauses(slowest: &mut Slowest) {
    let (far, many) = ([Value::Int(1_999)], picks(2_000));
    for (before, after, arguments) in [
        ("~@{~0[", "~]~}", ONE),
        ("~@{~1000[", "~]~}", ONE),
        ("~@{~1999[", "~]~}", ONE),
        ("~@{~4096[", "~]~}", ONE),
        ("~@{~4096[", "~:;~]~}", ONE),
        ("~@{~[~;", "~]~:*~}", &far),
        ("~@{~[", "~]~:*~}", LEAST),
        ("~@{~[", "~:;~]~:*~}", LEAST),
        ("~@{~[", "~]~#[~0@*~]~}", &many),
        ("~@{~v[", "~]~#[~0@*~]~}", &many),
        ("~@{~#[", "~]~*~#[~0@*~]~}", &many),
    ] {
        slowest.fill(before, "~;", after, arguments);
    }
    for unit in [
        "x~;",
        "~a~;",
        "~,'~d~;",
        "~[~]~;",
        "~[~[~[~[~[~[~]~]~]~]~]~]~;",
    ] {
        slowest.fill("~@{~4096[", unit, "~]~}", ONE);
    }
    slowest.fill("~@{~[", "~;~0%", "~]~#[~0@*~]~}", &picks(800));
}

/// Blocks within blocks and beside others, so that it does not help to know only the first blocks of a text, or the last
/// that was met.
fn many_blocks(slowest: &mut Slowest) {
    for (opener, closer) in [("~0[~;", "~]"), ("~1[", "~;~]")] {
        let before = format!("~@{{{}", opener.repeat(7));
        let after = format!("{}~}}", closer.repeat(7));
        let (_, format) = filled(MOST, &before, "~a", &after);
        slowest.format(
            &format!("seven {opener} {closer} around ~a.."),
            &format,
            ONE,
        );
    }
    let ends = format!("~;{}~]", "~a".repeat(280)).repeat(7);
    let format = format!("~@{{{}{ends}~}}", "~0[".repeat(7));
    slowest.format("seven ~0[ with ~;~a..~] each", format.as_bytes(), ONE);
    for (times, items) in [(2, 1_000), (4, 500), (16, 120), (64, 28), (200, 6)] {
        let block = format!("~0[~;{}~]", "~a".repeat(items));
        let format = format!("~@{{{}~}}", block.repeat(times));
        let name = format!("{times} times ~0[~;~a..~] in a loop");
        slowest.format(&name, format.as_bytes(), ONE);
    }
    for (times, unit) in [
        (8, "~0[~]"),
        (64, "~0[~]"),
        (256, "~0[~]"),
        (400, "~0[~]"),
        (200, "~0@{x~}"),
        (255, "x"),
        (1_023, "x"),
    ] {
        let (name, format) = filled(MOST - times * unit.len(), "~@{~0[~;", "~a", "~]~}");
        let format = [unit.repeat(times).into_bytes(), format].concat();
        slowest.format(&format!("{times} times {unit}, then {name}"), &format, ONE);
    }
}

/// The same clause in formats of other lengths.
fn lengths(slowest: &mut Slowest) {
    for most in [202, 208, 214, 256, 512, 1_024, 2_048] {
        let (name, format) = filled(most, "~@{~0[~;", "~a", "~]~}");
        slowest.format(&format!("{name}, {most} bytes"), &format, ONE);
    }
}

/// What just falls short of a landmark, of items that are dear to read: a clause that fills the longest format without
/// any, and blocks whose clause is chosen nearly as far from their start, and from their end, as a landmark would be.
fn unmarked(slowest: &mut Slowest) {
    for unit in [
        "x",
        "~a",
        "~p",
        "~\n",
        "~@c",
        "~,9a",
        "~00a",
        "~-0d",
        "~1,1,1,'x@a",
        "~[~]",
        "~0{x~}",
    ] {
        let (name, format) = filled(UNMARKED, "~@{~0[~;", unit, "~]~}");
        slowest.format(&format!("{name}, {UNMARKED} bytes"), &format, ONE);
        let clause = format!("~;{unit}");
        let half = clause.repeat(NEAR / clause.len());
        let chosen = half.len() / clause.len() + 1;
        let block = format!("~{chosen}[{half}~;{half}~]");
        let times = 4_000 / block.len();
        let name = format!("{times} times ~{chosen}[{clause}..~;{clause}..~] in a loop");
        let format = format!("~@{{{}~}}", block.repeat(times));
        slowest.format(&name.replace('\n', "\\n"), format.as_bytes(), ONE);
    }
}

/// One directive as long as a format may be.
fn long_directives(slowest: &mut Slowest) {
    for (before, unit, after, arguments) in [
        ("~@{~", "0", "*~}", ONE),
        ("~@{~", "0", "@*~}", ONE),
        ("~@{~", "0", "%~}", ONE),
        ("~@{~-", "0", "_~}", ONE),
        ("~@{~", "0", "[~]~}", ONE),
        ("~@{~", "0", "@{x~}~}", ONE),
        ("~@{~", "0", "{x~}~:*~}", EMPTY_LIST),
        ("~@{~", "0", "a~:*~}", EMPTY_STRING),
        ("~@{~,", "0", "1a~:*~}", EMPTY_STRING),
        ("~@{~,1,", "0", ",'xa~:*~}", EMPTY_STRING),
        ("~@{~,,,", "0", "3:d~:*~}", ONE),
        ("~@{~0[~;~", "0", "a~]~}", ONE),
        ("~@{~4096[~", "0", "a~]~}", ONE),
        ("~@{~4096[~:;~", "0", "*~]~}", ONE),
        ("~@{~\n", " ", "~}", ONE),
        ("~@{~@\n", " ", "~}", ONE),
        ("~@{~0[~;~\n", " ", "~]~}", ONE),
        ("~@{~4096[~\n", " ", "~]~}", ONE),
    ] {
        slowest.fill(before, unit, after, arguments);
    }
}

/// Short directives that write little.
fn short_directives(slowest: &mut Slowest) {
    let list = list_of_one();
    let settings = [0, 1, 0].map(Value::Int).into_iter();
    let settings: Vec<Value> = settings
        .chain([Value::Char(b'x'), Value::Str(Vec::new())])
        .collect();
    for (unit, arguments) in [
        ("~d~:*", ONE),
        ("~0,'x,',,3:d~:*", ONE),
        ("~a~:*", EMPTY_STRING),
        ("~s~:*", EMPTY_STRING),
        ("~0,1,0,'xa~:*", EMPTY_STRING),
        ("~v,v,v,va~0@*", &settings),
        ("~:c~:*", &[Value::Char(0)]),
        ("~@c~:*", &[Value::Char(b'x')]),
        ("~p~:*", ONE),
        ("~0%", ONE),
        ("~#*~0@*", ONE),
        ("~^", ONE),
        ("~\n", ONE),
        ("~0[~]", ONE),
        ("~#[~]", ONE),
        ("~[~]~:*", ZERO),
        ("~:[~;~]~:*", NO),
        ("~@[~]", ONE),
        ("~@[~]~:*", NO),
        ("~0@{x~}", ONE),
        ("~1@{~^~}", ONE),
        ("~1@{~*~}~:*", ONE),
        ("~{x~}~:*", EMPTY_LIST),
        ("~{~*~}~:*", &list),
        ("~{~*~^~}~:*", &list),
    ] {
        slowest.fill("~@{", unit, "~}", arguments);
    }
}

/// As many blocks within one another as there may be, around next to nothing.
fn nests(slowest: &mut Slowest) {
    let lists = (0..7).fold(Value::Int(1), |inner, _| Value::List(vec![inner]));
    for (opener, inside, closer, arguments) in [
        ("~1@{", "~0%", "~}", ONE),
        ("~#@{", "~0%~^~*", "~}", ONE),
        ("~0[", "~0%", "~]", ONE),
        ("~@[", "~0%", "~]", ONE),
        ("~:[~;", "~0%", "~]~:*", &[const { Value::Bool(true) }; 7]),
        ("~{", "~*", "~}", &[lists]),
    ] {
        let format = format!(
            "~@{{{}{inside}{}~0@*~}}",
            opener.repeat(7),
            closer.repeat(7)
        );
        slowest.format(
            &format!("seven {opener} {closer} around {inside}"),
            format.as_bytes(),
            arguments,
        );
    }
}

/// Pieces that take long to make.
fn long_pieces(slowest: &mut Slowest) {
    let quotes = |length| [Value::Str(vec![b'"'; length])];
    for (unit, arguments) in [
        ("~b~:*", LEAST),
        ("~:b~:*", LEAST),
        ("~,,,1:b~:*", LEAST),
        ("~4096d~:*", LEAST),
        ("~4096,,,1:b~:*", LEAST),
        ("~4096,7,9s~:*", EMPTY_STRING),
        ("~20,1,0,'xs~:*", &quotes(3)),
        ("~s~:*", &quotes(65_536)),
    ] {
        slowest.fill("~@{", unit, "~}", arguments);
    }
}

fn vets(slowest: &mut Slowest) {
    for (unit, kind) in [
        ("x", 3),
        ("~a", 3),
        ("~s", 3),
        ("~9,9s", 3),
        ("~9,9s", 2),
        ("~,9a", 1),
        ("~99s", 3),
        ("~#,9s", 3),
        ("~d", 1),
        ("~:x", 1),
        ("~99,,,1:b", 1),
        ("~@c", 2),
        ("~0c", 3),
        ("~p", 3),
        ("~a~:@p", 3),
        ("~#%", 3),
        ("~\n", 3),
        ("~\n       ", 3),
        ("~0000000000000000%", 3),
        ("~*", 3),
        ("~{x~}", 3),
        ("~[~]", 1),
        ("~:[~;~]", 3),
        ("~@[~a~]", 0),
        ("~#[~;~;~;~:;~]", 3),
        ("~0[~0[~0[~0[~0[~0[~0[~0[~]~]~]~]~]~]~]~]", 3),
    ] {
        slowest.vet(unit, kind);
    }
}
