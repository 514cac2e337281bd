//! Request Eleven, sentence by sentence. What it says of "a state no call
//! gave" is not asked here: this formatter's states are its own.

mod common;
use common::*;
use random::{pieced, Random};
use reference::{encode, format, Answer, Value, Windows, MORE};

/// Code, position, steps and text.
type Told = (u32, usize, usize, String);

/// The answers of calls with windows of these sizes.
fn calls(text: &str, args: &[Value], windows: &[usize]) -> Vec<Told> {
    let table = encode(args);
    let mut line = Windows::new(text.as_bytes(), &table);
    let mut call = |&window: &usize| {
        let Answer {
            code,
            position,
            steps,
            text,
        } = line.call(window);
        (code, position, steps, String::from_utf8(text).unwrap())
    };
    windows.iter().map(&mut call).collect()
}

fn more(text: &str) -> Told {
    (MORE, 0, 0, text.to_string())
}

fn end(code: u32, position: usize, steps: usize, text: &str) -> Told {
    (code, position, steps, text.to_string())
}

/// Calls with windows of the same size until the end, all of them full but
/// for the last; their texts joined, with what the last one told.
fn joined(text: &[u8], table: &[u8], window: usize) -> Answer {
    let mut line = Windows::new(text, table);
    let mut whole = Vec::new();
    loop {
        let told = line.call(window);
        whole.extend_from_slice(&told.text);
        if told.code != MORE {
            return Answer {
                text: whole,
                ..told
            };
        }
        assert_eq!((told.position, told.steps, told.text.len()), (0, 0, window));
    }
}

/// "The line goes to a pipe and I have 512 bytes."
#[test]
fn windows_of_512_bytes() {
    let table = encode(&[string(&"a".repeat(700)), int(5)]);
    let mut line = Windows::new(b"<~a>~600d", &table);
    let told = line.call(512);
    assert_eq!((told.code, told.text.len()), (MORE, 512));
    assert_eq!(told.text[..3], *b"<aa");
    let told = line.call(512);
    assert_eq!((told.code, told.text.len()), (MORE, 512));
    assert_eq!(told.text[187..192], *b"aa>  ");
    let told = line.call(512);
    assert_eq!((told.code, told.steps, told.text.len()), (0, 4, 278));
    assert_eq!(told.text[275..], *b"  5");
}

/// "I lend a window of any size from 1 up, and lend it again to go on".
#[test]
fn any_size() {
    let args = [string("north"), int(-12), list(&ints(&[1, 2, 3]))];
    let text = "~8,,,'.a~:d~{ ~@d~^,~}~2%";
    let table = encode(&args);
    let whole = format(text.as_bytes(), &table, ROOM);
    assert_eq!(whole.text, b"north...-12 +1, +2, +3\n\n");
    for window in 1..=whole.text.len() + 2 {
        assert_eq!(joined(text.as_bytes(), &table, window), whole, "{window}");
    }
    assert_eq!(joined(text.as_bytes(), &table, usize::MAX), whole);
    // Each call may have another.
    assert_eq!(
        calls("abcdef", &[], &[1, 3, 1, 9]),
        [more("a"), more("bcd"), more("e"), end(0, 0, 6, "f")]
    );
}

/// "a call stops only at the end or where the next byte has no room"
#[test]
fn where_a_call_stops() {
    // A window that the last byte fills answers the end.
    assert_eq!(calls("abc", &[], &[3]), [end(0, 0, 3, "abc")]);
    assert_eq!(calls("abc", &[], &[2, 1]), [more("ab"), end(0, 0, 3, "c")]);
    // So does one with all that is left to do without a byte: empty pieces,
    // jumps, clauses and passes that write nothing, an escape.
    let args = [int(1), int(7), list(&ints(&[1, 2])), list(&[])];
    let silent = "x~p~0%~:*~*~\n  ~#[~:;~]~[y~]~{~*~}~{z~}~^q";
    assert_eq!(calls(silent, &args, &[1]), [end(0, 0, 15, "x")]);
    // A window with room left goes on to the end, too.
    assert_eq!(calls("abc", &[], &[4]), [end(0, 0, 3, "abc")]);
    // Nothing written at all.
    assert_eq!(calls("", &[], &[1]), [end(0, 0, 0, "")]);
    assert_eq!(calls("~0_~\n", &[], &[1]), [end(0, 0, 2, "")]);
    // A refusal after the byte that fills the window is the end.
    assert_eq!(calls("ab~d", &[], &[2]), [end(6, 2, 3, "ab")]);
    assert_eq!(
        calls("a~a~d", &[string(""), string("x")], &[1]),
        [end(7, 3, 3, "a")]
    );
    // So is the last step: a byte, an opener, 32,767 passes of two steps.
    assert_eq!(
        calls("a~@{~0%~}", &ints(&[1]), &[1]),
        [end(9, 1, 65_536, "a")]
    );
    // The next byte is asked for before the end is known.
    assert_eq!(calls("ab~d", &[], &[1, 1]), [more("a"), end(6, 2, 3, "b")]);
}

/// "then answering "more" and its bytes written"
#[test]
fn more_fills_its_window() {
    let told = calls("~10@a", &[string("wind")], &[3, 3, 3, 3]);
    assert_eq!(
        told,
        [more("   "), more("   "), more("win"), end(0, 0, 1, "d")]
    );
}

/// "its state keeps the open blocks, at most eight, with the place and list
/// of each"
#[test]
fn open_blocks() {
    // Two lists, four iterations over them and two conditionals.
    let text = "~{~1@{~:[~;~{~2@{~#[~:;~1@{~1@{<~d>~}~}~]~}~}~]~}~}.";
    let inner = list(&ints(&[4, 5, 6]));
    let args = [list(&[boolean(true), inner.clone(), int(7), inner])];
    let table = encode(&args);
    let whole = format(text.as_bytes(), &table, ROOM);
    assert_eq!(whole.text, b"<4><5><6><4><5><6>.");
    let mut line = Windows::new(text.as_bytes(), &table);
    for (at, &byte) in whole.text.iter().enumerate() {
        let told = line.call(1);
        assert_eq!(told.text, [byte]);
        let last = at + 1 == whole.text.len();
        assert_eq!(told.code, if last { 0 } else { MORE });
        let open = if last || whole.text[at + 1] == b'.' {
            0
        } else {
            8
        };
        assert_eq!(line.open_blocks(), open, "after byte {at}");
    }
    // The same block at another place, and on another list.
    assert_eq!(
        calls(
            "~{~{~d~^-~}~^;~}",
            &[list(&[list(&ints(&[1, 2])), list(&ints(&[3]))])],
            &[1, 1, 1, 1, 1]
        ),
        [
            more("1"),
            more("-"),
            more("2"),
            more(";"),
            end(0, 0, 18, "3")
        ]
    );
}

/// "Until the end is answered a window of 0 bytes changes nothing and answers
/// "more" with 0 bytes."
#[test]
fn no_window() {
    assert_eq!(
        calls("abc", &[], &[0, 0, 2, 0, 0, 2, 0]),
        [
            more(""),
            more(""),
            more("ab"),
            more(""),
            more(""),
            end(0, 0, 3, "c"),
            end(0, 0, 3, "")
        ]
    );
    // Inside a piece and inside a block.
    assert_eq!(
        calls("~@{~s~}", &[string("\"")], &[0, 2, 0, 1, 0, 1]),
        [
            more(""),
            more("\"\\"),
            more(""),
            more("\""),
            more(""),
            end(0, 0, 3, "\"")
        ]
    );
    // Also where nothing is to be written, and where all is wrong.
    for text in ["", "~0%", "~d", "~q", "~{", "~:a", &"x".repeat(4097)] {
        assert_eq!(calls(text, &[], &[0, 0]), [more(""), more("")]);
        let told = calls(text, &[], &[0, 1]);
        assert_eq!(told[1], calls(text, &[], &[1])[0]);
        assert!(told[1].0 != MORE && told[1].3.is_empty());
    }
    let mut line = Windows::new(b"abc", b"no table");
    assert_eq!((line.call(0).code, line.call(1).code), (MORE, 1));
}

/// "A call after the end repeats code, position and steps and writes nothing."
#[test]
fn after_the_end() {
    let ends = [
        ("ab", end(0, 0, 2, "ab")),
        (&"x".repeat(4097), end(2, 4096, 0, "")),
        ("ab~q", end(3, 2, 0, "")),
        ("ab~]", end(4, 2, 0, "")),
        ("ab~:a", end(5, 2, 0, "")),
        ("ab~d~d", end(6, 4, 4, "ab7")),
        ("ab~c", end(7, 2, 3, "ab")),
        ("ab~d~,#a", end(8, 4, 4, "ab7")),
        ("~@{~0_~}", end(9, 3, 65_536, "")),
    ];
    for (text, last) in ends {
        let told = calls(text, &ints(&[7]), &[9, 0, 1, 9, usize::MAX]);
        assert_eq!(told[0], last, "{text}");
        let repeated = end(last.0, last.1, last.2, "");
        assert!(told[1..].iter().all(|told| *told == repeated), "{text}");
    }
    let mut line = Windows::new(b"ab", &[0; 7]);
    for window in [3, 0, 1] {
        let told = line.call(window);
        let refused = (told.code, told.position, told.steps, told.text.len());
        assert_eq!(refused, (1, 0, 0, 0));
    }
}

/// "Pieces may be cut at a window's end, so code 10 isn't given here."
#[test]
fn pieces_are_cut_anywhere() {
    let pieces = [
        ("~9,3,2,'*a", string("ab"), "ab********"),
        ("~9,3,2,'*@a", string("ab"), "********ab"),
        ("~s", string("a\"\\"), "\"a\\\"\\\\\""),
        ("~6@s", character(127), "#\\delete"),
        ("~12,'0,'.,2:@d", int(12_345), "0000+1.23.45"),
        ("~x", int(i64::MIN), "-8000000000000000"),
        ("~:c", character(10), "^J"),
        ("~@p", int(2), "ies"),
        ("~*~4~", int(0), "~~~~"),
    ];
    for (text, arg, piece) in pieces {
        let steps = text.matches('~').count() - usize::from(text.ends_with("4~"));
        let args = [arg];
        for cut in 1..piece.len() {
            let told = calls(text, &args, &[cut, piece.len() - cut]);
            let whole = [more(&piece[..cut]), end(0, 0, steps, &piece[cut..])];
            assert_eq!(told, whole, "{text} cut at {cut}");
        }
    }
}

/// "The windows joined, the code, position and steps equal one call with a
/// buffer that is large enough; where that call is refused, the joined windows
/// equal its kept output."
#[test]
fn joined_as_one_call() {
    let random = Random::new(11);
    let mut seen = [0; 11];
    let (mut cut, mut deepest) = (0, 0);
    for _ in 0..150_000 {
        let deep = random.once_in(4);
        let text = if deep {
            nested(&random, 8)
        } else {
            pieced(&random)
        };
        let table = encode(&arguments(&random));
        let size = random.pick(&[1, 2, 3, 7, 64, 512]);
        let met = |line: &Windows| {
            cut += usize::from(line.in_a_piece());
            deepest = line.open_blocks().max(deepest);
        };
        seen[as_one_call(&text, &table, size, met)] += 1;
    }
    assert!(cut > 1000 && deepest == 8, "{cut} cut, {deepest} deep");
    for code in [0, 3, 4, 5, 6, 7, 8, 9] {
        assert!(seen[code] > 20, "code {code}: {}", seen[code]);
    }
    assert_eq!(seen[10], 0);
}

/// The code of a line that is dealt out in windows just as the text of one
/// call would be.
fn as_one_call(text: &str, table: &[u8], size: usize, mut met: impl FnMut(&Windows)) -> usize {
    let whole = format(text.as_bytes(), table, usize::MAX);
    let end = (whole.code, whole.position, whole.steps);
    let mut line = Windows::new(text.as_bytes(), table);
    let mut given = 0;
    loop {
        // Long lines would take many windows of a byte.
        let size = if given > 200 { size + given } else { size };
        let told = line.call(size);
        met(&line);
        let rest = &whole.text[given..];
        assert_eq!(told.text, rest[..size.min(rest.len())], "{text:?}");
        given += told.text.len();
        let told = (told.code, told.position, told.steps);
        // "a call stops only at the end or where the next byte has no room"
        if rest.len() <= size {
            assert_eq!(told, end, "{text:?}");
            return whole.code as usize;
        }
        assert_eq!(told, (MORE, 0, 0), "{text:?}");
    }
}

/// Blocks that close, up to so many deep.
fn nested(random: &Random, levels: usize) -> String {
    let (opens, closes) = random.pick(&[
        ("~{", "~}"),
        ("~@{", "~^~a~}"),
        ("~1@{", "~}"),
        ("~:[no~;", "~]"),
        ("~@[", "~]"),
        ("~#[a~:;", "~]"),
    ]);
    let before = random.pick(&["", "x", "~a", "~5s"]);
    let within = if levels == 1 {
        random.pick(&["~a", "~7,'.@d", "~a~^, ", "~vs"]).to_string()
    } else {
        nested(random, levels - 1)
    };
    format!("{opens}{before}{within}{closes}")
}

fn arguments(random: &Random) -> Vec<Value> {
    let value = |_: usize| match random.below(5) {
        0 => int(random.below(6) as i64 - 1),
        1 => string(random.pick(&["", "ab", "\"q\\"])),
        2 => boolean(random.once_in(3)),
        3 => Value::List(ints(&[1, 2, 3])),
        _ => list(&[list(&ints(&[4, 5])), string("x"), list(&[])]),
    };
    (0..random.below(6)).map(value).collect()
}
