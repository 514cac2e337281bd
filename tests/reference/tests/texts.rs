//! What each directive writes, and the steps it takes.

mod common;
use common::*;
use reference::{encode, format, Value};

#[test]
fn display_and_write() {
    gives("~a~s", &[boolean(true), boolean(false)], "#t#f");
    gives("~a~s", &ints(&[-5, 0]), "-50");
    gives("~a", &ints(&[i64::MIN]), "-9223372036854775808");
    gives("~s", &ints(&[i64::MAX]), "9223372036854775807");
    gives("~a~s", &[character(b'x'), character(b'x')], "x#\\x");
    gives("~s", &[character(9)], "#\\tab");
    gives("~a", &[string("a\"\\b")], "a\"\\b");
    gives("~s", &[string("a\"\\b\n")], "\"a\\\"\\\\b\n\"");
    gives("~s", &[string("")], "\"\"");
    gives("~A~S", &[string("p"), string("q")], "p\"q\"");
}

#[test]
fn padding() {
    gives("[~10,4a]", &[string("abc")], "[abc        ]");
    gives("[~10,4@a]", &[string("abc")], "[        abc]");
    gives("[~10,4,1a]", &[string("abc")], "[abc         ]");
    gives("[~0,4,2a]", &[string("abc")], "[abc  ]");
    gives("[~3,4a]", &[string("abc")], "[abc]");
    gives("[~4,4a]", &[string("abc")], "[abc    ]");
    gives("[~,,1a]", &[string("abc")], "[abc ]");
    gives("[~7,,,'*s]", &[string("abc")], "[\"abc\"**]");
    gives(
        "[~v,v,v,va]",
        &[int(4), int(3), int(1), character(b'-'), string("a")],
        "[a----]",
    );
    gives("[~#a]", &[string("a"), int(2), int(3)], "[a  ]");
    gives("[~v,#a]", &[int(6), string("abc"), int(1)], "[abc    ]");
    let answer = format(b"~3,,,'\xffa", &encode(&[string("a")]), 9);
    assert_eq!(answer.text, b"a\xff\xff");
}

#[test]
fn integers() {
    gives("~d ~x ~o ~b", &ints(&[255, 255, 255, 5]), "255 ff 377 101");
    gives("~X", &ints(&[255]), "ff");
    gives("~d", &ints(&[0]), "0");
    gives("~x", &ints(&[i64::MIN]), "-8000000000000000");
    gives("~o", &ints(&[i64::MIN]), "-1000000000000000000000");
    gives("~b", &ints(&[i64::MIN]), &format!("-1{}", "0".repeat(63)));
    gives("~:d", &ints(&[i64::MIN]), "-9,223,372,036,854,775,808");
    gives("~@d ~@d ~@d", &ints(&[1, 0, -1]), "+1 0 -1");
    gives("~:@d", &ints(&[1234]), "+1,234");
    gives("~@:d", &ints(&[-123]), "-123");
    gives("~:d~:d", &ints(&[100, 1000]), "1001,000");
    gives("~8,'*d", &ints(&[-12]), "*****-12");
    gives("~8,'0:@d", &ints(&[1234]), "00+1,234");
    gives("~,,'.,1:x", &ints(&[0xabc]), "a.b.c");
    gives("~,,'.,4:b", &ints(&[0x5a]), "101.1010");
    gives("~,,'.,4096:d", &ints(&[123456]), "123456");
    // Without the colon comma parameters are still worked out.
    gives("~,,v,vd", &[character(b'.'), int(1), int(123)], "123");
}

#[test]
fn characters() {
    gives("~c", &[character(0)], "\0");
    let mut careted = String::new();
    for c in 0..128u8 {
        let expected = if c < 32 {
            format!("^{}", char::from(c + 64))
        } else {
            char::from(c).to_string()
        };
        gives("~:c", &[character(c)], &expected);
        gives(&format!("~{c}:c"), &[], &expected);
        gives("~v:c", &ints(&[i64::from(c)]), &expected);
        careted += &expected;
    }
    assert_eq!(careted.len(), 32 * 2 + 96);
    let names = [
        (0, "null"),
        (1, "x1"),
        (7, "alarm"),
        (8, "backspace"),
        (9, "tab"),
        (10, "newline"),
        (11, "xb"),
        (13, "return"),
        (15, "xf"),
        (16, "x10"),
        (27, "escape"),
        (31, "x1f"),
        (32, "space"),
        (33, "!"),
        (34, "\""),
        (92, "\\"),
        (126, "~"),
        (127, "delete"),
    ];
    for (c, name) in names {
        gives("~@c", &[character(c)], &format!("#\\{name}"));
        gives("~s", &[character(c)], &format!("#\\{name}"));
        gives(&format!("~{c}@c"), &[], &format!("#\\{name}"));
    }
    // Charnum takes no argument.
    gives("~65c~d", &ints(&[5]), "A5");
    gives("~#c", &[], "\0");
}

#[test]
fn plurals() {
    gives(
        "~p~p~p~p~p",
        &[
            int(0),
            boolean(true),
            character(1),
            string("1"),
            list(&ints(&[1])),
        ],
        "sssss",
    );
    gives("~p~@p~p~@p", &ints(&[1, 1, -1, -1]), "ysies");
    gives("~a~:p~:@p~:p", &ints(&[1]), "1y");
    gives("~p~:p", &ints(&[2]), "ss");
}

#[test]
fn jumps() {
    gives("~*~d", &ints(&[1, 2]), "2");
    gives("~0*~d", &ints(&[1, 2]), "1");
    gives("~2*", &ints(&[1, 2]), "");
    gives("~2@*", &ints(&[1, 2]), "");
    gives("~d~d~2:*~d", &ints(&[1, 2]), "121");
    gives("~d~@*~d", &ints(&[1, 2]), "11");
    gives("~v*~d", &ints(&[1, 2, 3]), "3");
    gives("~v:*~d", &ints(&[1]), "1");
    gives("~#@*", &ints(&[1, 2, 3]), "");
}

#[test]
fn repeats() {
    gives("~~~%~_~|~/", &[], "~\n \u{c}\t");
    gives(
        "~2~~3%~4_~5|~6/",
        &[],
        "~~\n\n\n    \u{c}\u{c}\u{c}\u{c}\u{c}\t\t\t\t\t\t",
    );
    gives("a~0%b", &[], "ab");
    gives("~#~", &ints(&[1, 2, 3]), "~~~");
}

#[test]
fn continuation_lines() {
    gives_in("a~\n \t\n\u{b}\u{c}\r b", &[], "ab", 3);
    gives_in("a~:\n  b", &[], "a  b", 5);
    gives_in("a~@\n  b", &[], "a\nb", 3);
    gives_in("~\n", &[], "", 1);
    gives_in("~\n   ~d", &ints(&[1]), "1", 2);
    // Bytes 8 and 14 are not skipped.
    gives_in("~\n\u{8}", &[], "\u{8}", 2);
    gives_in("~\n\u{e}", &[], "\u{e}", 2);
    // Skipped bytes may be all that stands before a closer.
    gives_in("~[~\n  ~;b~]", &ints(&[0]), "", 2);
    gives_in("~@{~\n ~d~}", &ints(&[1, 2]), "12", 7);
}

#[test]
fn conditionals() {
    for (n, text) in [
        (-1, "z"),
        (0, "a"),
        (1, "b"),
        (2, "z"),
        (3, "z"),
        (i64::MIN, "z"),
        (i64::MAX, "z"),
    ] {
        gives("~[a~;b~:;z~]", &ints(&[n]), text);
    }
    for (n, text) in [(-1, ""), (0, "a"), (1, "b"), (2, ""), (i64::MAX, "")] {
        gives("~[a~;b~]", &ints(&[n]), text);
    }
    gives("~[~]", &ints(&[0]), "");
    gives("~[~:;z~]", &ints(&[0]), "");
    gives("~[~:;z~]", &ints(&[7]), "z");
    gives("~v[a~;b~]", &ints(&[1]), "b");
    gives("~#[none~;one~;two~:;many~]", &[], "none");
    gives("~#[none~;one~;two~:;many~]", &ints(&[1, 1, 1, 1]), "many");
    gives(
        "~:[f~;t~]~:[f~;t~]~:[f~;t~]~:[f~;t~]",
        &[boolean(true), int(0), string(""), list(&[])],
        "tttt",
    );
    gives("~@[~a~]~a", &[boolean(false), int(2)], "2");
    gives("~@[<~a>~]~a", &[boolean(true), int(2)], "<#t>2");
    gives("~@[x~]~a", &ints(&[0]), "x0");
    gives("~@[x~]~p", &[list(&[])], "xs");
    gives_in("~[ab~;c~]", &ints(&[1]), "c", 2);
    gives_in("~[ab~;c~]", &ints(&[5]), "", 1);
}

#[test]
fn iterations() {
    gives_in("~{~d~}", &[list(&[])], "", 1);
    gives_in("~@{~d~}", &[], "", 1);
    gives_in("~0{~d~}~d", &[list(&ints(&[1])), int(7)], "7", 2);
    gives_in("~0@{~d~}~d", &ints(&[1]), "1", 2);
    gives("~1@{~d~},~d", &ints(&[1, 2]), "1,2");
    gives("~v{~d~}", &[int(2), list(&ints(&[1, 2, 3]))], "12");
    gives("~#{~d~}", &[list(&ints(&[1, 2, 3])), int(0)], "12");
    gives("~v@{~d~}~d", &ints(&[1, 2, 3]), "23");
    // Jumps and `#` inside see only the list.
    gives(
        "~d~{~d~#_~1@*~d~}~d",
        &[int(9), list(&ints(&[1, 2])), int(8)],
        "91 28",
    );
    gives("~{~a~:*~a~}", &[list(&ints(&[1, 2]))], "1122");
    // Under `~@{` all the current arguments.
    gives("~d~1@{~@*~d~d~#_~}~d", &ints(&[1, 2, 3]), "112 3");
    gives("~d~@{~:*~d~d~}", &ints(&[1, 2]), "112");
    // A list's first entry is added to the position.
    let nested = list(&[int(1), list(&ints(&[2, 3])), int(4)]);
    gives("~{~d~{<~d>~}~d~}~d", &[nested, int(5)], "1<2><3>45");
    // `~@{` in a `~{` runs over that list.
    gives(
        "~{~d:~@{~d,~}~}~d",
        &[list(&ints(&[1, 2, 3])), int(9)],
        "1:2,3,9",
    );
}

#[test]
fn escapes() {
    gives_in("a~^b", &[], "a", 2);
    gives_in("a~^b", &ints(&[1]), "ab", 3);
    gives("~@{~d~^,~}.", &ints(&[1, 2, 3]), "1,2,3.");
    // Through a conditional, out of the iteration.
    gives("~{~[a~^b~;c~]~}.", &[list(&ints(&[0, 1, 0]))], "abca.");
    gives("~[a~^b~;c~]d", &ints(&[0]), "a");
    // Only the innermost iteration.
    gives(
        "~{<~{~d~^,~}>~}.",
        &[list(&[list(&ints(&[1, 2])), list(&ints(&[3]))])],
        "<1,2><3>.",
    );
    // It ends the iteration even where a jump back would follow.
    gives("~{~d~^~:*~*~}.", &[list(&ints(&[1, 2]))], "12.");
    gives_in("~1{~^x~}", &[list(&ints(&[1]))], "x", 4);
}

#[test]
fn steps() {
    gives_in("", &[], "", 0);
    gives_in("abc", &[], "abc", 3);
    gives_in(
        "~{~[a~;b~]~}",
        &[list(&ints(&[0, 1, 2]))],
        "ab",
        1 + 3 * 2 + 2,
    );
    gives_in("~5_", &[], "     ", 1);
    gives_in("~d", &ints(&[1, 2, 3]), "1", 1);
}

#[test]
fn shared_and_unused_pool_bytes() {
    // Two overlapping strings in a pool with an unused byte.
    let mut table = encode(&[string("abc"), string("xyz")]);
    table[20 + 4..20 + 12].copy_from_slice(&[0, 0, 0, 1, 0, 0, 0, 2]);
    assert_eq!(format(b"~a~a", &table, 9).text, b"abcbc");
    let last = table.len() - 1;
    table[last] = 0;
    assert_eq!(format(b"~a~a", &table, 9).text, b"abcbc");
}

#[test]
fn a_list_of_arguments() {
    // A list may stand over later arguments themselves.
    let mut table = encode(&[Value::List(vec![]), int(1), int(2)]);
    table[8 + 4..8 + 12].copy_from_slice(&[0, 0, 0, 1, 0, 0, 0, 2]);
    assert_eq!(format(b"~{~d~}~d~d", &table, 9).text, b"1212");
}
