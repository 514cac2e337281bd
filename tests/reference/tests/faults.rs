//! Codes 1 to 5, on both sides of each rule.

mod common;
use common::*;
use reference::{check_format, check_table, encode, entry, format, table_of, Answer, Value, ENTRY};

// ---- code 1 -------------------------------------------------------------

/// With a pool of so many bytes.
fn table(n: u16, m: u16, pool: u32, entries: &[[u8; ENTRY]], pool_bytes: usize) -> Vec<u8> {
    table_of(n, m, pool, entries, &vec![b'p'; pool_bytes])
}

fn entry_ok(bytes: [u8; ENTRY]) -> bool {
    // As entry 1 of 3, with a pool of 5 bytes.
    let fill = entry(0, 0, 0);
    match check_table(&table(3, 2, 5, &[fill, bytes, fill], 5)) {
        Ok(()) => true,
        Err(position) => {
            assert_eq!(position, 20);
            false
        }
    }
}

#[test]
fn table_header() {
    let t = entry(0, 0, 1);
    assert_eq!(check_table(&[]), Err(0));
    assert_eq!(check_table(&[0; 7]), Err(0));
    assert_eq!(check_table(&[0; 8]), Ok(()));
    assert_eq!(check_table(&[0; 9]), Err(4));
    assert_eq!(check_table(&table(1, 1, 0, &[t], 0)), Ok(()));
    assert_eq!(check_table(&table(1, 0, 0, &[t], 0)), Ok(()));
    assert_eq!(check_table(&table(1, 2, 0, &[t], 0)), Err(2));
    assert_eq!(check_table(&table(1024, 1024, 0, &[t; 1024], 0)), Ok(()));
    assert_eq!(check_table(&table(1025, 0, 0, &[t; 1025], 0)), Err(0));
    assert_eq!(check_table(&table(0, 0, 65_536, &[], 65_536)), Ok(()));
    assert_eq!(check_table(&table(0, 0, 65_537, &[], 65_537)), Err(4));
    assert_eq!(check_table(&table(1, 1, 2, &[t], 1)), Err(4));
    assert_eq!(check_table(&table(1, 1, 2, &[t], 3)), Err(4));
}

#[test]
fn table_header_order() {
    // n before m, m before pool, the header before the entries.
    assert_eq!(check_table(&table(1025, 1026, 65_537, &[], 0)), Err(0));
    assert_eq!(check_table(&table(1, 2, 65_537, &[], 0)), Err(2));
    assert_eq!(check_table(&table(1, 1, 1, &[entry(9, 0, 0)], 0)), Err(4));
    let bad = entry(9, 0, 0);
    assert_eq!(
        check_table(&table(2, 0, 0, &[entry(0, 0, 0), bad], 0)),
        Err(20)
    );
    assert_eq!(check_table(&table(2, 0, 0, &[bad, bad], 0)), Err(8));
}

#[test]
fn table_entries() {
    assert!(entry_ok(entry(0, 0, 0)) && entry_ok(entry(0, 0, 1)));
    assert!(!entry_ok(entry(0, 0, 2)) && !entry_ok(entry(0, 1, 0)));
    assert!(entry_ok(entry(1, u32::MAX, u32::MAX)) && entry_ok(entry(1, 1 << 31, 0)));
    assert!(entry_ok(entry(2, 0, 127)) && !entry_ok(entry(2, 0, 128)) && !entry_ok(entry(2, 1, 0)));
    assert!(entry_ok(entry(3, 0, 5)) && entry_ok(entry(3, 5, 0)) && entry_ok(entry(3, 2, 3)));
    assert!(!entry_ok(entry(3, 0, 6)) && !entry_ok(entry(3, 6, 0)) && !entry_ok(entry(3, 2, 4)));
    assert!(!entry_ok(entry(3, u32::MAX, 1)) && !entry_ok(entry(3, 1, u32::MAX)));
    assert!(entry_ok(entry(4, 2, 0)) && entry_ok(entry(4, 2, 1)) && entry_ok(entry(4, 3, 0)));
    assert!(!entry_ok(entry(4, 1, 0)) && !entry_ok(entry(4, 0, 0)) && !entry_ok(entry(4, 1, 1)));
    assert!(!entry_ok(entry(4, 2, 2)) && !entry_ok(entry(4, 4, 0)) && !entry_ok(entry(4, 3, 1)));
    assert!(!entry_ok(entry(4, 3, u32::MAX)) && !entry_ok(entry(4, u32::MAX, 2)));
    assert!(!entry_ok(entry(5, 0, 0)) && !entry_ok(entry(255, 0, 0)));
    for i in 1..4 {
        let mut bytes = entry(1, 0, 0);
        bytes[i] = 1;
        assert!(!entry_ok(bytes));
    }
}

#[test]
fn table_before_format() {
    let answer = format(b"~q", &[0; 7], 9);
    assert_eq!(
        answer,
        Answer {
            code: 1,
            position: 0,
            steps: 0,
            text: vec![]
        }
    );
    let answer = format(&[b'x'; 5000], &[0; 9], 9);
    assert_eq!((answer.code, answer.position), (1, 4));
}

// ---- code 2 -------------------------------------------------------------

#[test]
fn format_length() {
    assert_eq!(check_format(&[b'x'; 4096]), Ok(()));
    assert_eq!(check_format(&[b'x'; 4097]), Err((2, 4096)));
    let mut text = b"~q".to_vec();
    text.extend([b'x'; 4095]);
    assert_eq!(check_format(&text), Err((2, 4096)));
    let answer = format(&text, &encode(&[]), 9);
    assert_eq!((answer.code, answer.position, answer.steps), (2, 4096, 0));
}

// ---- code 3 -------------------------------------------------------------

#[test]
fn every_code_byte() {
    let known = b"aAsSdDxXoObBcCpP*~%_|/\n;]}^[{";
    for code in 0..=255u8 {
        let text = [b'x', b'~', code];
        let result = check_format(&text);
        match code {
            b';' | b']' | b'}' | b'[' | b'{' => assert_eq!(result, Err((4, 1)), "{code}"),
            // A sign without digits comes before the end of the format.
            b'+' | b'-' => assert_eq!(result, Err((5, 1)), "{code}"),
            _ if known.contains(&code) => assert_eq!(result, Ok(()), "{code}"),
            _ => assert_eq!(result, Err((3, 1)), "{code}"),
        }
    }
}

#[test]
fn shapes_that_make_the_code_unknown() {
    for text in [
        "~::d", "~5'xd", "~@@d", "~:@:d", "~:5d", "~:,d", "~5-d", "~vvd", "~##d", "~'xyd", "~5vd",
        "~ d", "~:'d", "~',5000",
    ] {
        faulty(text, 3, 0);
    }
    for text in [
        "~:@d",
        "~@:d",
        "~,',,d",
        "~,'~d",
        "~5,'xd",
        "~v,v,v,vd",
        "~#,v,'x,#d",
        "~V,Va",
        "~+5,+1,-0a",
        "~00005d",
    ] {
        sound(text);
    }
}

#[test]
fn a_format_that_ends_inside_a_directive() {
    for text in [
        "ab~", "ab~5", "ab~5,", "ab~:", "ab~:@", "ab~'", "ab~5,'", "ab~v", "ab~#", "ab~,,",
    ] {
        faulty(text, 3, 2);
    }
    faulty("~{~", 3, 2);
}

// ---- bad numbers, at once -------------------------------------------------

#[test]
fn bad_numbers_come_at_once() {
    for text in [
        "~+d",
        "~-d",
        "~5000",
        "~+",
        "~-",
        "~4097q",
        "~-1q",
        "~-5d",
        "~+-5d",
        "~5,-d",
        "~99999999999999999999d",
        "~5000,'",
        "~4097]",
        "~-;",
    ] {
        faulty(text, 5, 0);
    }
    for text in ["~4096a", "~-0a", "~+0a", "~+4096a", "~-000a", "~0004096a"] {
        sound(text);
    }
    // The code is 3 where the bad place comes before the bad number.
    faulty("~:5000d", 3, 0);
}

// ---- code 4 -------------------------------------------------------------

#[test]
fn unclosed_blocks() {
    faulty("a~[", 4, 1);
    faulty("a~[~{x", 4, 3);
    faulty("a~[~{x~}", 4, 1);
    faulty("a~[b~;", 4, 1);
    faulty("~{", 4, 0);
    // Met at the end, so a later fault comes first.
    faulty("~{x~q", 3, 3);
    faulty("~{x~0,0a", 5, 3);
}

#[test]
fn closers() {
    faulty("a~]", 4, 1);
    faulty("a~}", 4, 1);
    faulty("~[a~}", 4, 3);
    faulty("~{a~]", 4, 3);
    faulty("~{~]", 4, 2);
    faulty("~:[a~}", 4, 4);
    faulty("~{~[a~}~]", 4, 5);
    sound("~{~[a~]~}");
    sound("~[~{a~}~]");
}

#[test]
fn separators() {
    faulty("a~;b", 4, 1);
    faulty("a~:;b", 4, 1);
    faulty("~{a~;b~}", 4, 3);
    faulty("~[~{a~;b~}~]", 4, 5);
    faulty("~[a~:;b~;c~]", 4, 7);
    faulty("~[a~:;b~:;c~]", 4, 7);
    faulty("~:[a~:;b~]", 4, 4);
    faulty("~@[a~:;b~]", 4, 4);
    sound("~[a~;b~:;c~]");
    sound("~[~:;~]");
    sound("~[a~:;~[b~;c~:;d~]~]");
    sound("~[~[b~:;d~]~;e~:;f~]");
}

#[test]
fn clause_counts() {
    faulty("x~:[a~]", 4, 1);
    faulty("x~:[a~;b~;c~]", 4, 1);
    faulty("x~@[a~;b~]", 4, 1);
    sound("x~:[a~;b~]");
    sound("x~:[~;~]");
    sound("x~@[a~]");
    sound("x~@[~]");
    sound("x~[~]");
    // Met at the closer, so a fault within comes first.
    faulty("~@[a~;b~q~]", 3, 7);
    faulty("~@[a~;b", 4, 0);
    // And before a later one.
    faulty("~@[a~;b~]~q", 4, 0);
}

#[test]
fn empty_bodies() {
    faulty("x~{~}", 4, 1);
    faulty("x~@{~}", 4, 1);
    faulty("x~2@{~}", 4, 1);
    sound("~{ ~}");
    sound("~{~\n~}");
    faulty("~{~[~]~{~}~}", 4, 6);
}

#[test]
fn levels() {
    let nest = |depth: usize| "~[".repeat(depth) + &"~]".repeat(depth);
    sound(&nest(8));
    faulty(&nest(9), 4, 16);
    let nest = |depth: usize| "~{".repeat(depth) + "x" + &"~}".repeat(depth);
    sound(&nest(8));
    faulty(&nest(9), 4, 16);
    // One after the other is no depth.
    sound(&"~[~]".repeat(100));
    // 4 before 5 in the ninth opener; the bad number comes before either.
    faulty(&("~[".repeat(8) + "~:@["), 4, 16);
    faulty(&("~[".repeat(8) + "~-1["), 5, 16);
    faulty(&("~[".repeat(8) + "~:@a"), 5, 16);
}

#[test]
fn block_faults_before_shape_faults() {
    faulty("~{~5}", 4, 0);
    faulty("~{x~5}", 5, 3);
    faulty("~:[a~5]", 4, 0);
    faulty("~:[a~;b~5]", 5, 7);
    faulty("~5]", 4, 0);
    faulty("~@;", 4, 0);
    faulty("~[a~@;b~]", 5, 3);
    faulty("~[a~5;b~]", 5, 3);
    faulty("~[a~:;b~@;c~]", 4, 7);
    faulty("~:[a~:@;b~]", 4, 4);
    faulty("~[a~:@;b~]", 5, 3);
    // The opener's shape is seen before its end is missed.
    faulty("~:{x", 5, 0);
    faulty("~:@[", 5, 0);
    faulty("~5:[~]", 5, 0);
}

// ---- code 5 -------------------------------------------------------------

#[test]
fn modifiers() {
    let (none, colon, at, both) = (1, 2, 4, 8);
    let any = none | colon | at | both;
    let cases: &[(&str, &str, u32)] = &[
        ("a", "", none | at),
        ("s", "", none | at),
        ("d", "", any),
        ("x", "", any),
        ("o", "", any),
        ("b", "", any),
        ("c", "", none | colon | at),
        ("*", "", none | colon | at),
        ("~", "", none),
        ("%", "", none),
        ("_", "", none),
        ("|", "", none),
        ("/", "", none),
        ("p", "", any),
        ("\n", "", none | colon | at),
        ("{", "x~}", none | at),
        ("^", "", none),
    ];
    for &(code, rest, allowed) in cases {
        for (written, bit) in [
            ("", none),
            (":", colon),
            ("@", at),
            (":@", both),
            ("@:", both),
        ] {
            let text = format!("~{written}{code}{rest}");
            if allowed & bit != 0 {
                sound(&text)
            } else {
                faulty(&text, 5, 0)
            }
        }
    }
    for (text, position) in [
        ("~[~:]", 2),
        ("~[~@]", 2),
        ("~{x~:}", 3),
        ("~{x~@}", 3),
        ("~[~@;~]", 2),
        ("~:@[~;~]", 0),
    ] {
        faulty(text, 5, position);
    }
}

#[test]
fn parameter_counts() {
    for (text, places) in [
        ("a", 4),
        ("s", 4),
        ("d", 4),
        ("x", 4),
        ("o", 4),
        ("b", 4),
        ("c", 1),
        ("*", 1),
        (":*", 1),
        ("@*", 1),
        ("~", 1),
        ("%", 1),
        ("_", 1),
        ("|", 1),
        ("/", 1),
        ("[~]", 1),
        ("{x~}", 1),
        ("@{x~}", 1),
        ("p", 0),
        ("\n", 0),
        ("^", 0),
        (":[~;~]", 0),
        ("@[~]", 0),
    ] {
        for count in 1..=6 {
            let empties = format!("~{}{text}", ",".repeat(count - 1));
            let vs = format!("~{}{text}", vec!["v"; count].join(","));
            if count <= places || count == 1 {
                sound(&empties)
            } else {
                faulty(&empties, 5, 0)
            }
            if count <= places {
                sound(&vs)
            } else {
                faulty(&vs, 5, 0)
            }
        }
    }
    faulty("~[~,;~]", 5, 2);
    faulty("~[~0]", 5, 2);
    faulty("~{x~#}", 5, 3);
}

#[test]
fn parameter_kinds() {
    // Number places take no byte, character places no number and no `#`.
    let number_places = [
        "~_a", "~,_a", "~,,_a", "~_d", "~,,,_d", "~_c", "~_*", "~_%", "~_[~]", "~_{x~}",
    ];
    for text in number_places {
        sound(&text.replace('_', "1"));
        sound(&text.replace('_', "#"));
        sound(&text.replace('_', "v"));
        faulty(&text.replace('_', "'x"), 5, 0);
    }
    for text in ["~,,,_a", "~,_d", "~,,_d", "~,,,_s", "~,_x"] {
        sound(&text.replace('_', "'x"));
        sound(&text.replace('_', "v"));
        sound(&text.replace('_', "V"));
        faulty(&text.replace('_', "1"), 5, 0);
        faulty(&text.replace('_', "#"), 5, 0);
    }
}

#[test]
fn literal_ranges() {
    faulty("~5,0a", 5, 0);
    faulty("~5,-0s", 5, 0);
    sound("~5,1a");
    faulty("~,,,0d", 5, 0);
    faulty("~,,,0:d", 5, 0);
    sound("~,,,1d");
    sound("~127c");
    faulty("~128c", 5, 0);
    sound("~0c");
    sound("~0,4096,0a");
    sound("~0%");
    sound("~0{x~}");
}

#[test]
fn the_first_fault_from_the_left() {
    faulty("~q~:a", 3, 0);
    faulty("~:a~q", 5, 0);
    faulty("~]~q", 4, 0);
    faulty("~@[~;~]~:a", 4, 0);
    faulty("~@[~;~:a~]", 5, 5);
}

#[test]
fn faults_write_nothing() {
    let args = [Value::Int(1)];
    let answer = format(b"abc~d~q", &encode(&args), 100);
    assert_eq!(
        answer,
        Answer {
            code: 3,
            position: 5,
            steps: 0,
            text: vec![]
        }
    );
}
