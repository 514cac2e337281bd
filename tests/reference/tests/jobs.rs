//! Job lines.

use reference::{encode, hex, job_line, Value};

fn frame(text: &[u8], table: &[u8]) -> String {
    format!("{:04x}{}{}", text.len(), hex(text), hex(table))
}

fn answered(line: &str) -> String {
    String::from_utf8(job_line(line.as_bytes())).unwrap()
}

#[test]
fn no_frames() {
    for line in [
        "", "0", "00", "000", "00000", "0001", "00017", "00027e", "0000 ", " 0000", "000g", "0x00",
        "0000\r", "00\u{e9}",
    ] {
        assert_eq!(answered(line), "ff", "{line:?}");
    }
    assert_eq!(job_line(b"00\xff0"), b"ff");
}

#[test]
fn an_empty_format_and_no_table() {
    assert_eq!(answered("0000"), format!("01{}", "0".repeat(24)));
    assert_eq!(answered("00000000000000000000"), "0".repeat(26));
    assert_eq!(
        answered("0000000000000000000000"),
        format!("0100000004{}", "0".repeat(16))
    );
    // The format takes the whole frame.
    assert_eq!(answered("00027e61"), format!("01{}", "0".repeat(24)));
}

#[test]
fn length_of_the_line() {
    // 65,534 characters: format of 1 byte, header, pool of the rest.
    let pool = (65_534 - 4 - 2 - 16) / 2;
    let mut table = vec![0, 0, 0, 0];
    table.extend((pool as u32).to_be_bytes());
    table.extend(vec![7; pool]);
    let line = frame(b"x", &table);
    assert_eq!(line.len(), 65_534);
    assert_eq!(answered(&line), "0000000000000000010000000178");
    assert_eq!(answered(&(line.clone() + "0")), "ff");
    assert_eq!(answered(&(line + "00")), "ff");
}

#[test]
fn refusals() {
    let table = encode(&[Value::Int(5)]);
    assert_eq!(
        answered(&frame(b"a~q", &table)),
        "03000000010000000000000000"
    );
    assert_eq!(
        answered(&frame(b"a~d~d", &table)),
        "060000000300000003000000026135"
    );
    let long = frame(&[b'x'; 4097], &table);
    assert_eq!(answered(&long), "02000010000000000000000000");
    assert_eq!(answered(&frame(&[b'x'; 65_000], &[])), "ff");
    assert_eq!(
        answered(&frame(&[b'~'; 4097], &[])),
        format!("01{}", "0".repeat(24))
    );
}

#[test]
fn room() {
    let table = encode(&[]);
    let text = b"~4096_~4096_~4096_~4096_";
    let expected = format!("00000000000000000400004000{}", "20".repeat(16_384));
    assert_eq!(answered(&frame(text, &table)), expected);
    let mut longer = text.to_vec();
    longer.push(b'x');
    let expected = format!("0a000000180000000500004000{}", "20".repeat(16_384));
    assert_eq!(answered(&frame(&longer, &table)), expected);
}

#[test]
fn either_case() {
    let table = encode(&[Value::Int(-1)]);
    let line = frame(b"~x~o", &table);
    assert_eq!(answered(&line), answered(&line.to_uppercase()));
    // `-1` is kept, and `~o` has no argument.
    assert_eq!(answered(&line), "060000000200000002000000022d31");
}
