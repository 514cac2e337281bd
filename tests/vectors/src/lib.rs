//! The cases of formats.txt, lines.txt, tables.txt, vets.txt and windows.txt.
//! README.md has their notation. A line that is not in it is a panic that names
//! the line.

#![forbid(unsafe_code)]

use reference::{encode, Value};

/// Where a case stands: its file, its line and what it is about.
#[derive(Clone, Debug)]
pub struct Place {
    pub file: &'static str,
    pub line: usize,
    pub why: String,
}

/// A format text, and the code and position of its check.
pub struct FormatCase {
    pub place: Place,
    pub code: u32,
    pub position: usize,
    pub text: Vec<u8>,
}

/// The bytes of a table, and the code and position of its check.
pub struct TableCase {
    pub place: Place,
    pub code: u32,
    pub position: usize,
    pub table: Vec<u8>,
}

/// A call of format, and its whole answer.
pub struct LineCase {
    pub place: Place,
    pub code: u32,
    pub position: usize,
    pub steps: usize,
    pub text: Vec<u8>,
    pub format: Vec<u8>,
    pub table: Vec<u8>,
    pub room: usize,
}

/// A vet, and its whole answer.
pub struct VetCase {
    pub place: Place,
    pub code: u32,
    pub position: usize,
    pub count: usize,
    pub format: Vec<u8>,
    pub kinds: Vec<u8>,
    pub longest: usize,
}

/// One line through windows: what each call writes, and the end.
pub struct WindowCase {
    pub place: Place,
    pub code: u32,
    pub position: usize,
    pub steps: usize,
    pub format: Vec<u8>,
    pub table: Vec<u8>,
    pub calls: Vec<WindowCall>,
}

/// A call: the size of its window, the text written there, and whether it
/// answers the end or "more".
pub struct WindowCall {
    pub window: usize,
    pub text: Vec<u8>,
    pub ends: bool,
}

pub fn formats() -> Vec<FormatCase> {
    cases(
        "formats.txt",
        include_str!("../formats.txt"),
        |place, fields| {
            let [code, position, text] = split(fields, " ", &place);
            FormatCase {
                code: number(code, &place),
                position: number(position, &place),
                text: text_field(text, &place),
                place,
            }
        },
    )
}

pub fn tables() -> Vec<TableCase> {
    cases(
        "tables.txt",
        include_str!("../tables.txt"),
        |place, fields| {
            let [code, position, hex] = split(fields, " ", &place);
            TableCase {
                code: number(code, &place),
                position: number(position, &place),
                table: hex_field(hex, &place),
                place,
            }
        },
    )
}

pub fn lines() -> Vec<LineCase> {
    cases(
        "lines.txt",
        include_str!("../lines.txt"),
        |place, fields| {
            let [answer, format, table, room] = split(fields, " | ", &place);
            let [code, position, steps, text] = split(answer, " ", &place);
            LineCase {
                code: number(code, &place),
                position: number(position, &place),
                steps: number(steps, &place),
                text: text_field(text, &place),
                format: text_field(format, &place),
                table: table_field(table, &place),
                room: number(room, &place),
                place,
            }
        },
    )
}

pub fn vets() -> Vec<VetCase> {
    cases("vets.txt", include_str!("../vets.txt"), |place, fields| {
        let [answer, format, kinds, longest] = split(fields, " | ", &place);
        let [code, position, count] = split(answer, " ", &place);
        VetCase {
            code: number(code, &place),
            position: number(position, &place),
            count: number(count, &place),
            format: text_field(format, &place),
            kinds: kinds_field(kinds, &place),
            longest: number(longest, &place),
            place,
        }
    })
}

pub fn windows() -> Vec<WindowCase> {
    cases(
        "windows.txt",
        include_str!("../windows.txt"),
        |place, fields| {
            let [end, format, table, calls] = split(fields, " | ", &place);
            let [code, position, steps] = split(end, " ", &place);
            WindowCase {
                code: number(code, &place),
                position: number(position, &place),
                steps: number(steps, &place),
                format: text_field(format, &place),
                table: table_field(table, &place),
                calls: calls_field(calls, &place),
                place,
            }
        },
    )
}

fn cases<T>(file: &'static str, content: &str, read: impl Fn(Place, &str) -> T) -> Vec<T> {
    let read_line = |(index, line): (usize, &str)| {
        let line_number = index + 1;
        let Some((fields, why)) = line.split_once("  #") else {
            panic!("{file}:{line_number}: no comment");
        };
        let why = why.trim().to_string();
        read(
            Place {
                file,
                line: line_number,
                why,
            },
            fields,
        )
    };
    let lines = content.lines().enumerate();
    let own = lines.filter(|(_, line)| !line.starts_with('#'));
    own.map(read_line).collect()
}

/// The fields, exactly so many; the last may hold the separator.
fn split<'a, const N: usize>(fields: &'a str, separator: &str, place: &Place) -> [&'a str; N] {
    let parts: Vec<&str> = fields.splitn(N, separator).collect();
    parts
        .try_into()
        .unwrap_or_else(|_| panic!("{place:?}: not {N} fields"))
}

fn number<T: std::str::FromStr>(digits: &str, place: &Place) -> T {
    digits
        .parse()
        .unwrap_or_else(|_| panic!("{place:?}: {digits:?} is no number"))
}

fn text_field(field: &str, place: &Place) -> Vec<u8> {
    if field == r"\e" {
        return Vec::new();
    }
    let mut reader = Reader {
        rest: field.as_bytes(),
        place,
    };
    let mut text = Vec::new();
    while !reader.rest.is_empty() {
        text.extend(reader.unit());
    }
    text
}

fn arguments_field(field: &str, place: &Place) -> Vec<Value> {
    if field == r"\e" {
        return Vec::new();
    }
    let mut reader = Reader {
        rest: field.as_bytes(),
        place,
    };
    let mut arguments = vec![reader.value()];
    while !reader.rest.is_empty() {
        reader.expect(b' ');
        arguments.push(reader.value());
    }
    arguments
}

/// The tag of each kind.
fn kinds_field(field: &str, place: &Place) -> Vec<u8> {
    let tag = |letter: u8| match b"bicsl".iter().position(|&known| known == letter) {
        Some(tag) => tag as u8,
        None => panic!("{place:?}: {letter} is no kind"),
    };
    text_field(field, place).into_iter().map(tag).collect()
}

/// The table of some arguments, or its bytes.
fn table_field(field: &str, place: &Place) -> Vec<u8> {
    match field.strip_prefix('$') {
        Some(hex) => hex_field(hex, place),
        None => encode(&arguments_field(field, place)),
    }
}

fn calls_field(field: &str, place: &Place) -> Vec<WindowCall> {
    let call = |call: &str| {
        let sign = call.find([':', '=']);
        let (size, rest) = call.split_at(sign.unwrap_or_else(|| panic!("{place:?}: no call")));
        WindowCall {
            window: number(size, place),
            text: text_field(&rest[1..], place),
            ends: rest.starts_with('='),
        }
    };
    field.split(' ').map(call).collect()
}

fn hex_field(field: &str, place: &Place) -> Vec<u8> {
    if field == r"\e" {
        return Vec::new();
    }
    let mut reader = Reader {
        rest: field.as_bytes(),
        place,
    };
    let mut bytes = Vec::new();
    while !reader.rest.is_empty() {
        if reader.take_if(b'\\') {
            reader.expect(b'*');
            let times = reader.decimal();
            reader.expect(b'(');
            let mut unit = Vec::new();
            while !reader.take_if(b')') {
                unit.push(reader.hex_byte());
            }
            bytes.extend(unit.repeat(times));
        } else {
            bytes.push(reader.hex_byte());
        }
    }
    bytes
}

struct Reader<'a> {
    rest: &'a [u8],
    place: &'a Place,
}

impl Reader<'_> {
    fn byte(&mut self) -> u8 {
        let Some((&first, rest)) = self.rest.split_first() else {
            panic!("{:?}: ends too early", self.place);
        };
        self.rest = rest;
        first
    }

    fn take_if(&mut self, byte: u8) -> bool {
        let there = self.rest.first() == Some(&byte);
        if there {
            self.rest = &self.rest[1..];
        }
        there
    }

    fn expect(&mut self, byte: u8) {
        let got = self.byte();
        assert_eq!(got, byte, "{:?}", self.place);
    }

    fn decimal(&mut self) -> usize {
        let digits = self
            .rest
            .iter()
            .take_while(|byte| byte.is_ascii_digit())
            .count();
        let (head, rest) = self.rest.split_at(digits);
        self.rest = rest;
        number(std::str::from_utf8(head).expect("digits"), self.place)
    }

    fn hex_byte(&mut self) -> u8 {
        let mut digit = || match self.byte() {
            byte @ b'0'..=b'9' => byte - b'0',
            byte @ b'a'..=b'f' => byte - b'a' + 10,
            byte => panic!("{:?}: {byte} is no hexadecimal digit", self.place),
        };
        digit() * 16 + digit()
    }

    /// A byte as it stands, an escape, or a repetition of one of these.
    fn unit(&mut self) -> Vec<u8> {
        let byte = self.byte();
        if byte != b'\\' {
            return vec![byte];
        }
        match self.byte() {
            b'n' => b"\n".to_vec(),
            b't' => b"\t".to_vec(),
            b'r' => b"\r".to_vec(),
            b's' => b" ".to_vec(),
            b'h' => b"#".to_vec(),
            b'\\' => b"\\".to_vec(),
            b'x' => vec![self.hex_byte()],
            b'*' => {
                let times = self.decimal();
                self.expect(b'(');
                let unit = self.unit();
                self.expect(b')');
                unit.repeat(times)
            }
            other => panic!("{:?}: unknown escape {other}", self.place),
        }
    }

    fn value(&mut self) -> Value {
        if self.take_if(b'"') {
            let mut text = Vec::new();
            while !self.take_if(b'"') {
                text.extend(self.unit());
            }
            return Value::Str(text);
        }
        if self.take_if(b'(') {
            let mut members = Vec::new();
            while !self.take_if(b')') {
                if !members.is_empty() {
                    self.expect(b' ');
                }
                members.push(self.value());
            }
            return Value::List(members);
        }
        if self.take_if(b'#') {
            return match self.byte() {
                b't' => Value::Bool(true),
                b'f' => Value::Bool(false),
                b'\\' => {
                    self.expect(b'x');
                    Value::Char(self.hex_byte())
                }
                other => panic!("{:?}: unknown value #{other}", self.place),
            };
        }
        let length = self
            .rest
            .iter()
            .take_while(|byte| !b" )".contains(byte))
            .count();
        let (head, rest) = self.rest.split_at(length);
        self.rest = rest;
        Value::Int(number(
            std::str::from_utf8(head).expect("a number"),
            self.place,
        ))
    }
}

#[cfg(test)]
mod tests {
    use super::*;

    fn place() -> Place {
        Place {
            file: "here",
            line: 1,
            why: String::new(),
        }
    }

    #[test]
    fn the_notation() {
        assert_eq!(text_field(r"\e", &place()), b"");
        assert_eq!(
            text_field(r"a\n\t\r\\\s\h\x7c\*3(b)\*2(\s)\*2())", &place()),
            b"a\n\t\r\\ #|bbb  ))"
        );
        assert_eq!(
            hex_field(r"00\*2(01ff)7f", &place()),
            [0, 1, 255, 1, 255, 127]
        );
        assert_eq!(kinds_field(r"bicsl\*2(s)", &place()), [0, 1, 2, 3, 4, 3, 3]);
        assert_eq!(kinds_field(r"\e", &place()), []);
        assert_eq!(arguments_field(r"\e", &place()), []);
        let read = arguments_field(r#"-5 "a\s)" #\x41 #t (1 () (#f))"#, &place());
        let expected = [
            Value::Int(-5),
            Value::Str(b"a )".to_vec()),
            Value::Char(65),
            Value::Bool(true),
            Value::List(vec![
                Value::Int(1),
                Value::List(vec![]),
                Value::List(vec![Value::Bool(false)]),
            ]),
        ];
        assert_eq!(read, expected);
    }

    #[test]
    fn the_notation_of_windows() {
        let calls = calls_field(r"2::= 0:\e 12=a\sb", &place());
        let read: Vec<_> = calls
            .iter()
            .map(|call| (call.window, call.text.as_slice(), call.ends))
            .collect();
        let expected: [(usize, &[u8], bool); 3] =
            [(2, b":=", false), (0, b"", false), (12, b"a b", true)];
        assert_eq!(read, expected);
        assert_eq!(table_field(r"$\e", &place()), []);
        assert_eq!(table_field("$00ff", &place()), [0, 255]);
        assert_eq!(table_field(r"\e", &place()), [0; 8]);
    }

    #[test]
    fn every_file_is_whole() {
        let whole = |content: &str| {
            content
                .lines()
                .filter(|line| !line.starts_with('#'))
                .count()
        };
        assert_eq!(formats().len(), whole(include_str!("../formats.txt")));
        assert_eq!(tables().len(), whole(include_str!("../tables.txt")));
        assert_eq!(lines().len(), whole(include_str!("../lines.txt")));
        assert_eq!(vets().len(), whole(include_str!("../vets.txt")));
        assert_eq!(windows().len(), whole(include_str!("../windows.txt")));
        assert!(formats().len() >= 855 && tables().len() >= 132);
        assert!(lines().len() >= 368 && vets().len() >= 70);
        assert!(windows().len() >= 60);
    }
}
