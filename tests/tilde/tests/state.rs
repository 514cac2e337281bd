//! The state that the tests hand over has the fields that include/tilde.h declares.

use tilde::State;

const HEADER: &str = include_str!("../../../include/tilde.h");

#[test]
fn fields_of_a_state() {
    let fields = declared("tilde_state");
    let expected: Vec<(String, String)> = State::FIELDS
        .iter()
        .map(|&(name, kind)| (name.to_string(), kind.to_string()))
        .collect();
    assert_eq!(fields, expected);
    println!(
        "a state has {} numbers in {} fields, {} bytes",
        State::default().numbers(),
        fields.len(),
        size_of::<State>()
    );
}

#[test]
fn fields_of_an_answer() {
    let names: Vec<String> = declared("tilde_resumed")
        .into_iter()
        .map(|(name, kind)| format!("{name}: {kind}"))
        .collect();
    let expected = [
        "code: u32",
        "position: usize",
        "steps: usize",
        "written: usize",
        "state: tilde_state",
    ];
    assert_eq!(names, expected);
}

/// The name and the type, as Rust writes it, of each field of a struct of the header.
fn declared(name: &str) -> Vec<(String, String)> {
    let end = HEADER.find(&format!("}} {name};")).expect("its end");
    let start = HEADER[..end].rfind("typedef struct").expect("its start");
    let open = start + HEADER[start..].find('{').expect("its fields") + 1;
    let code = uncommented(&HEADER[open..end]);
    let declarations = code.split(';').map(str::trim);
    declarations
        .filter(|declaration| !declaration.is_empty())
        .flat_map(|declaration| {
            let (kind, names) = declaration.split_once(char::is_whitespace).expect("a name");
            names.split(',').map(move |name| field(kind, name.trim()))
        })
        .collect()
}

fn field(kind: &str, name: &str) -> (String, String) {
    let kind = match kind {
        "size_t" => "usize",
        "uint32_t" => "u32",
        "uint16_t" => "u16",
        "uint8_t" => "u8",
        other => other,
    };
    match name.split_once('[') {
        Some((name, count)) => {
            let count = number(count.trim_end_matches(']'));
            (name.to_string(), format!("[{kind}; {count}]"))
        }
        None => (name.to_string(), kind.to_string()),
    }
}

/// A number, or what the header defines by that name.
fn number(written: &str) -> &str {
    let defined = HEADER.split_once(&format!("#define {written} "));
    defined.map_or(written, |(_, rest)| {
        rest.lines().next().unwrap_or("").trim()
    })
}

fn uncommented(code: &str) -> String {
    let mut parts = code.split("/*");
    let first = parts.next().unwrap_or("").to_string();
    let others = parts.filter_map(|part| part.split_once("*/"));
    others.fold(first, |code, (_, after)| code + after)
}
