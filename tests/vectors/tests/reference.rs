//! The reference formatter and the cases, each written from the documents
//! alone, agree on every case.

use reference::{check_format, check_table, format, vet, Answer, Vetted, Windows, MORE};
use vectors::{formats, lines, tables, vets, windows};

fn code_and_position(result: Result<(), (u32, usize)>) -> (u32, usize) {
    result.err().unwrap_or((0, 0))
}

#[test]
fn format_texts() {
    let cases = formats();
    for case in &cases {
        let answer = code_and_position(check_format(&case.text));
        assert_eq!(answer, (case.code, case.position), "{:?}", case.place);
    }
    println!("formats.txt: {} format texts agree", cases.len());
}

#[test]
fn table_bytes() {
    let cases = tables();
    for case in &cases {
        let answer = code_and_position(check_table(&case.table).map_err(|position| (1, position)));
        assert_eq!(answer, (case.code, case.position), "{:?}", case.place);
    }
    println!("tables.txt: {} tables agree", cases.len());
}

#[test]
fn calls() {
    let cases = lines();
    for case in &cases {
        let expected = Answer {
            code: case.code,
            position: case.position,
            steps: case.steps,
            text: case.text.clone(),
        };
        let answer = format(&case.format, &case.table, case.room);
        assert_eq!(answer, expected, "{:?}", case.place);
    }
    println!("lines.txt: {} calls agree", cases.len());
}

#[test]
fn vetted_formats() {
    let cases = vets();
    for case in &cases {
        let expected = Vetted {
            code: case.code,
            position: case.position,
            count: case.count,
        };
        let answer = vet(&case.format, &case.kinds, case.longest);
        assert_eq!(answer, expected, "{:?}", case.place);
    }
    println!("vets.txt: {} vets agree", cases.len());
}

#[test]
fn windowed_lines() {
    let cases = windows();
    for case in &cases {
        let mut line = Windows::new(&case.format, &case.table);
        for (at, call) in case.calls.iter().enumerate() {
            let (code, position, steps) = if call.ends {
                (case.code, case.position, case.steps)
            } else {
                (MORE, 0, 0)
            };
            let expected = Answer {
                code,
                position,
                steps,
                text: call.text.clone(),
            };
            let answer = line.call(call.window);
            assert_eq!(answer, expected, "{:?}, call {at}", case.place);
        }
    }
    println!("windows.txt: {} lines agree", cases.len());
}
