//! The proved calls against every case of lines.txt, formats.txt, tables.txt and vets.txt.

use reference::encode;

/// Any room will do for a check of the text alone.
const ROOM: usize = 64;

#[test]
fn calls() {
    let cases = vectors::lines();
    for case in &cases {
        let mut buffer = vec![0xee; case.room];
        let answer = tilde::format(&case.format, &case.table, &mut buffer);
        let expected = (case.code, case.position, case.steps, case.text.len());
        assert_eq!(answer, expected, "{:?}", case.place);
        let (text, beyond) = buffer.split_at(case.text.len());
        assert_eq!(text, case.text, "{:?}", case.place);
        assert!(beyond.iter().all(|&byte| byte == 0xee), "{:?}", case.place);
    }
    println!(
        "lines.txt: {} calls agree with the proved format",
        cases.len()
    );
}

/// Over a table of no arguments: a fault of the text is answered as it stands in the file, and a sound text is run.
#[test]
fn format_texts() {
    let cases = vectors::formats();
    let table = encode(&[]);
    for case in &cases {
        let mut buffer = [0xee; ROOM];
        let answer = tilde::format(&case.text, &table, &mut buffer);
        if case.code == 0 {
            assert!(!matches!(answer.0, 1..=5), "{answer:?} {:?}", case.place);
        } else {
            let expected = (case.code, case.position, 0, 0);
            assert_eq!(answer, expected, "{:?}", case.place);
            assert_eq!(buffer, [0xee; ROOM], "{:?}", case.place);
        }
    }
    println!(
        "formats.txt: {} format texts agree with the proved format",
        cases.len()
    );
}

/// Vet reads the text before it asks whether it is plain, so it has the same faults.
#[test]
fn vetted_texts() {
    let cases = vectors::formats();
    for case in &cases {
        let answer = tilde::vet(&case.text, &[], 0);
        if case.code == 0 {
            assert!(
                matches!(answer.0, 0 | 6..=8 | 11),
                "{answer:?} {:?}",
                case.place
            );
        } else {
            assert_eq!(answer, (case.code, case.position, 0), "{:?}", case.place);
        }
    }
    println!(
        "formats.txt: {} format texts agree with the proved vet",
        cases.len()
    );
}

#[test]
fn vets() {
    let cases = vectors::vets();
    for case in &cases {
        let answer = tilde::vet(&case.format, &case.kinds, case.longest);
        let expected = (case.code, case.position, case.count);
        assert_eq!(answer, expected, "{:?}", case.place);
    }
    println!("vets.txt: {} vets agree with the proved vet", cases.len());
}

/// An empty format over each table: the codes of the check of the table.
#[test]
fn tables() {
    let cases = vectors::tables();
    for case in &cases {
        let answer = tilde::format(b"", &case.table, &mut []);
        assert_eq!(answer, (case.code, case.position, 0, 0), "{:?}", case.place);
    }
    println!(
        "tables.txt: {} tables agree with the proved format",
        cases.len()
    );
}
