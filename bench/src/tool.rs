//! `tilde lines` against awk's printf: whole processes, which read the same rows from a file and write the same bytes.

use crate::clock::children_time;
use crate::lines::{Given, Line, LINES, ROOM, STATIONS};
use crate::title;
use reference::Value;
use std::fs::{self, File};
use std::process::{Command, Stdio};

const TILDE: &str = "build/tilde";
const ROWS: &str = "target/bench-rows";
/// Each side is timed this often, by turns.
const ROUNDS: usize = 101;

/// The format of a line, and a program for awk that prints it. A list comes as `(850 700 500)`.
const PROGRAMS: [(&str, &str); 3] = [
    (
        "~8a ~3d ~5,'0d ~a~%",
        r#"{ printf "%-8s %3d %05d %s\n", $1, $2, $3, $4 }"#,
    ),
    (
        "~a ~:[missing~;ok~] ~d~%",
        r##"{ printf "%s %s %d\n", $1, $2 == "#t" ? "ok" : "missing", $3 }"##,
    ),
    (
        "~a:~{ ~d~}~%",
        r#"{ n = split(substr($2, 2, length($2) - 2), heights, " ")
             printf "%s:", $1
             for (i = 1; i <= n; i++) printf " %d", heights[i]
             printf "\n" }"#,
    ),
];

/// The word for the kind of a value, and the value as a field.
fn field(value: &Value) -> (&'static str, Vec<u8>) {
    match value {
        Value::Bool(truth) => ("boolean", if *truth { "#t" } else { "#f" }.into()),
        Value::Int(number) => ("integer", number.to_string().into()),
        Value::Char(byte) => ("character", vec![*byte]),
        Value::Str(bytes) => ("string", bytes.clone()),
        Value::List(values) => {
            let inside: Vec<Vec<u8>> = values.iter().map(|value| field(value).1).collect();
            (
                "list",
                [b"(".to_vec(), inside.join(&b' '), b")".to_vec()].concat(),
            )
        }
    }
}

/// The kinds of the fields, the rows, and the lines that direct calls make of the same values.
fn rows(line: &Line) -> (Vec<&'static str>, Vec<u8>, Vec<u8>) {
    let Given { stations, tables } = line.given(STATIONS);
    let (mut kinds, mut rows, mut lines, mut out) = (vec![], vec![], vec![], [0; ROOM]);
    for (station, table) in stations.iter().zip(&tables) {
        let fields: Vec<_> = line.arguments(station).iter().map(field).collect();
        kinds = fields.iter().map(|field| field.0).collect();
        let texts: Vec<Vec<u8>> = fields.into_iter().map(|field| field.1).collect();
        rows.extend(texts.join(&b'\t'));
        rows.push(b'\n');
        let length = line.formatted(table, &mut out);
        lines.extend(&out[..length]);
    }
    (kinds, rows, lines)
}

fn reading_rows(mut command: Command) -> Command {
    command.stdin(File::open(ROWS).expect("the rows were written"));
    command
}

/// The processor's time of a process, user's and system's, in nanoseconds for each row.
fn time(command: Command) -> f64 {
    let start = children_time();
    let status = reading_rows(command).stdout(Stdio::null()).status();
    assert!(status.expect("it ran before").success());
    (children_time() - start) / STATIONS as f64
}

/// What awk calls itself; None where there is none.
fn awk() -> Option<String> {
    let answer = Command::new("awk")
        .args(["-W", "version"])
        .stdin(Stdio::null())
        .output()
        .ok()?;
    let text = String::from_utf8_lossy(&answer.stdout).into_owned();
    Some(text.lines().next().unwrap_or("awk").to_string())
}

fn race(format: &str, program: &str) {
    let line = LINES
        .iter()
        .find(|line| line.format == format)
        .expect("a line of lines.rs");
    let (kinds, rows, lines) = rows(line);
    fs::write(ROWS, rows).expect("target can be written");
    let ours = || {
        let mut command = Command::new(TILDE);
        command.args(["lines", format]).args(&kinds);
        command
    };
    let theirs = || {
        let mut command = Command::new("awk");
        command.args(["-F", "\t", program]);
        command
    };
    for command in [ours(), theirs()] {
        let answer = reading_rows(command).output().expect("it starts");
        assert!(
            answer.status.success() && answer.stdout == lines,
            "{format}: other bytes"
        );
    }
    let best = (0..ROUNDS).fold((f64::MAX, f64::MAX), |best, _| {
        (best.0.min(time(ours())), best.1.min(time(theirs())))
    });
    let (ours, theirs) = best;
    println!(
        "  {format:<48} {ours:>8.1} ns {theirs:>8.1} ns {:>6.2}",
        ours / theirs
    );
}

pub fn measure() {
    let Some(awk) = awk() else {
        eprintln!("bench: the table tool needs awk, which is not installed");
        return;
    };
    title(
        &format!("40,000 rows, for each, against {awk}"),
        "tilde lines",
        "awk",
    );
    for (format, program) in PROGRAMS {
        race(format, program);
    }
    fs::remove_file(ROWS).expect("the rows were written");
}
