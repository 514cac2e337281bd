//! The instructions of a call, which callgrind counts: the same program runs under it once for each side of each line.

use crate::lines::{Given, LINES, ROOM};
use crate::title;
use std::hint::black_box;
use std::process::{Command, ExitCode};

/// So many calls are counted, for their mean.
const CALLS: usize = 256;
const SIDES: [&str; 2] = ["format", "snprintf"];

/// callgrind counts from where this function is entered to where it is left, and knows it by this name.
#[no_mangle]
#[inline(never)]
extern "C" fn bench_counted(work: &mut Work) -> usize {
    (work.0)()
}

struct Work<'a>(&'a mut dyn FnMut() -> usize);

/// The calls of one side of a line. Both sides have run when the values are made, so nothing is done for the first time.
pub fn run(line: &str, side: &str) {
    let line = &LINES[line.parse::<usize>().expect("the number of a line")];
    let Given { stations, tables } = line.given(CALLS);
    let mut out = [0; ROOM];
    black_box(if side == SIDES[0] {
        bench_counted(&mut Work(&mut || {
            tables.iter().map(|t| line.formatted(t, &mut out)).sum()
        }))
    } else {
        bench_counted(&mut Work(&mut || {
            stations.iter().map(|s| line.printed(s, &mut out)).sum()
        }))
    });
}

/// The instructions of a call, or what went wrong.
fn counted(line: usize, side: &str) -> Result<f64, String> {
    let program = std::env::current_exe().map_err(|error| error.to_string())?;
    let told = Command::new("valgrind")
        .args([
            "--quiet",
            "--tool=callgrind",
            "--callgrind-out-file=/dev/stdout",
        ])
        .args(["--collect-atstart=no", "--toggle-collect=bench_counted"])
        .arg(program)
        .args(["--counted", &line.to_string(), side])
        .output()
        .map_err(|error| format!("valgrind: {error}"))?;
    let total = String::from_utf8_lossy(&told.stdout)
        .lines()
        .find_map(|told| told.strip_prefix("totals: ")?.parse::<f64>().ok());
    match total {
        Some(total) if told.status.success() && total > 0.0 => Ok(total / CALLS as f64),
        _ => Err(format!(
            "callgrind counted nothing: {}",
            String::from_utf8_lossy(&told.stderr)
        )),
    }
}

fn rows() -> Result<(), String> {
    title(
        "instructions of a call, against snprintf",
        SIDES[0],
        SIDES[1],
    );
    for (number, line) in LINES.iter().enumerate() {
        let (ours, theirs) = (counted(number, SIDES[0])?, counted(number, SIDES[1])?);
        let ratio = ours / theirs;
        println!(
            "  {:<48} {ours:>11.0} {theirs:>11.0} {ratio:>6.2}",
            line.name()
        );
    }
    Ok(())
}

pub fn measure() -> ExitCode {
    match rows() {
        Ok(()) => ExitCode::SUCCESS,
        Err(message) => {
            eprintln!("bench: {message}");
            ExitCode::FAILURE
        }
    }
}
