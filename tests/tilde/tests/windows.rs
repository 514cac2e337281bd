//! The proved windows against the reference on random lines, cut at windows of random sizes: call by call with its
//! windows, and joined with its one buffer.

mod drawing;

use drawing::field::{Field, VAST};
use drawing::smallest::{fewer, shorter, smallest, Steps};
use drawing::{calls, damage, tables, texts, Tally};
use random::Random;
use reference::{encode, hex, Answer, Value, Windows};
use tilde::{State, MORE};

const SEED: u64 = 7;
const LINES: usize = 200_000;
const LONG_FORMATS: usize = 8_000;
const LONG_PIECES: usize = 3_000;
/// Small ones cut more lines.
const SIZES: &[usize] = &[1, 1, 1, 2, 2, 3, 3, 7, 7, 64, 512];

#[test]
fn random_lines() {
    let random = Random::new(SEED);
    let (mut field, mut seen) = (Field::new(), Seen::default());
    let lines = calls::how_many(LINES);
    for _ in 0..lines {
        let (format, arguments) = calls::format(&random);
        let table = calls::table(&random, arguments);
        let windows = next_windows(&random);
        seen.add(compare(&mut field, format, table, windows));
    }
    println!("{lines} lines through windows agree with the reference:{seen}");
    seen.assert_enough(lines);
}

/// Formats with long blocks, most of which are passed over.
#[test]
fn long_formats() {
    let random = Random::new(SEED + 1);
    let (mut field, mut seen) = (Field::new(), Seen::default());
    for _ in 0..LONG_FORMATS {
        let (mut format, arguments) = texts::long(&random);
        if random.once_in(10) {
            damage::damage(&random, &mut format);
        }
        let table = tables::table(&random, &arguments);
        let windows = next_windows(&random);
        seen.add(compare(&mut field, format, table, windows));
    }
    println!("{LONG_FORMATS} long formats through windows agree with the reference:{seen}");
}

/// Strings and padding of more than a window.
#[test]
fn long_pieces() {
    let random = Random::new(SEED + 3);
    let (mut field, mut seen) = (Field::new(), Seen::default());
    for _ in 0..LONG_PIECES {
        let (format, arguments) = next_long_pieces(&random);
        let windows = next_windows(&random);
        seen.add(compare(&mut field, format, encode(&arguments), windows));
    }
    println!("{LONG_PIECES} lines of long pieces through windows agree with the reference:{seen}");
}

fn next_long_pieces(random: &Random) -> (Vec<u8>, Vec<Value>) {
    let piece = random.pick(&[
        "~a",
        "~s",
        "~4000@a",
        "~1000,300,40,'-s",
        "~9,1000@s",
        "~a~2000_",
    ]);
    let string = |_| {
        let length = random.pick(&[511, 512, 513, random.below(3000), random.below(20_000)]);
        let plain = random.once_in(3);
        let byte = |_| match random.below(3) {
            0 if !plain => random.pick(b"\"\\"),
            _ => random.byte(),
        };
        Value::Str((0..length).map(byte).collect())
    };
    let arguments: Vec<Value> = (0..1 + random.below(3)).map(string).collect();
    let format = match random.below(3) {
        0 => piece.repeat(arguments.len()),
        1 => format!("~@{{{piece}~^, ~}}"),
        _ => format!("~:[~;~]~@{{~#[~:;{piece}~]~}}"),
    };
    (format.into_bytes(), arguments)
}

/// Each line cut once at every place, and twice in a row from there on.
#[test]
fn every_cut() {
    let random = Random::new(SEED + 2);
    let mut field = Field::new();
    let mut compared = 0;
    for _ in 0..2000 {
        let (format, arguments) = texts::format(&random, random.below(4), false);
        let table = tables::table(&random, &arguments);
        let most = reference::format(&format, &table, 60).text.len() + 1;
        for first in 1..=most {
            let windows = vec![first, 0, 1, 2];
            compare(&mut field, format.clone(), table.clone(), windows);
            compared += 1;
        }
    }
    println!("{compared} lines cut at every place agree");
}

/// Once in six no window; the others are all of one size, or each of its own. Few lines have thousands.
fn next_windows(random: &Random) -> Vec<usize> {
    let same = random.once_in(2).then(|| random.pick(SIZES));
    let many = random.once_in(100);
    let count = random.below(if many { 3000 } else { 120 });
    let window = |_| match random.below(6) {
        0 => 0,
        _ => same.unwrap_or_else(|| random.pick(SIZES)),
    };
    (0..count).map(window).collect()
}

// ---- what was met ---------------------------------------------------------

/// What the windows of one line met, or those of all lines.
#[derive(Default)]
struct Seen {
    codes: Tally,
    windows: usize,
    empty: usize,
    /// Windows that end inside a piece.
    cut: usize,
    /// Windows that end inside a block.
    open: usize,
    deepest: usize,
    /// Lines of which the last window is full.
    full: usize,
    most: usize,
}

impl Seen {
    fn window(&mut self, size: usize, expected: &Windows, answer: &Answer) {
        self.windows += 1;
        self.empty += usize::from(size == 0);
        if answer.code != MORE {
            self.full += usize::from(answer.text.len() == size);
        } else if size > 0 {
            self.cut += usize::from(expected.in_a_piece());
            self.open += usize::from(expected.open_blocks() > 0);
            self.deepest = self.deepest.max(expected.open_blocks());
        }
    }

    fn add(&mut self, (code, line): (u32, Seen)) {
        self.codes.add(code);
        self.most = self.most.max(line.windows);
        self.windows += line.windows;
        self.empty += line.empty;
        self.cut += line.cut;
        self.open += line.open;
        self.deepest = self.deepest.max(line.deepest);
        self.full += line.full;
    }

    fn assert_enough(&self, lines: usize) {
        let codes = [0, 1, 2, 3, 4, 5, 6, 7, 8, 9];
        self.codes.assert_each(&codes, 300 * lines / LINES);
        let some = [self.empty, self.cut, self.open];
        assert!(some.iter().all(|&windows| windows > lines / 2), "{self}");
        assert!(self.full > lines / 50, "{self}");
        assert!(self.deepest == 8 || lines < LINES, "{self}");
    }
}

impl std::fmt::Display for Seen {
    fn fmt(&self, out: &mut std::fmt::Formatter) -> std::fmt::Result {
        let Seen {
            codes,
            windows,
            empty,
            cut,
            open,
            deepest,
            full,
            most,
            ..
        } = self;
        writeln!(out, "{codes}")?;
        write!(
            out,
            "{windows} windows, at most {most} for a line, {empty} of no bytes; "
        )?;
        write!(out, "{cut} ended inside a piece, {open} inside a block, ")?;
        write!(
            out,
            "at most {deepest} blocks deep; {full} lines filled their last window"
        )
    }
}

// ---- comparing ------------------------------------------------------------

#[derive(Clone)]
struct Line {
    format: Vec<u8>,
    table: Vec<u8>,
    /// The sizes of the windows lent one after the other; more are lent if the line goes on.
    windows: Vec<usize>,
}

impl Line {
    /// Ever larger ones after the last.
    fn sizes(&self) -> impl Iterator<Item = usize> + '_ {
        let larger = std::iter::successors(Some(512), |&size| Some(VAST.min(size * 2)));
        self.windows.iter().copied().chain(larger)
    }
}

/// The code on which both agree, and what was met. Where they do not, the smallest line found that shows it is told.
fn compare(field: &mut Field, format: Vec<u8>, table: Vec<u8>, windows: Vec<usize>) -> (u32, Seen) {
    let line = Line {
        format,
        table,
        windows,
    };
    difference(field, &line).unwrap_or_else(|first| {
        let wrong = |line: &Line| difference(&mut Field::new(), line).err();
        panic!("{}", smallest(line, smaller, wrong).unwrap_or(first))
    })
}

fn smaller(line: &Line) -> Steps<'_, Line> {
    let formats = shorter(&line.format).map(|format| Line {
        format,
        ..line.clone()
    });
    let tables = shorter(&line.table).map(|table| Line {
        table,
        ..line.clone()
    });
    let windows = shorter(&line.windows).map(|windows| Line {
        windows,
        ..line.clone()
    });
    let sizes = (0..line.windows.len()).flat_map(move |at| {
        fewer(line.windows[at]).map(move |size| {
            let mut less = line.clone();
            less.windows[at] = size;
            less
        })
    });
    Box::new(formats.chain(tables).chain(windows).chain(sizes))
}

fn difference(field: &mut Field, line: &Line) -> Result<(u32, Seen), String> {
    let mut expected = Windows::new(&line.format, &line.table);
    let (mut state, mut seen, mut joined) = (State::default(), Seen::default(), Vec::new());
    for (call, size) in line.sizes().enumerate() {
        let told = expected.call(size);
        let after = agree(field, line, size, state, &told);
        state = after.map_err(|wrong| format!("{line}\ncall {call}, window of {size}: {wrong}"))?;
        seen.window(size, &expected, &told);
        joined.extend_from_slice(&told.text);
        if told.code != MORE {
            break;
        }
    }
    let whole = reference::format(&line.format, &line.table, usize::MAX);
    let end = Answer {
        text: Vec::new(),
        ..whole
    };
    if joined != whole.text {
        return Err(format!("{line}\njoined {joined:?}, one buffer {whole:?}"));
    }
    for size in [5, 0, VAST] {
        let after = agree(field, line, size, state, &end);
        state =
            after.map_err(|wrong| format!("{line}\nafter the end, window of {size}: {wrong}"))?;
    }
    Ok((end.code, seen))
}

/// One call, which has to answer what the reference's told; the state after it.
fn agree(
    field: &mut Field,
    line: &Line,
    size: usize,
    state: State,
    told: &Answer,
) -> Result<State, String> {
    let answer = tilde::resume(&line.format, &line.table, field.lend(size), state);
    let text = field.text(size, answer.written)?;
    let read = Answer {
        code: answer.code,
        position: answer.position,
        steps: answer.steps,
        text,
    };
    if read != *told {
        return Err(format!("proved {read:?}\nreference {told:?}"));
    }
    if size == 0 && answer.state != state {
        return Err(format!("{state:?} became {:?}", answer.state));
    }
    Ok(answer.state)
}

impl std::fmt::Display for Line {
    fn fmt(&self, out: &mut std::fmt::Formatter) -> std::fmt::Result {
        let (format, table) = (hex(&self.format), hex(&self.table));
        let windows = &self.windows;
        write!(out, "format {format} table {table} windows {windows:?}")
    }
}
