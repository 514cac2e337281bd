//! States that no call gave: "run without harm, its effect a fixed function of state and inputs". Each is called twice over
//! with the same inputs, and then followed until its end.

mod drawing;

use drawing::calls;
use drawing::field::{Field, VAST};
use drawing::smallest::{fewer, shorter, smallest, Steps};
use random::Random;
use reference::{hex, ENTRY, HEADER, MOST_NUMBER, MOST_STEPS};
use tilde::{Resumed, State, MORE};

const SEED: u64 = 8;
const CALLS: usize = 1_000_000;
/// So many states are forged for one line.
const STATES: usize = 12;

#[test]
fn forged_states() {
    let random = Random::new(SEED);
    let mut fields = [Field::new(), Field::salted(7)];
    let mut seen = Seen::default();
    let calls = calls::how_many(CALLS);
    let mut other = next_line(&random);
    while seen.calls < calls {
        let line = next_line(&random);
        let [field, _] = &mut fields;
        let own = given(&random, field, &line);
        // A line that ends at once has no state to change but a fresh one.
        if own[1].has_ended() && !random.once_in(5) {
            continue;
        }
        let others = given(&random, field, &other);
        for _ in 0..STATES {
            let (sort, state) = forge(&random, &line, &own, &others);
            let (format, table) = mixed(&random, &line, &other, sort);
            let window = random.pick(&[0, 1, 1, 2, 3, 7, 64, 512]);
            let case = Case {
                format,
                table,
                state,
                window,
            };
            seen.add(sort, follow_or_tell(&mut fields, case));
        }
        other = line;
    }
    println!("{seen}");
    if calls >= CALLS {
        seen.assert_enough();
    }
}

// ---- forging --------------------------------------------------------------

/// A format and a table.
type Line = (Vec<u8>, Vec<u8>);

fn next_line(random: &Random) -> Line {
    let (format, arguments) = calls::format(random);
    (format, calls::table(random, arguments))
}

/// States that calls gave for a line, the first of them fresh.
fn given(random: &Random, field: &mut Field, (format, table): &Line) -> Vec<State> {
    let mut states = vec![State::default()];
    for _ in 0..8 {
        let window = random.pick(&[1, 2, 3, 7]);
        let last = states[states.len() - 1];
        let answer = tilde::resume(format, table, field.lend(window), last);
        field.text(window, answer.written).expect("no harm");
        states.push(answer.state);
    }
    states
}

/// What is wrong with a state.
#[derive(Clone, Copy, PartialEq, Eq)]
enum Sort {
    /// Every number is drawn at random.
    Random,
    /// One number of a given state is another.
    Changed,
    /// Each number is that of one of two given states.
    Crossed,
    /// Given, but for another format, table or both.
    Elsewhere,
}

const SORTS: [(Sort, &str); 4] = [
    (Sort::Random, "of random numbers"),
    (Sort::Changed, "with a number changed"),
    (Sort::Crossed, "crossed"),
    (Sort::Elsewhere, "of another format or table"),
];

fn forge(random: &Random, line: &Line, own: &[State], others: &[State]) -> (Sort, State) {
    let sort = random.pick(&SORTS).0;
    let mut state = random.pick(own);
    match sort {
        Sort::Random => state.change(|_| number(random, line)),
        Sort::Changed => {
            let place = random.below(state.numbers());
            state = state.with(place, |was| match random.below(4) {
                0 => was.wrapping_add(1),
                1 => was.wrapping_sub(1),
                _ => number(random, line),
            });
        }
        Sort::Crossed => {
            let mut numbers = Vec::new();
            let mut crossed = random.pick(others);
            crossed.change(|number| {
                numbers.push(number);
                number
            });
            let mut numbers = numbers.into_iter();
            state.change(|was| {
                let other = numbers.next().expect("both have as many");
                random.pick(&[was, other])
            });
        }
        Sort::Elsewhere => state = random.pick(others),
    }
    // Most numbers say that a line has ended, and then nothing else matters.
    if state.has_ended() && !random.once_in(10) {
        state.begin();
    }
    (sort, state)
}

/// Small, about a length or a limit, great, or any.
fn number(random: &Random, (format, table): &Line) -> u64 {
    let near = random.below(3) as u64;
    match random.below(10) {
        0..=2 => random.below(10) as u64,
        3 => random.below(format.len() + 2) as u64,
        4 => random.below(table.len() + 2) as u64,
        5 => random.pick(&[127, 1023, 4095, 65_535, 131_073]) + near,
        6 => u64::MAX - near,
        7 => (1 << random.pick(&[16, 31, 32, 48, 60, 63])) + near - 1,
        8 => random.magnitude(),
        _ => random.word(),
    }
}

/// A state from elsewhere comes with the format of the one line, the table of the other, or neither of its own.
fn mixed(random: &Random, line: &Line, other: &Line, sort: Sort) -> Line {
    match (sort, random.below(3)) {
        (Sort::Elsewhere, 0) => (other.0.clone(), line.1.clone()),
        (Sort::Elsewhere, 1) => (line.0.clone(), other.1.clone()),
        _ => line.clone(),
    }
}

// ---- following ------------------------------------------------------------

#[derive(Clone)]
struct Case {
    format: Vec<u8>,
    table: Vec<u8>,
    state: State,
    window: usize,
}

/// What following one state met.
struct Followed {
    calls: usize,
    first: u32,
    last: u32,
    bytes: usize,
}

/// Where something is wrong, the smallest state and inputs found that show it are told.
fn follow_or_tell(fields: &mut [Field; 2], case: Case) -> Followed {
    follow(fields, &case).unwrap_or_else(|first| {
        let wrong = |case: &Case| follow(&mut [Field::new(), Field::salted(7)], case).err();
        panic!("{}", smallest(case, smaller, wrong).unwrap_or(first))
    })
}

fn smaller(case: &Case) -> Steps<'_, Case> {
    let formats = shorter(&case.format).map(|format| Case {
        format,
        ..case.clone()
    });
    let tables = shorter(&case.table).map(|table| Case {
        table,
        ..case.clone()
    });
    let windows = fewer(case.window).map(|window| Case {
        window,
        ..case.clone()
    });
    let states = (0..case.state.numbers()).flat_map(move |place| {
        let less = [
            |_| 0,
            |number| number / 2,
            |number: u64| number.saturating_sub(1),
        ];
        let states = less.map(|less| case.state.with(place, less));
        let smaller = states.into_iter().filter(|&state| state != case.state);
        smaller.map(|state| Case {
            state,
            ..case.clone()
        })
    });
    Box::new(formats.chain(tables).chain(windows).chain(states))
}

fn follow(fields: &mut [Field; 2], case: &Case) -> Result<Followed, String> {
    let tell = |wrong: String| format!("{case}\n{wrong}");
    let [one, other] = fields;
    let (first, text) = call(one, case, case.window, case.state).map_err(tell)?;
    let again = call(other, case, case.window, case.state).map_err(tell)?;
    if again != (first, text) {
        return Err(tell(format!("{first:?}, and then {again:?}")));
    }
    let mut followed = Followed {
        calls: 2,
        first: first.code,
        last: first.code,
        bytes: first.written,
    };
    if case.state.has_ended() {
        return repeats(one, case, first).map(|()| followed).map_err(tell);
    }
    let (mut last, mut window) = (first, case.window);
    let most = most_calls(case);
    while last.code == MORE {
        if followed.calls > most {
            return Err(tell(format!("no end after {most} calls")));
        }
        window = (2 * window).clamp(1, VAST);
        last = call(one, case, window, last.state).map_err(tell)?.0;
        followed.calls += 1;
        followed.bytes += last.written;
    }
    followed.last = last.code;
    followed.calls += 3;
    repeats(one, case, last).map(|()| followed).map_err(tell)
}

/// More calls than a line can need: no piece of a run is longer than a quoted string of the whole pool with the most
/// padding, and there is one at each step. Windows are doubled, so fewer than 20 are not of the greatest size.
fn most_calls(case: &Case) -> usize {
    let pool = case.table.len().saturating_sub(HEADER);
    let padding = 3 * MOST_NUMBER as usize;
    let longest = 2 + 2 * pool + padding + 2 * ENTRY;
    20 + (MOST_STEPS + 1) * longest / VAST
}

/// One call that touches nothing but the text in its window. Until the end, "more" fills the window, with position 0 and
/// steps 0, and no window changes nothing; after it, nothing is written.
fn call(
    field: &mut Field,
    case: &Case,
    window: usize,
    state: State,
) -> Result<(Resumed, Vec<u8>), String> {
    let answer = tilde::resume(&case.format, &case.table, field.lend(window), state);
    let text = field.text(window, answer.written)?;
    let expected = match (state.has_ended(), answer.code) {
        (true, _) => answer.written == 0,
        (false, MORE) => {
            let told = (answer.position, answer.steps, answer.written);
            told == (0, 0, window) && (window > 0 || answer.state == state)
        }
        (false, _) => window > 0,
    };
    if !expected {
        return Err(format!("window {window} of {state:?}\nanswers {answer:?}"));
    }
    Ok((answer, text))
}

/// "A call after the end repeats code, position and steps and writes nothing."
fn repeats(field: &mut Field, case: &Case, end: Resumed) -> Result<(), String> {
    let mut state = end.state;
    for window in [7, 0, 512] {
        let (answer, _) = call(field, case, window, state)?;
        let told = (answer.code, answer.position, answer.steps, answer.written);
        if told != (end.code, end.position, end.steps, 0) {
            return Err(format!("the end {end:?}\nwas repeated as {answer:?}"));
        }
        state = answer.state;
    }
    Ok(())
}

impl std::fmt::Display for Case {
    fn fmt(&self, out: &mut std::fmt::Formatter) -> std::fmt::Result {
        let (format, table) = (hex(&self.format), hex(&self.table));
        let (state, window) = (self.state, self.window);
        write!(
            out,
            "format {format} table {table} window {window}\n{state:?}"
        )
    }
}

// ---- what was met ---------------------------------------------------------

#[derive(Default)]
struct Seen {
    calls: usize,
    states: usize,
    sorts: [usize; SORTS.len()],
    more: usize,
    bytes: usize,
    most: usize,
    /// Ends of codes 0 to 9, and of others that only an ended state can have.
    codes: [usize; 11],
}

impl Seen {
    fn add(&mut self, sort: Sort, followed: Followed) {
        self.calls += followed.calls;
        self.states += 1;
        let sort = SORTS.iter().position(|&(known, _)| known == sort);
        self.sorts[sort.expect("one of them")] += 1;
        self.more += usize::from(followed.first == MORE);
        self.bytes += followed.bytes;
        self.most = self.most.max(followed.calls);
        self.codes[followed.last.min(10) as usize] += 1;
    }

    fn assert_enough(&self) {
        let least = self.states / 400;
        assert!(self.sorts.iter().all(|&count| count > 10 * least), "{self}");
        assert!(self.more > 20 * least, "{self}");
        for code in [0, 1, 3, 4, 5, 6, 7] {
            assert!(self.codes[code] > least, "code {code} too seldom: {self}");
        }
    }
}

impl std::fmt::Display for Seen {
    fn fmt(&self, out: &mut std::fmt::Formatter) -> std::fmt::Result {
        let Seen {
            calls,
            states,
            more,
            bytes,
            most,
            ..
        } = self;
        write!(
            out,
            "{calls} calls of {states} forged states, none of which harmed:"
        )?;
        for ((_, sort), count) in SORTS.iter().zip(self.sorts) {
            write!(out, " {count} {sort},")?;
        }
        write!(
            out,
            " {more} answered more; at most {most} calls to an end, {bytes} bytes in all;"
        )?;
        for (code, count) in self.codes[..10].iter().enumerate() {
            write!(out, " {code}: {count}")?;
        }
        write!(out, " other: {}", self.codes[10])
    }
}
