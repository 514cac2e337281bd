//! Sound formats drawn at random, each with arguments that suit it as long as no jump goes astray.

mod blocks;
mod clauses;
mod long;

use super::values;
pub use long::long;
use random::Random;
use reference::Value;

const ANY_MODIFIERS: &[&str] = &["", ":", "@", ":@", "@:"];
const ONE_MODIFIER: &[&str] = &["", ":", "@"];

/// A parameter place: a number from one to another, or a character.
#[derive(Clone, Copy)]
enum Place {
    Number(usize, usize),
    Character,
}

const COUNT: Place = Place::Number(0, 4096);
const FROM_ONE: Place = Place::Number(1, 4096);
const CHARNUM: Place = Place::Number(0, 127);

/// A format and its arguments. Blocks nest so many levels, to the last of them if `deep`.
pub fn format(random: &Random, levels: usize, deep: bool) -> (Vec<u8>, Vec<Value>) {
    let mut writer = Writer::new(random, false);
    writer.deep = deep;
    writer.sequence(levels, 6);
    (writer.text, writer.arguments)
}

/// A format that is plain, and its arguments.
pub fn plain(random: &Random) -> (Vec<u8>, Vec<Value>) {
    let mut writer = Writer::new(random, true);
    writer.sequence(0, 8);
    (writer.text, writer.arguments)
}

/// A format with a conditional that takes exactly these kinds, and is plain but for conditionals; two in three stray from
/// that now and then. Blocks nest at most so many levels, and more than four only if they go down to the last.
pub fn conditional(random: &Random, kinds: &[u8], levels: usize) -> Vec<u8> {
    let mut writer = Writer::new(random, true);
    writer.deep = levels > 4;
    writer.steady = random.once_in(3);
    let (before, after) = kinds.split_at(random.below(kinds.len() + 1));
    writer.taking(before, 0);
    let taken = writer.choosing(after, levels);
    writer.taking(&after[taken..], 1);
    writer.text
}

struct Writer<'a> {
    random: &'a Random,
    plain: bool,
    /// Each sequence begins with a block, down to the last level.
    deep: bool,
    /// No conditional strays.
    steady: bool,
    text: Vec<u8>,
    /// What the directives written so far take.
    arguments: Vec<Value>,
}

impl Writer<'_> {
    fn new(random: &Random, plain: bool) -> Writer<'_> {
        Writer {
            random,
            plain,
            deep: false,
            steady: true,
            text: Vec::new(),
            arguments: Vec::new(),
        }
    }

    fn put(&mut self, text: &str) {
        self.text.extend_from_slice(text.as_bytes());
    }

    /// The code, in either case.
    fn code(&mut self, code: u8) {
        let upper = self.random.once_in(4);
        self.text.push(if upper {
            code.to_ascii_uppercase()
        } else {
            code
        });
    }

    fn modifiers(&mut self, from: &[&'static str]) -> &'static str {
        let modifiers = self.random.pick(from);
        self.put(modifiers);
        modifiers
    }

    fn sequence(&mut self, levels: usize, most: usize) {
        if self.deep && levels > 0 {
            self.block(levels);
        }
        for _ in 0..self.random.below(most) {
            match self.random.below(12) {
                0..=2 => self.literal(),
                3 | 4 if levels > 0 => self.block(levels),
                5 if !self.plain => self.jump(),
                6 if !self.plain && self.random.once_in(3) => self.put("~^"),
                _ => self.writing(),
            }
        }
    }

    fn literal(&mut self) {
        for _ in 0..1 + self.random.below(5) {
            let byte = self.random.pick(&[self.random.byte(), b' ', b',', b'x']);
            self.text.push(if byte == b'~' { b'-' } else { byte });
        }
    }

    /// A directive that writes.
    fn writing(&mut self) {
        match self.random.below(10) {
            0..=2 => self.display(),
            3..=5 => self.integer(),
            6 => self.character(),
            7 => self.plural(),
            8 => self.repeat(),
            _ => self.newline(),
        }
    }

    /// An argument of its kind, and once in 60 of any.
    fn take(&mut self, value: Value) {
        let astray = self.random.once_in(60);
        let value = if astray {
            values::any(self.random, 1)
        } else {
            value
        };
        self.arguments.push(value);
    }

    fn display(&mut self) {
        self.put("~");
        self.parameters(&[COUNT, FROM_ONE, COUNT, Place::Character]);
        self.modifiers(&["", "@"]);
        self.code(self.random.pick(b"as"));
        self.take(values::printable(self.random));
    }

    fn integer(&mut self) {
        self.put("~");
        self.parameters(&[COUNT, Place::Character, Place::Character, FROM_ONE]);
        self.modifiers(ANY_MODIFIERS);
        self.code(self.random.pick(b"dxob"));
        self.take(Value::Int(values::integer(self.random)));
    }

    fn character(&mut self) {
        self.put("~");
        let given = self.parameters(&[CHARNUM]);
        self.modifiers(ONE_MODIFIER);
        self.code(b'c');
        if !given {
            self.take(Value::Char(self.random.below(128) as u8));
        }
    }

    fn plural(&mut self) {
        self.put("~");
        // Without an argument before it, a step back is refused.
        let fresh = self.arguments.is_empty() && !self.random.once_in(8);
        let modifiers = self.modifiers(if fresh { &["", "@"] } else { ANY_MODIFIERS });
        self.code(b'p');
        if !modifiers.contains(':') {
            self.take(values::any(self.random, 1));
        }
    }

    fn repeat(&mut self) {
        self.put("~");
        self.parameters(&[COUNT]);
        self.code(self.random.pick(b"~%_|/"));
    }

    fn newline(&mut self) {
        self.put("~");
        self.modifiers(ONE_MODIFIER);
        self.put("\n");
        for _ in 0..self.random.below(4) {
            self.text.push(self.random.pick(b"\t\n\x0b\x0c\r \x08\x0e"));
        }
    }

    /// Some of the parameters; whether the first has a value.
    fn parameters(&mut self, places: &[Place]) -> bool {
        let count = self.random.below(places.len() + 1) * self.random.below(2);
        let mut given = false;
        for (i, &place) in places[..count].iter().enumerate() {
            if i > 0 {
                self.put(",");
            }
            let before = self.text.len();
            self.parameter(place);
            given |= i == 0 && self.text.len() > before;
        }
        given
    }

    fn parameter(&mut self, place: Place) {
        let value = self.random.below(8);
        match (place, value) {
            (_, 0) => {}
            (_, 1 | 2) if !self.plain => self.next_argument(place),
            (Place::Character, _) => {
                self.put("'");
                self.text
                    .push(self.random.pick(&[self.random.byte(), b'*', b'~', b',']));
            }
            (Place::Number(..), 3) => self.put("#"),
            (Place::Number(least, most), _) => {
                let number = self.number(least, most);
                self.digits(number);
            }
        }
    }

    /// Most are small, since a great width makes a long text.
    fn number(&self, least: usize, most: usize) -> usize {
        match self.random.below(150) {
            0 => most,
            1 => least,
            2 => self.random.below(most + 1).max(least),
            _ => least + self.random.below(14),
        }
    }

    fn digits(&mut self, number: usize) {
        let sign = match self.random.below(12) {
            0 => "+",
            1 if number == 0 => "-",
            _ => "",
        };
        let zeros = if self.random.once_in(12) { "00" } else { "" };
        self.put(&format!("{sign}{zeros}{number}"));
    }

    /// `v`, and its argument: now and then out of range.
    fn next_argument(&mut self, place: Place) {
        self.put(self.random.pick(&["v", "V"]));
        let value = match place {
            Place::Character => Value::Char(self.random.below(128) as u8),
            Place::Number(least, most) if self.random.once_in(12) => {
                let (least, most) = (least as i64, most as i64);
                let edges = [
                    least,
                    most,
                    least - 1,
                    most + 1,
                    -1,
                    1 << 32,
                    i64::MIN,
                    i64::MAX,
                ];
                Value::Int(self.random.pick(&edges))
            }
            Place::Number(least, most) => Value::Int(self.number(least, most) as i64),
        };
        self.take(value);
    }
}
