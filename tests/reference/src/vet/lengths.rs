//! How long one directive's text can be.

use super::{BOOL, CHAR, INT, LIST, STR};
use crate::directive::{Code, Directive};

/// How one directive's length follows from the argument it reads.
pub enum Reader {
    Display(Pad),
    Write(Pad),
    Numeral {
        base: u64,
        minwidth: usize,
        plus: bool,
        commawidth: Option<usize>,
    },
    Plain,
    Careted,
    Named,
    Plural {
        one: usize,
        other: usize,
    },
}

pub struct Pad {
    minwidth: usize,
    padinc: usize,
    minpad: usize,
}

/// All of a value that lengths depend on.
#[derive(Clone, Copy)]
pub enum Shape {
    Bool,
    Int(i64),
    Char(u8),
    /// The length, and how many of the bytes are `"` or backslash.
    Str {
        length: usize,
        escaped: usize,
    },
    List,
}

/// The greatest sum of these readers' lengths over one value of the kind.
pub fn most(kind: u8, longest: usize, readers: &[&Reader]) -> usize {
    if readers.is_empty() {
        return 0;
    }
    let total = |shape| readers.iter().map(|reader| reader.length(shape)).sum();
    let totals = shapes(kind, longest).into_iter().map(total);
    totals.max().expect("every kind has a value")
}

/// Values of a kind, one at least for each way in which lengths can differ.
///
/// Integers: lengths hang on the sign, on the number of digits in the four
/// bases and on being 1, so the least magnitude of each class will do: every
/// power of two (with them those of 8 and 16) and of ten.
///
/// Strings: `~a` sees the length alone, `~s` the length plus the escaped
/// bytes, which is anything up to twice the longest; the one directive that
/// is not `~p` sees all it can in these two runs of shapes.
fn shapes(kind: u8, longest: usize) -> Vec<Shape> {
    match kind {
        BOOL => vec![Shape::Bool],
        INT => {
            let twos = (0..64).map(|k| 1u64 << k);
            let tens = (0..19).map(|k| 10u64.pow(k));
            let magnitudes: Vec<u64> = twos.chain(tens).collect();
            let positive = magnitudes.iter().filter_map(|&m| i64::try_from(m).ok());
            let negative = magnitudes
                .iter()
                .filter_map(|&m| 0i64.checked_sub_unsigned(m));
            std::iter::once(0)
                .chain(positive)
                .chain(negative)
                .map(Shape::Int)
                .collect()
        }
        CHAR => (0..128).map(Shape::Char).collect(),
        STR => {
            let unescaped = (0..=longest).map(|length| Shape::Str { length, escaped: 0 });
            let full = (1..=longest).map(|escaped| Shape::Str {
                length: longest,
                escaped,
            });
            unescaped.chain(full).collect()
        }
        LIST => vec![Shape::List],
        _ => unreachable!("tags were checked"),
    }
}

impl Reader {
    /// The reader that a directive with these parameters is.
    pub fn of(directive: &Directive, values: &[Option<usize>; 4]) -> Reader {
        let number = |i: usize, default: usize| values[i].unwrap_or(default);
        let pad = || Pad {
            minwidth: number(0, 0),
            padinc: number(1, 1),
            minpad: number(2, 0),
        };
        match (directive.code, directive.colon, directive.at) {
            (Code::Display, ..) => Reader::Display(pad()),
            (Code::Write, ..) => Reader::Write(pad()),
            (Code::Integer(base), colon, at) => Reader::Numeral {
                base,
                minwidth: number(0, 0),
                plus: at,
                commawidth: colon.then(|| number(3, 3)),
            },
            (Code::Character, true, _) => Reader::Careted,
            (Code::Character, _, true) => Reader::Named,
            (Code::Character, ..) => Reader::Plain,
            (Code::Plural, _, true) => Reader::Plural { one: 1, other: 3 },
            (Code::Plural, ..) => Reader::Plural { one: 0, other: 1 },
            _ => unreachable!("reads no argument"),
        }
    }

    pub fn takes(&self, kind: u8) -> bool {
        match self {
            Reader::Display(_) | Reader::Write(_) => kind != LIST,
            Reader::Numeral { .. } => kind == INT,
            Reader::Plain | Reader::Careted | Reader::Named => kind == CHAR,
            Reader::Plural { .. } => true,
        }
    }

    pub fn length(&self, shape: Shape) -> usize {
        match (self, shape) {
            (Reader::Display(pad), _) => pad.total(displayed_length(shape)),
            (Reader::Write(pad), Shape::Str { length, escaped }) => pad.total(2 + length + escaped),
            (Reader::Write(pad), Shape::Char(c)) => pad.total(named_length(c)),
            (Reader::Write(pad), _) => pad.total(displayed_length(shape)),
            (
                Reader::Numeral {
                    base,
                    minwidth,
                    plus,
                    commawidth,
                },
                Shape::Int(value),
            ) => {
                let digits = digit_count(value.unsigned_abs(), *base);
                let sign = usize::from(value < 0 || (*plus && value > 0));
                let commas = commawidth.map_or(0, |width| (digits - 1) / width);
                (sign + digits + commas).max(*minwidth)
            }
            (Reader::Plain, Shape::Char(_)) => 1,
            (Reader::Careted, Shape::Char(c)) => {
                if c < 32 {
                    2
                } else {
                    1
                }
            }
            (Reader::Named, Shape::Char(c)) => named_length(c),
            (Reader::Plural { one, .. }, Shape::Int(1)) => *one,
            (Reader::Plural { other, .. }, _) => *other,
            _ => unreachable!("the kind was checked"),
        }
    }
}

impl Pad {
    /// The least length + minpad + N x padinc that is minwidth or more.
    fn total(&self, length: usize) -> usize {
        let unpadded = length + self.minpad;
        if unpadded >= self.minwidth {
            return unpadded;
        }
        let short = self.minwidth - unpadded;
        unpadded + short.div_ceil(self.padinc) * self.padinc
    }
}

fn displayed_length(shape: Shape) -> usize {
    match shape {
        Shape::Bool => 2,
        Shape::Int(value) => usize::from(value < 0) + digit_count(value.unsigned_abs(), 10),
        Shape::Char(_) => 1,
        Shape::Str { length, .. } => length,
        Shape::List => unreachable!("the kind was checked"),
    }
}

/// The length of `~@c`.
fn named_length(c: u8) -> usize {
    2 + match c {
        0 => "null".len(),
        7 => "alarm".len(),
        8 => "backspace".len(),
        9 => "tab".len(),
        10 => "newline".len(),
        13 => "return".len(),
        27 => "escape".len(),
        32 => "space".len(),
        127 => "delete".len(),
        1..=15 => 2,
        16..=31 => 3,
        _ => 1,
    }
}

fn digit_count(magnitude: u64, base: u64) -> usize {
    let mut count = 1;
    let mut rest = magnitude / base;
    while rest > 0 {
        count += 1;
        rest /= base;
    }
    count
}
