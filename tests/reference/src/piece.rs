//! The texts that directives write.

use crate::table::Entry;

/// The parameters of `~a` and `~s`.
pub struct Padding {
    pub minwidth: usize,
    pub padinc: usize,
    pub minpad: usize,
    pub padchar: u8,
    pub left: bool,
}

impl Padding {
    /// "Padding is minpad + N x padinc, N the least that brings the total to
    /// minwidth".
    pub fn amount(&self, length: usize) -> usize {
        let short = self.minwidth.saturating_sub(length + self.minpad);
        self.minpad + short.div_ceil(self.padinc) * self.padinc
    }

    pub fn apply(&self, text: &[u8], out: &mut Vec<u8>) {
        let amount = self.amount(text.len());
        if !self.left {
            out.extend_from_slice(text);
        }
        repeat(self.padchar, amount, out);
        if self.left {
            out.extend_from_slice(text);
        }
    }
}

/// The parameters of `~d ~x ~o ~b`.
pub struct Numeral {
    pub base: u64,
    pub minwidth: usize,
    pub padchar: u8,
    pub plus: bool,
    /// commachar and commawidth, with the modifier `:`.
    pub groups: Option<(u8, usize)>,
}

impl Numeral {
    pub fn write(&self, value: i64, out: &mut Vec<u8>) {
        let digits = digits(value.unsigned_abs(), self.base);
        let mut text = Vec::new();
        // "@ puts `+` before positive numbers, not zero"
        if value < 0 {
            text.push(b'-');
        } else if self.plus && value > 0 {
            text.push(b'+');
        }
        for (i, &digit) in digits.iter().enumerate() {
            if let Some((commachar, commawidth)) = self.groups {
                // "`:` groups digits from the right."
                if i > 0 && (digits.len() - i).is_multiple_of(commawidth) {
                    text.push(commachar);
                }
            }
            text.push(digit);
        }
        // "Padding stands left of the sign."
        repeat(self.padchar, self.minwidth.saturating_sub(text.len()), out);
        out.extend_from_slice(&text);
    }
}

/// `~a` of anything but a list, for which there is none.
pub fn displayed(entry: Entry, out: &mut Vec<u8>) -> Option<()> {
    match entry {
        Entry::Bool(true) => out.extend_from_slice(b"#t"),
        Entry::Bool(false) => out.extend_from_slice(b"#f"),
        Entry::Int(value) => {
            if value < 0 {
                out.push(b'-');
            }
            out.extend_from_slice(&digits(value.unsigned_abs(), 10));
        }
        Entry::Char(c) => out.push(c),
        Entry::Str(bytes) => out.extend_from_slice(bytes),
        // "A list is of the wrong kind."
        Entry::List { .. } => return None,
    }
    Some(())
}

/// `~s`: "string in `"`, with a backslash before each `"` and backslash;
/// character as in `~@c`; otherwise as `~a`".
pub fn written(entry: Entry, out: &mut Vec<u8>) -> Option<()> {
    match entry {
        Entry::Char(c) => named(c, out),
        Entry::Str(bytes) => {
            out.push(b'"');
            for &byte in bytes {
                if byte == b'"' || byte == b'\\' {
                    out.push(b'\\');
                }
                out.push(byte);
            }
            out.push(b'"');
        }
        _ => return displayed(entry, out),
    }
    Some(())
}

/// `~:c`: "0 to 31 as `^` and the code plus 64".
pub fn careted(c: u8, out: &mut Vec<u8>) {
    if c < 32 {
        out.extend_from_slice(&[b'^', c + 64]);
    } else {
        out.push(c);
    }
}

/// `~@c`.
pub fn named(c: u8, out: &mut Vec<u8>) {
    out.extend_from_slice(b"#\\");
    match c {
        0 => out.extend_from_slice(b"null"),
        7 => out.extend_from_slice(b"alarm"),
        8 => out.extend_from_slice(b"backspace"),
        9 => out.extend_from_slice(b"tab"),
        10 => out.extend_from_slice(b"newline"),
        13 => out.extend_from_slice(b"return"),
        27 => out.extend_from_slice(b"escape"),
        32 => out.extend_from_slice(b"space"),
        127 => out.extend_from_slice(b"delete"),
        // "`x` with lower-case hex, no leading zero, for other codes below 32"
        1..=31 => {
            out.push(b'x');
            out.extend_from_slice(&digits(u64::from(c), 16));
        }
        _ => out.push(c),
    }
}

pub fn repeat(byte: u8, count: usize, out: &mut Vec<u8>) {
    out.resize(out.len() + count, byte);
}

fn digits(mut magnitude: u64, base: u64) -> Vec<u8> {
    let mut reversed = Vec::new();
    loop {
        reversed.push(b"0123456789abcdef"[(magnitude % base) as usize]);
        magnitude /= base;
        if magnitude == 0 {
            reversed.reverse();
            return reversed;
        }
    }
}
