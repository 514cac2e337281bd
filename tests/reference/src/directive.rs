//! Reading one directive, and what its parameters and modifiers may be.

use crate::MOST_NUMBER;

/// The codes of the base directives.
#[derive(Clone, Copy, Debug, PartialEq, Eq)]
pub enum Code {
    Display,
    Write,
    /// `~d ~x ~o ~b`, with the base.
    Integer(u64),
    Character,
    Plural,
    Jump,
    /// `~~ ~% ~_ ~| ~/`, with the byte repeated.
    Repeat(u8),
    Newline,
    OpenConditional,
    Separator,
    CloseConditional,
    OpenIteration,
    CloseIteration,
    Escape,
}

impl Code {
    /// "Letters in either case. Any other is unknown."
    fn of(byte: u8) -> Option<Code> {
        Some(match byte.to_ascii_lowercase() {
            b'a' => Code::Display,
            b's' => Code::Write,
            b'd' => Code::Integer(10),
            b'x' => Code::Integer(16),
            b'o' => Code::Integer(8),
            b'b' => Code::Integer(2),
            b'c' => Code::Character,
            b'p' => Code::Plural,
            b'*' => Code::Jump,
            b'~' => Code::Repeat(b'~'),
            b'%' => Code::Repeat(b'\n'),
            b'_' => Code::Repeat(b' '),
            b'|' => Code::Repeat(12),
            b'/' => Code::Repeat(b'\t'),
            b'\n' => Code::Newline,
            b'[' => Code::OpenConditional,
            b';' => Code::Separator,
            b']' => Code::CloseConditional,
            b'{' => Code::OpenIteration,
            b'}' => Code::CloseIteration,
            b'^' => Code::Escape,
            _ => return None,
        })
    }
}

/// One parameter as written.
#[derive(Clone, Copy, Debug, PartialEq, Eq)]
pub enum Param {
    /// "or empty (default)"
    Empty,
    Number(u32),
    /// "`'` and a byte"
    Byte(u8),
    /// "`v` or `V` (takes the next argument)"
    Next,
    /// "`#` (arguments remaining)"
    Remaining,
}

/// What fits in one parameter place.
#[derive(Clone, Copy, Debug, PartialEq, Eq)]
pub enum Place {
    Number { least: u32, most: u32 },
    Character,
}

const NUMBER: Place = Place::Number {
    least: 0,
    most: MOST_NUMBER,
};
/// "Padinc and commawidth are at least 1."
const FROM_ONE: Place = Place::Number {
    least: 1,
    most: MOST_NUMBER,
};
/// "charnum, 0 to 127"
const CHARNUM: Place = Place::Number {
    least: 0,
    most: 127,
};

impl Place {
    /// "A byte after `'` fits only a character place; a number or `#` only a
    /// number place." "A literal zero where 1 is least, or charnum above 127,
    /// is code 5."
    fn fits(self, param: Param) -> bool {
        match (param, self) {
            (Param::Empty | Param::Next, _) => true,
            (Param::Number(n), Place::Number { least, most }) => least <= n && n <= most,
            (Param::Remaining, Place::Number { .. }) => true,
            (Param::Byte(_), Place::Character) => true,
            _ => false,
        }
    }
}

/// One directive, read.
#[derive(Clone, Debug, PartialEq, Eq)]
pub struct Directive {
    pub tilde: usize,
    /// The position after its code.
    pub end: usize,
    pub code: Code,
    pub colon: bool,
    pub at: bool,
    pub params: Vec<Param>,
}

impl Directive {
    /// Reads the directive whose tilde stands at `tilde`. The error is a
    /// code, whose position is the tilde: 5 for "a bad number (sign without
    /// digits, out of range) at once", 3 for "unknown code, or format ends
    /// inside a directive".
    pub fn read(format: &[u8], tilde: usize) -> Result<Directive, u32> {
        let mut reader = Reader {
            format,
            next: tilde + 1,
        };
        let params = reader.params()?;
        let (mut colon, mut at) = (false, false);
        loop {
            match reader.peek() {
                Some(b':') if !colon => colon = true,
                Some(b'@') if !at => at = true,
                // "The first byte that fits none of this shape is the code".
                Some(byte) => {
                    let code = Code::of(byte).ok_or(3u32)?;
                    let end = reader.next + 1;
                    return Ok(Directive {
                        tilde,
                        end,
                        code,
                        colon,
                        at,
                        params,
                    });
                }
                None => return Err(3),
            }
            reader.next += 1;
        }
    }

    /// Whether modifiers and parameters are those of its code; if not, the
    /// directive is code 5.
    pub fn shape_fits(&self) -> bool {
        let places = self.places();
        self.modifiers_fit()
            && self.params.len() <= places.len()
            && self
                .params
                .iter()
                .zip(places)
                .all(|(&param, place)| place.fits(param))
    }

    /// The parameter places, in order.
    pub fn places(&self) -> &'static [Place] {
        match self.code {
            // minwidth, padinc, minpad, padchar
            Code::Display | Code::Write => &[NUMBER, FROM_ONE, NUMBER, Place::Character],
            // minwidth, padchar, commachar, commawidth
            Code::Integer(_) => &[NUMBER, Place::Character, Place::Character, FROM_ONE],
            Code::Character => &[CHARNUM],
            Code::Jump | Code::Repeat(_) | Code::OpenIteration => &[NUMBER],
            // "`[`: n, only without modifier."
            Code::OpenConditional if !self.colon && !self.at => &[NUMBER],
            _ => &[],
        }
    }

    fn modifiers_fit(&self) -> bool {
        let (colon, at) = (self.colon, self.at);
        match self.code {
            Code::Integer(_) | Code::Plural => true,
            Code::Display | Code::Write | Code::OpenIteration => !colon,
            Code::Character | Code::Jump | Code::Newline | Code::OpenConditional => !(colon && at),
            Code::Separator => !at,
            Code::Repeat(_) | Code::CloseConditional | Code::CloseIteration | Code::Escape => {
                !colon && !at
            }
        }
    }
}

struct Reader<'a> {
    format: &'a [u8],
    next: usize,
}

impl Reader<'_> {
    fn peek(&self) -> Option<u8> {
        self.format.get(self.next).copied()
    }

    /// "With no comma and nothing written there are none, else one more than
    /// the commas, empty ones included".
    fn params(&mut self) -> Result<Vec<Param>, u32> {
        let mut params = Vec::new();
        loop {
            let param = self.param()?;
            if self.peek() != Some(b',') {
                if param != Param::Empty || !params.is_empty() {
                    params.push(param);
                }
                return Ok(params);
            }
            params.push(param);
            self.next += 1;
        }
    }

    fn param(&mut self) -> Result<Param, u32> {
        let param = match self.peek() {
            Some(b'+' | b'-' | b'0'..=b'9') => return self.number(),
            Some(b'\'') => {
                self.next += 1;
                Param::Byte(self.peek().ok_or(3u32)?)
            }
            Some(b'v' | b'V') => Param::Next,
            Some(b'#') => Param::Remaining,
            _ => return Ok(Param::Empty),
        };
        self.next += 1;
        Ok(param)
    }

    /// "a number 0 to 4,096 with optional sign (`-0` is 0)"
    fn number(&mut self) -> Result<Param, u32> {
        let negative = self.peek() == Some(b'-');
        if matches!(self.peek(), Some(b'+' | b'-')) {
            self.next += 1;
        }
        let first = self.next;
        let mut value = 0u32;
        while let Some(digit @ b'0'..=b'9') = self.peek() {
            // Held at one above the greatest: any number of digits may come.
            value = (value * 10 + u32::from(digit - b'0')).min(MOST_NUMBER + 1);
            self.next += 1;
        }
        let out_of_range = value > MOST_NUMBER || (negative && value > 0);
        if self.next == first || out_of_range {
            return Err(5);
        }
        Ok(Param::Number(value))
    }
}
