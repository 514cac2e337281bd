//! What one directive does: its step, its parameters, its argument, and the
//! piece that it makes.

use crate::directive::{Code, Directive, Param, Place};
use crate::piece::{self, Numeral, Padding};
use crate::table::{Entry, Table};
use crate::MOST_STEPS;

pub struct Refusal {
    pub code: u32,
    pub position: usize,
}

/// How a sequence came to its end.
#[derive(PartialEq, Eq)]
pub enum Flow {
    Finished,
    /// A `~^` met no remaining argument.
    Escaped,
}

/// The current arguments: `count` entries from entry `first`.
pub struct Arguments {
    first: usize,
    count: usize,
    position: usize,
}

impl Arguments {
    /// "The arguments are entries 0 to m-1."
    pub fn of(table: &Table) -> Arguments {
        Arguments {
            first: 0,
            count: table.arguments(),
            position: 0,
        }
    }

    pub fn remaining(&self) -> usize {
        self.count - self.position
    }

    /// The entry number of the next argument.
    fn next_entry(&self) -> Option<usize> {
        (self.remaining() > 0).then_some(self.first + self.position)
    }
}

/// The parameters' values; None stands for the default.
struct Values([Option<u32>; 4]);

impl Values {
    fn number(&self, place: usize, default: usize) -> usize {
        self.0[place].map_or(default, |value| value as usize)
    }

    fn character(&self, place: usize, default: u8) -> u8 {
        self.0[place].map_or(default, |value| value as u8)
    }
}

/// A table, the steps done over it, and the piece made last.
pub struct Actor<'a> {
    table: Table<'a>,
    pub steps: usize,
    pub piece: Vec<u8>,
}

impl<'a> Actor<'a> {
    pub fn new(table: Table<'a>) -> Actor<'a> {
        Actor {
            table,
            steps: 0,
            piece: Vec::new(),
        }
    }

    pub fn step(&mut self, position: usize) -> Result<(), Refusal> {
        if self.steps == MOST_STEPS {
            return Err(Refusal { code: 9, position });
        }
        self.steps += 1;
        Ok(())
    }

    /// Takes the next argument, or refuses with code 6.
    fn take(&self, tilde: usize, arguments: &mut Arguments) -> Result<Entry<'a>, Refusal> {
        let entry = self.peek(tilde, arguments)?;
        arguments.position += 1;
        Ok(entry)
    }

    fn peek(&self, tilde: usize, arguments: &Arguments) -> Result<Entry<'a>, Refusal> {
        match arguments.next_entry() {
            Some(index) => Ok(self.table.entry(index)),
            None => Err(Refusal {
                code: 6,
                position: tilde,
            }),
        }
    }

    /// "worked out left to right, before the directive's own argument"
    fn values(&self, directive: &Directive, arguments: &mut Arguments) -> Result<Values, Refusal> {
        let refuse = |code| {
            Err(Refusal {
                code,
                position: directive.tilde,
            })
        };
        let mut values = [None; 4];
        for (i, (&param, &place)) in directive.params.iter().zip(directive.places()).enumerate() {
            let worked: i64 = match param {
                Param::Empty => continue,
                Param::Number(number) => i64::from(number),
                Param::Byte(byte) => i64::from(byte),
                Param::Remaining => arguments.remaining() as i64,
                // "`v` takes an integer in a number place and a character in
                // a character place."
                Param::Next => match (self.take(directive.tilde, arguments)?, place) {
                    (Entry::Int(value), Place::Number { .. }) => value,
                    (Entry::Char(c), Place::Character) => i64::from(c),
                    _ => return refuse(7),
                },
            };
            if let Place::Number { least, most } = place {
                if worked < i64::from(least) || worked > i64::from(most) {
                    return refuse(8);
                }
            }
            values[i] = Some(worked as u32);
        }
        Ok(Values(values))
    }

    /// A directive that holds no block: its step, and its piece made.
    pub fn single(
        &mut self,
        directive: &Directive,
        arguments: &mut Arguments,
    ) -> Result<Flow, Refusal> {
        self.step(directive.tilde)?;
        let values = self.values(directive, arguments)?;
        self.piece.clear();
        match directive.code {
            Code::Display | Code::Write => self.display(directive, &values, arguments)?,
            Code::Integer(base) => self.integer(base, directive, &values, arguments)?,
            Code::Character => self.character(directive, &values, arguments)?,
            Code::Plural => self.plural(directive, arguments)?,
            Code::Jump => jump(directive, &values, arguments)?,
            Code::Repeat(byte) => piece::repeat(byte, values.number(0, 1), &mut self.piece),
            // "`@` writes the newline and skips the rest"
            Code::Newline => piece::repeat(b'\n', usize::from(directive.at), &mut self.piece),
            Code::Escape if arguments.remaining() == 0 => return Ok(Flow::Escaped),
            Code::Escape => {}
            Code::OpenConditional
            | Code::Separator
            | Code::CloseConditional
            | Code::OpenIteration
            | Code::CloseIteration => unreachable!("blocks are nodes of their own"),
        }
        Ok(Flow::Finished)
    }

    fn display(
        &mut self,
        directive: &Directive,
        values: &Values,
        arguments: &mut Arguments,
    ) -> Result<(), Refusal> {
        let entry = self.take(directive.tilde, arguments)?;
        let mut text = Vec::new();
        let made = match directive.code {
            Code::Display => piece::displayed(entry, &mut text),
            _ => piece::written(entry, &mut text),
        };
        made.ok_or(refused(7, directive))?;
        let padding = Padding {
            minwidth: values.number(0, 0),
            padinc: values.number(1, 1),
            minpad: values.number(2, 0),
            padchar: values.character(3, b' '),
            left: directive.at,
        };
        padding.apply(&text, &mut self.piece);
        Ok(())
    }

    fn integer(
        &mut self,
        base: u64,
        directive: &Directive,
        values: &Values,
        arguments: &mut Arguments,
    ) -> Result<(), Refusal> {
        let Entry::Int(value) = self.take(directive.tilde, arguments)? else {
            return Err(refused(7, directive));
        };
        let groups = (values.character(2, b','), values.number(3, 3));
        let numeral = Numeral {
            base,
            minwidth: values.number(0, 0),
            padchar: values.character(1, b' '),
            plus: directive.at,
            groups: directive.colon.then_some(groups),
        };
        numeral.write(value, &mut self.piece);
        Ok(())
    }

    fn character(
        &mut self,
        directive: &Directive,
        values: &Values,
        arguments: &mut Arguments,
    ) -> Result<(), Refusal> {
        let c = match values.0[0] {
            Some(charnum) => charnum as u8,
            None => match self.take(directive.tilde, arguments)? {
                Entry::Char(c) => c,
                _ => return Err(refused(7, directive)),
            },
        };
        match (directive.colon, directive.at) {
            (true, _) => piece::careted(c, &mut self.piece),
            (_, true) => piece::named(c, &mut self.piece),
            _ => self.piece.push(c),
        }
        Ok(())
    }

    fn plural(&mut self, directive: &Directive, arguments: &mut Arguments) -> Result<(), Refusal> {
        // "`:` first steps back one argument."
        if directive.colon {
            let back = arguments.position.checked_sub(1);
            arguments.position = back.ok_or(refused(6, directive))?;
        }
        let one = self.take(directive.tilde, arguments)? == Entry::Int(1);
        let text: &[u8] = match (directive.at, one) {
            (false, true) => b"",
            (false, false) => b"s",
            (true, true) => b"y",
            (true, false) => b"ies",
        };
        self.piece.extend_from_slice(text);
        Ok(())
    }

    /// The clause that a conditional of so many runs, if any.
    pub fn chosen(
        &mut self,
        opener: &Directive,
        clauses: usize,
        has_default: bool,
        arguments: &mut Arguments,
    ) -> Result<Option<usize>, Refusal> {
        let tilde = opener.tilde;
        self.step(tilde)?;
        let values = self.values(opener, arguments)?;
        if opener.colon {
            // "`#f` the first, all else the second"
            let entry = self.take(tilde, arguments)?;
            return Ok(Some(usize::from(entry != Entry::Bool(false))));
        }
        if opener.at {
            // "`#f` is taken and nothing written; else the argument isn't
            // taken and the clause runs"
            if self.peek(tilde, arguments)? == Entry::Bool(false) {
                arguments.position += 1;
                return Ok(None);
            }
            return Ok(Some(0));
        }
        let picked = match values.0[0] {
            Some(n) => i64::from(n),
            None => match self.take(tilde, arguments)? {
                Entry::Int(value) => value,
                _ => return Err(refused(7, opener)),
            },
        };
        // "none such: the clause after a last `~:;`, else nothing"
        let named = usize::try_from(picked).ok();
        let named = named.filter(|&picked| picked < clauses);
        Ok(named.or(has_default.then_some(clauses - 1)))
    }

    /// What an iteration runs over: its most passes, and its list; `~@{` has
    /// none of its own.
    pub fn entered(
        &mut self,
        opener: &Directive,
        arguments: &mut Arguments,
    ) -> Result<(Option<u32>, Option<Arguments>), Refusal> {
        self.step(opener.tilde)?;
        let most = self.values(opener, arguments)?.0[0];
        if opener.at {
            return Ok((most, None));
        }
        match self.take(opener.tilde, arguments)? {
            Entry::List { first, count } => {
                let list = Arguments {
                    first,
                    count,
                    position: 0,
                };
                Ok((most, Some(list)))
            }
            _ => Err(refused(7, opener)),
        }
    }
}

fn refused(code: u32, directive: &Directive) -> Refusal {
    Refusal {
        code,
        position: directive.tilde,
    }
}

/// "`~*` forward n, `~:*` back, `~@*` to n. From 0 to the count is legal, the
/// count included."
fn jump(directive: &Directive, values: &Values, arguments: &mut Arguments) -> Result<(), Refusal> {
    let n = values.number(0, if directive.at { 0 } else { 1 });
    let to = match (directive.colon, directive.at) {
        (true, _) => arguments.position.checked_sub(n),
        (_, true) => Some(n),
        _ => Some(arguments.position + n),
    };
    let to = to.filter(|&to| to <= arguments.count);
    arguments.position = to.ok_or(refused(6, directive))?;
    Ok(())
}
