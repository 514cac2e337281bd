//! A run over kinds alone: which directive reads which argument, and the
//! first refusal that is met.

use super::lengths::{Reader, Shape};
use super::{Refusal, BOOL, INT};
use crate::directive::{Code, Directive, Param, Place};
use crate::tree::Node;

/// What one node writes.
pub enum Part {
    /// So many bytes, whatever the arguments are.
    Fixed(usize),
    /// A piece made of one argument.
    Read { argument: usize, reader: Reader },
    /// One of these clauses, or nothing.
    Either(Vec<Vec<Part>>),
}

/// The parts of the whole format.
pub fn walk(nodes: &[Node], kinds: &[u8]) -> Result<Vec<Part>, Refusal> {
    let mut walker = Walker { kinds, position: 0 };
    walker.sequence(nodes)
}

struct Walker<'a> {
    kinds: &'a [u8],
    /// The number of the next argument.
    position: usize,
}

impl Walker<'_> {
    fn sequence(&mut self, nodes: &[Node]) -> Result<Vec<Part>, Refusal> {
        let part = |node: &Node| match node {
            Node::Text { start, end } => Ok(Part::Fixed(end - start)),
            Node::Single(directive) => self.single(directive),
            Node::Conditional {
                opener,
                clauses,
                has_default,
            } => self.conditional(opener, clauses, *has_default),
            Node::Iteration { .. } => unreachable!("not allowed"),
        };
        nodes.iter().map(part).collect()
    }

    /// The kind of the next argument, or code 6.
    fn peek(&self, tilde: usize) -> Result<u8, Refusal> {
        self.kinds.get(self.position).copied().ok_or((6, tilde))
    }

    /// The same, and past it.
    fn take(&mut self, tilde: usize) -> Result<u8, Refusal> {
        let kind = self.peek(tilde)?;
        self.position += 1;
        Ok(kind)
    }

    fn single(&mut self, directive: &Directive) -> Result<Part, Refusal> {
        let tilde = directive.tilde;
        let values = self.values(directive)?;
        let reader = match directive.code {
            Code::Repeat(_) => return Ok(Part::Fixed(values[0].unwrap_or(1))),
            Code::Newline => return Ok(Part::Fixed(usize::from(directive.at))),
            _ => Reader::of(directive, &values),
        };
        if let (Code::Character, Some(charnum)) = (directive.code, values[0]) {
            let length = reader.length(Shape::Char(charnum as u8));
            return Ok(Part::Fixed(length));
        }
        // "`:` first steps back one argument."
        if directive.code == Code::Plural && directive.colon {
            self.position = self.position.checked_sub(1).ok_or((6, tilde))?;
        }
        let argument = self.position;
        let kind = self.take(tilde)?;
        if !reader.takes(kind) {
            return Err((7, tilde));
        }
        Ok(Part::Read { argument, reader })
    }

    /// Every clause is walked through, whichever of them the kinds, `#` or a
    /// number written there could choose, and from the same argument.
    fn conditional(
        &mut self,
        opener: &Directive,
        clauses: &[Vec<Node>],
        has_default: bool,
    ) -> Result<Part, Refusal> {
        let (start, unwritten) = self.opened(opener, has_default)?;
        let mut ends: Vec<usize> = unwritten.into_iter().collect();
        let mut parts = Vec::new();
        for clause in clauses {
            self.position = start;
            parts.push(self.sequence(clause)?);
            ends.push(self.position);
        }
        // "unequal ends ... the first met (ends at the closer)"
        if ends.iter().any(|&end| end != ends[0]) {
            return Err((11, opener.tilde));
        }
        Ok(Part::Either(parts))
    }

    /// The argument at which each clause begins, and the one at which the
    /// way that writes nothing ends, if there is such a way.
    fn opened(
        &mut self,
        opener: &Directive,
        has_default: bool,
    ) -> Result<(usize, Option<usize>), Refusal> {
        let tilde = opener.tilde;
        let values = self.values(opener)?;
        if opener.at {
            // "`~@[` is accepted only for a boolean (none left is 6)"; one
            // that is `#f` is taken, and otherwise left to the clause.
            if self.peek(tilde)? != BOOL {
                return Err((11, tilde));
            }
            return Ok((self.position, Some(self.position + 1)));
        }
        if opener.colon {
            self.take(tilde)?;
            return Ok((self.position, None));
        }
        if values[0].is_none() && self.take(tilde)? != INT {
            return Err((7, tilde));
        }
        // "For `~[` without `~:;`, running none is a way."
        let unwritten = (!has_default).then_some(self.position);
        Ok((self.position, unwritten))
    }

    /// The parameters' values, or code 8 if a `#` is outside its place's
    /// range. Bytes count for nothing in a length, but are kept in place.
    fn values(&self, directive: &Directive) -> Result<[Option<usize>; 4], Refusal> {
        let remaining = self.kinds.len() - self.position;
        let mut values = [None; 4];
        for (i, (&param, &place)) in directive.params.iter().zip(directive.places()).enumerate() {
            values[i] = match param {
                Param::Empty => None,
                Param::Number(number) => Some(number as usize),
                Param::Byte(byte) => Some(usize::from(byte)),
                Param::Remaining => match place {
                    Place::Number { least, most }
                        if (least as usize) <= remaining && remaining <= most as usize =>
                    {
                        Some(remaining)
                    }
                    _ => return Err((8, directive.tilde)),
                },
                Param::Next => unreachable!("not allowed"),
            };
        }
        Ok(values)
    }
}
