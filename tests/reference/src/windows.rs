//! Request Eleven: the same run, into small windows. Where the recursion of
//! a run into one buffer has calls, a line has the blocks that are open.

use crate::act::{Actor, Arguments, Flow, Refusal};
use crate::run::{self, Answer};
use crate::tree::Node;

/// The code of "more". Its position and its steps are 0.
pub const MORE: u32 = 256;

/// A line, as far as the calls so far have brought it: "each call has the
/// same format and table, and the last call's state, the first a fresh one".
pub struct Windows<'a> {
    line: Result<Line<'a>, Refusal>,
    /// Code, position and steps, once they are answered.
    end: Option<End>,
}

type End = (u32, usize, usize);

impl<'a> Windows<'a> {
    pub fn new(format: &'a [u8], table: &'a [u8]) -> Windows<'a> {
        let line = run::read(format, table).map(|(table, nodes)| Line {
            format,
            nodes,
            arguments: Arguments::of(&table),
            actor: Actor::new(table),
            open: Vec::new(),
            next: 0,
            byte: 0,
            written: 0,
        });
        Windows { line, end: None }
    }

    /// One call, with a window of so many bytes.
    pub fn call(&mut self, window: usize) -> Answer {
        let mut text = Vec::new();
        // "Until the end is answered a window of 0 bytes changes nothing and
        // answers "more" with 0 bytes. A call after the end repeats code,
        // position and steps and writes nothing."
        if self.end.is_none() && window > 0 {
            self.end = match &mut self.line {
                Ok(line) => line.fill(window, &mut text),
                Err(refusal) => Some((refusal.code, refusal.position, 0)),
            };
        }
        let (code, position, steps) = self.end.unwrap_or((MORE, 0, 0));
        Answer {
            code,
            position,
            steps,
            text,
        }
    }

    /// How many blocks are open.
    pub fn open_blocks(&self) -> usize {
        self.line.as_ref().map_or(0, |line| line.open.len())
    }

    /// Whether a piece has been written in part.
    pub fn in_a_piece(&self) -> bool {
        let cut = |line: &Line| line.written > 0 && line.written < line.actor.piece.len();
        self.end.is_none() && self.line.as_ref().is_ok_and(cut)
    }
}

/// "its state keeps the open blocks, at most eight, with the place and list
/// of each"
struct Open {
    tilde: usize,
    /// Its node in the sequence around it.
    node: usize,
    /// The clause that runs; an iteration has its body alone.
    clause: usize,
    passes: Option<Passes>,
    /// The list of a `~{`. Other blocks have that of the block around them.
    list: Option<Arguments>,
}

/// The passes of an iteration.
struct Passes {
    begun: u32,
    most: Option<u32>,
}

struct Line<'a> {
    format: &'a [u8],
    nodes: Vec<Node>,
    arguments: Arguments,
    actor: Actor<'a>,
    open: Vec<Open>,
    /// The next node of the innermost open block, or of the whole format.
    next: usize,
    /// How many bytes of it have been pieces, if it is literal text.
    byte: usize,
    /// How many bytes of the piece made last are written.
    written: usize,
}

impl Line<'_> {
    /// "a call stops only at the end or where the next byte has no room"
    fn fill(&mut self, window: usize, text: &mut Vec<u8>) -> Option<End> {
        loop {
            let rest = &self.actor.piece[self.written..];
            let fitting = rest.len().min(window - text.len());
            text.extend_from_slice(&rest[..fitting]);
            self.written += fitting;
            // "Pieces may be cut at a window's end".
            if self.written < self.actor.piece.len() {
                return None;
            }
            self.actor.piece.clear();
            self.written = 0;
            match self.advance() {
                Ok(false) => {}
                Ok(true) => return Some((0, 0, self.actor.steps)),
                Err(refusal) => return Some((refusal.code, refusal.position, self.actor.steps)),
            }
        }
    }

    /// Does what comes next: a literal byte, a directive, or the end of a
    /// sequence. Whether the line ends with that.
    fn advance(&mut self) -> Result<bool, Refusal> {
        let Some(node) = innermost(&self.nodes, &self.open).get(self.next) else {
            return self.close();
        };
        let arguments = current(&mut self.open, &mut self.arguments);
        match node {
            Node::Text { start, end } => {
                let at = start + self.byte;
                self.actor.step(at)?;
                self.actor.piece.push(self.format[at]);
                self.byte += 1;
                if at + 1 == *end {
                    self.go_to(self.next + 1);
                }
            }
            Node::Single(directive) => match self.actor.single(directive, arguments)? {
                Flow::Escaped => return Ok(self.escape()),
                Flow::Finished => self.go_to(self.next + 1),
            },
            Node::Conditional {
                opener,
                clauses,
                has_default,
            } => {
                let (tilde, count) = (opener.tilde, clauses.len());
                match self.actor.chosen(opener, count, *has_default, arguments)? {
                    Some(clause) => self.enter(tilde, clause, None, None),
                    None => self.go_to(self.next + 1),
                }
            }
            Node::Iteration { opener, .. } => {
                let tilde = opener.tilde;
                let (most, list) = self.actor.entered(opener, arguments)?;
                self.enter(tilde, 0, Some(Passes { begun: 0, most }), list);
                return self.close();
            }
        }
        Ok(false)
    }

    fn go_to(&mut self, node: usize) {
        self.next = node;
        self.byte = 0;
    }

    fn enter(
        &mut self,
        tilde: usize,
        clause: usize,
        passes: Option<Passes>,
        list: Option<Arguments>,
    ) {
        self.open.push(Open {
            tilde,
            node: self.next,
            clause,
            passes,
            list,
        });
        self.go_to(0);
    }

    fn leave(&mut self) -> Option<Open> {
        let block = self.open.pop()?;
        self.go_to(block.node + 1);
        Some(block)
    }

    /// The end of a clause, of a pass, or of the whole format; and the place
    /// before a first pass.
    fn close(&mut self) -> Result<bool, Refusal> {
        let remaining = current(&mut self.open, &mut self.arguments).remaining();
        let Some(block) = self.open.last_mut() else {
            return Ok(true);
        };
        match &mut block.passes {
            // "Before each pass it ends if none remain or the passes are used
            // up."
            Some(Passes { begun, most }) if remaining > 0 && most.is_none_or(|n| *begun < n) => {
                *begun += 1;
                self.actor.step(block.tilde)?;
                self.go_to(0);
            }
            _ => {
                self.leave();
            }
        }
        Ok(false)
    }

    /// "ends the innermost iteration, or the whole format"
    fn escape(&mut self) -> bool {
        while let Some(block) = self.leave() {
            if block.passes.is_some() {
                return false;
            }
        }
        true
    }
}

/// The sequence that the innermost open block runs.
fn innermost<'n>(nodes: &'n [Node], open: &[Open]) -> &'n [Node] {
    open.iter()
        .fold(nodes, |around, block| match &around[block.node] {
            Node::Conditional { clauses, .. } => &clauses[block.clause],
            Node::Iteration { body, .. } => body,
            Node::Text { .. } | Node::Single(_) => unreachable!("they hold no block"),
        })
}

/// The list of the innermost block that has one, or the arguments of the
/// table.
fn current<'l>(open: &'l mut [Open], own: &'l mut Arguments) -> &'l mut Arguments {
    let lists = open.iter_mut().rev();
    let mut lists = lists.filter_map(|block| block.list.as_mut());
    lists.next().unwrap_or(own)
}
