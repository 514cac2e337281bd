//! Running a tree over a table, into one buffer.

use crate::act::{Actor, Arguments, Flow, Refusal};
use crate::directive::Directive;
use crate::table::Table;
use crate::tree::{self, Node};
use crate::MOST_STEPS;

/// What format answers. On codes 6 to 10 the text holds the kept pieces.
#[derive(Clone, Debug, PartialEq, Eq)]
pub struct Answer {
    pub code: u32,
    pub position: usize,
    pub steps: usize,
    pub text: Vec<u8>,
}

/// "Order for format: 1, 2, then 3 to 5 over the whole text ... Then the run".
pub fn format(format: &[u8], table: &[u8], room: usize) -> Answer {
    let (table, nodes) = match read(format, table) {
        Ok(read) => read,
        Err(Refusal { code, position }) => {
            return Answer {
                code,
                position,
                steps: 0,
                text: Vec::new(),
            }
        }
    };
    let mut arguments = Arguments::of(&table);
    let mut runner = Runner {
        format,
        actor: Actor::new(table),
        room,
        out: Vec::new(),
    };
    let (code, position) = match runner.sequence(&nodes, &mut arguments) {
        Ok(_) => (0, 0),
        Err(Refusal { code, position }) => (code, position),
    };
    Answer {
        code,
        position,
        steps: runner.actor.steps,
        text: runner.out,
    }
}

/// The table and the tree, or a refusal of codes 1 to 5.
pub fn read<'a>(format: &[u8], table: &'a [u8]) -> Result<(Table<'a>, Vec<Node>), Refusal> {
    let table = Table::read(table).map_err(|position| Refusal { code: 1, position })?;
    let nodes = tree::parse(format).map_err(|(code, position)| Refusal { code, position })?;
    Ok((table, nodes))
}

struct Runner<'a> {
    format: &'a [u8],
    actor: Actor<'a>,
    room: usize,
    out: Vec<u8>,
}

impl Runner<'_> {
    fn sequence(&mut self, nodes: &[Node], arguments: &mut Arguments) -> Result<Flow, Refusal> {
        for node in nodes {
            let flow = match node {
                Node::Text { start, end } => self.literal(*start, *end)?,
                Node::Single(directive) => self.single(directive, arguments)?,
                Node::Conditional {
                    opener,
                    clauses,
                    has_default,
                } => {
                    let count = clauses.len();
                    let chosen = self.actor.chosen(opener, count, *has_default, arguments)?;
                    match chosen {
                        Some(clause) => self.sequence(&clauses[clause], arguments)?,
                        None => Flow::Finished,
                    }
                }
                Node::Iteration { opener, body } => self.iteration(opener, body, arguments)?,
            };
            if flow == Flow::Escaped {
                return Ok(flow);
            }
        }
        Ok(Flow::Finished)
    }

    /// Literal bytes, each one a step and a piece.
    fn literal(&mut self, start: usize, end: usize) -> Result<Flow, Refusal> {
        let steps_left = MOST_STEPS - self.actor.steps;
        let room_left = self.room - self.out.len();
        let fitting = (end - start).min(steps_left).min(room_left);
        self.out
            .extend_from_slice(&self.format[start..start + fitting]);
        self.actor.steps += fitting;
        if start + fitting == end {
            return Ok(Flow::Finished);
        }
        self.actor.step(start + fitting)?;
        Err(Refusal {
            code: 10,
            position: start + fitting,
        })
    }

    /// A directive that holds no block. Its piece is written whole or not at
    /// all.
    fn single(
        &mut self,
        directive: &Directive,
        arguments: &mut Arguments,
    ) -> Result<Flow, Refusal> {
        let flow = self.actor.single(directive, arguments)?;
        if self.actor.piece.len() > self.room - self.out.len() {
            return Err(Refusal {
                code: 10,
                position: directive.tilde,
            });
        }
        self.out.extend_from_slice(&self.actor.piece);
        Ok(flow)
    }

    fn iteration(
        &mut self,
        opener: &Directive,
        body: &[Node],
        arguments: &mut Arguments,
    ) -> Result<Flow, Refusal> {
        let (most, mut list) = self.actor.entered(opener, arguments)?;
        let over = list.as_mut().unwrap_or(arguments);
        let mut passes = 0;
        // "Before each pass it ends if none remain or the passes are used up."
        while over.remaining() > 0 && most.is_none_or(|most| passes < most) {
            self.actor.step(opener.tilde)?;
            passes += 1;
            if self.sequence(body, over)? == Flow::Escaped {
                break;
            }
        }
        Ok(Flow::Finished)
    }
}
