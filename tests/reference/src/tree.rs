//! The whole format as a tree of blocks, or its first fault.

use crate::directive::{Code, Directive};
use crate::{MOST_DEPTH, MOST_FORMAT};

/// A part of a sequence.
#[derive(Debug)]
pub enum Node {
    /// The literal bytes from `start` up to `end`.
    Text {
        start: usize,
        end: usize,
    },
    /// A directive that holds no block.
    Single(Directive),
    Conditional {
        opener: Directive,
        clauses: Vec<Vec<Node>>,
        /// Whether the last clause stands after a `~:;`.
        has_default: bool,
    },
    Iteration {
        opener: Directive,
        body: Vec<Node>,
    },
}

/// A block whose closer has not been met.
struct Open {
    opener: Directive,
    /// The clauses before the one being read.
    clauses: Vec<Vec<Node>>,
    has_default: bool,
    /// The sequence around the block, as far as its opener.
    around: Vec<Node>,
}

/// A fault: code and position.
pub type Fault = (u32, usize);

/// The tree, or "the first fault met in reading from the left, whatever
/// position it reports".
pub fn parse(format: &[u8]) -> Result<Vec<Node>, Fault> {
    if format.len() > MOST_FORMAT {
        return Err((2, MOST_FORMAT));
    }
    let mut opened: Vec<Open> = Vec::new();
    let mut sequence: Vec<Node> = Vec::new();
    let mut next = 0;
    while next < format.len() {
        if format[next] != b'~' {
            let end = (next..format.len())
                .find(|&i| format[i] == b'~')
                .unwrap_or(format.len());
            sequence.push(Node::Text { start: next, end });
            next = end;
            continue;
        }
        let tilde = next;
        let directive = Directive::read(format, tilde).map_err(|code| (code, tilde))?;
        // "within one directive a bad number ... at once, then 3, 4, 5"
        block_fault(&directive, &opened)?;
        if !directive.shape_fits() {
            return Err((5, tilde));
        }
        next = directive.end;
        match directive.code {
            Code::OpenConditional | Code::OpenIteration => {
                let around = std::mem::take(&mut sequence);
                opened.push(Open {
                    opener: directive,
                    clauses: Vec::new(),
                    has_default: false,
                    around,
                });
            }
            Code::Separator => {
                let block = opened.last_mut().expect("not stray");
                block.has_default = directive.colon;
                block.clauses.push(std::mem::take(&mut sequence));
            }
            Code::CloseConditional => {
                let block = opened.pop().expect("not stray");
                let (mut clauses, mut around) = (block.clauses, block.around);
                clauses.push(sequence);
                let has_default = block.has_default;
                around.push(Node::Conditional {
                    opener: block.opener,
                    clauses,
                    has_default,
                });
                sequence = around;
            }
            Code::CloseIteration => {
                let block = opened.pop().expect("not stray");
                let mut around = block.around;
                around.push(Node::Iteration {
                    opener: block.opener,
                    body: sequence,
                });
                sequence = around;
            }
            Code::Newline => {
                // "`:` skips only the newline"; otherwise "the bytes 9 to 13
                // and 32 that follow" are skipped too.
                if !directive.colon {
                    while matches!(format.get(next), Some(9..=13 | 32)) {
                        next += 1;
                    }
                }
                sequence.push(Node::Single(directive));
            }
            _ => sequence.push(Node::Single(directive)),
        }
    }
    match opened.last() {
        // "block unclosed (innermost open)" is met at the end.
        Some(block) => Err((4, block.opener.tilde)),
        None => Ok(sequence),
    }
}

/// The faults of code 4 that one directive meets.
fn block_fault(directive: &Directive, opened: &[Open]) -> Result<(), Fault> {
    let innermost = opened.last();
    let met = Err((4, directive.tilde));
    match directive.code {
        Code::OpenConditional | Code::OpenIteration if opened.len() >= MOST_DEPTH => met,
        Code::Separator => match innermost {
            Some(block) if block.opener.code == Code::OpenConditional => {
                let later = block.has_default;
                let flagged = block.opener.colon || block.opener.at;
                // "`~:;` under `~:[` or `~@[`"
                if later || (directive.colon && flagged) {
                    met
                } else {
                    Ok(())
                }
            }
            _ => met,
        },
        Code::CloseConditional => match innermost {
            Some(block) if block.opener.code == Code::OpenConditional => {
                let count = block.clauses.len() + 1;
                let wrong = (block.opener.colon && count != 2) || (block.opener.at && count != 1);
                if wrong {
                    Err((4, block.opener.tilde))
                } else {
                    Ok(())
                }
            }
            _ => met,
        },
        Code::CloseIteration => match innermost {
            Some(block) if block.opener.code == Code::OpenIteration => {
                // "iteration body of no bytes"
                let empty = block.opener.end == directive.tilde;
                if empty {
                    Err((4, block.opener.tilde))
                } else {
                    Ok(())
                }
            }
            _ => met,
        },
        _ => Ok(()),
    }
}

/// A conditional of a format, with 1 as the depth of one that stands in no
/// other block.
#[derive(Clone, Copy, Debug, PartialEq, Eq)]
pub struct Conditional {
    pub tilde: usize,
    pub depth: usize,
    pub at: bool,
    pub clauses: usize,
    pub has_default: bool,
}

/// The conditionals in text order; none if the text has a fault.
pub fn conditionals(format: &[u8]) -> Vec<Conditional> {
    let mut found = Vec::new();
    collect(&parse(format).unwrap_or_default(), 1, &mut found);
    found
}

fn collect(nodes: &[Node], depth: usize, found: &mut Vec<Conditional>) {
    for node in nodes {
        match node {
            Node::Text { .. } | Node::Single(_) => {}
            Node::Iteration { body, .. } => collect(body, depth + 1, found),
            Node::Conditional {
                opener,
                clauses,
                has_default,
            } => {
                found.push(Conditional {
                    tilde: opener.tilde,
                    depth,
                    at: opener.at,
                    clauses: clauses.len(),
                    has_default: *has_default,
                });
                let inside = |clause: &Vec<Node>| collect(clause, depth + 1, found);
                clauses.iter().for_each(inside);
            }
        }
    }
}

/// Codes 2 to 5 over the whole text.
pub fn check_format(format: &[u8]) -> Result<(), (u32, usize)> {
    parse(format).map(|_| ())
}
