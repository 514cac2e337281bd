//! Vet: how many bytes a format can need over all tables with given kinds
//! and no string above a given length.
//!
//! In a plain format nothing jumps but `~:p`, which goes back one argument
//! and takes it again. So which directive reads which argument, and what `#`
//! stands for, hang on the number of arguments alone; the arguments vary
//! independently of each other; and one argument is read by at most one
//! directive other than `~p`. The greatest total is therefore the fixed part
//! plus, for each argument, the greatest sum of its readers' lengths over
//! one value of its kind.
//!
//! With conditionals, which clauses a table runs hangs on its values, but
//! every way through a block ends at the same argument; so the same holds of
//! the readers and of `#` in each clause. What is counted need not be the
//! length of any text: each piece is taken at its greatest, whatever clause
//! the value would choose.

mod brute;
mod lengths;
mod walk;

use crate::directive::{Code, Param};
use crate::tree::{self, Node};
use crate::{MOST_ENTRIES, MOST_LONGEST};
pub use brute::{brute_tables, picks, try_tables, vet_brute};
use lengths::{most, Reader};
use walk::{walk, Part};

/// What vet answers; "a refusal's count is 0".
#[derive(Clone, Copy, Debug, PartialEq, Eq)]
pub struct Vetted {
    pub code: u32,
    pub position: usize,
    pub count: usize,
}

type Refusal = (u32, usize);

const BOOL: u8 = 0;
const INT: u8 = 1;
const CHAR: u8 = 2;
const STR: u8 = 3;
const LIST: u8 = 4;

/// "Vet: 12, 2, 3 to 5, 11, then 6 to 8 as a run meets them"; a conditional
/// adds its own 11 to what a run meets.
pub fn vet(format: &[u8], kinds: &[u8], longest: usize) -> Vetted {
    let parts = allowed_nodes(format, kinds, longest).and_then(|nodes| walk(&nodes, kinds));
    answer(parts.map(|parts| count(&parts, kinds, longest)))
}

fn answer(result: Result<usize, Refusal>) -> Vetted {
    match result {
        Ok(count) => Vetted {
            code: 0,
            position: 0,
            count,
        },
        Err((code, position)) => Vetted {
            code,
            position,
            count: 0,
        },
    }
}

/// The nodes of a format that is plain but for its conditionals, or the
/// refusal that comes before any run.
fn allowed_nodes(format: &[u8], kinds: &[u8], longest: usize) -> Result<Vec<Node>, Refusal> {
    if kinds.len() > MOST_ENTRIES || kinds.iter().any(|&tag| tag > LIST) || longest > MOST_LONGEST {
        return Err((12, 0));
    }
    let nodes = tree::parse(format)?;
    match not_allowed(&nodes) {
        Some(tilde) => Err((11, tilde)),
        None => Ok(nodes),
    }
}

/// The first tilde of those "still without jumps, iterations, escapes, `v`".
fn not_allowed(nodes: &[Node]) -> Option<usize> {
    nodes.iter().find_map(|node| match node {
        Node::Text { .. } => None,
        Node::Iteration { opener, .. } => Some(opener.tilde),
        Node::Conditional {
            opener, clauses, ..
        } => {
            let next = opener.params.contains(&Param::Next);
            let inside = || clauses.iter().find_map(|clause| not_allowed(clause));
            next.then_some(opener.tilde).or_else(inside)
        }
        Node::Single(directive) => {
            let jumps = matches!(directive.code, Code::Jump | Code::Escape);
            (jumps || directive.params.contains(&Param::Next)).then_some(directive.tilde)
        }
    })
}

fn count(parts: &[Part], kinds: &[u8], longest: usize) -> usize {
    let plain = !parts.iter().any(|part| matches!(part, Part::Either(_)));
    if plain {
        greatest(parts, kinds, longest)
    } else {
        added(parts, kinds, longest)
    }
}

/// The greatest length of a plain format.
fn greatest(parts: &[Part], kinds: &[u8], longest: usize) -> usize {
    let mut fixed = 0;
    let mut readers: Vec<Vec<&Reader>> = vec![Vec::new(); kinds.len()];
    for part in parts {
        match part {
            Part::Fixed(bytes) => fixed += bytes,
            Part::Read { argument, reader } => readers[*argument].push(reader),
            Part::Either(_) => unreachable!("a plain format has no blocks"),
        }
    }
    let most = |(&kind, readers): (&u8, &Vec<&Reader>)| most(kind, longest, readers);
    fixed + kinds.iter().zip(&readers).map(most).sum::<usize>()
}

/// "pieces add, and a conditional counts as its longest clause"
fn added(parts: &[Part], kinds: &[u8], longest: usize) -> usize {
    let counted = |part: &Part| match part {
        Part::Fixed(bytes) => *bytes,
        Part::Read { argument, reader } => most(kinds[*argument], longest, &[reader]),
        Part::Either(clauses) => {
            let clauses = clauses.iter().map(|clause| added(clause, kinds, longest));
            clauses.max().expect("a conditional has a clause")
        }
    };
    parts.iter().map(counted).sum()
}
