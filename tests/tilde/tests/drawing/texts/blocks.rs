//! Jumps, conditionals and iterations.

use super::{Writer, COUNT};
use crate::drawing::values;
use reference::Value;

/// Lists are not repeated beyond so many entries: a table holds 1,024.
const MOST_MEMBERS: usize = 200;

impl Writer<'_> {
    /// Forward over fresh arguments, back to read some again or leave it so, or to a place from the start.
    pub(super) fn jump(&mut self) {
        let there = self.arguments.len();
        match self.random.below(5) {
            0 => self.put("~#*"),
            1 => {
                let n = self.random.below(3);
                self.put(&format!("~{n}*"));
                self.arguments
                    .extend((0..n).map(|_| values::any(self.random, 1)));
            }
            2 => {
                self.put("~v*");
                self.take(Value::Int(1));
                self.arguments.push(values::any(self.random, 1));
            }
            3 => {
                let n = self.random.below(there.min(4) + 1);
                self.put(&format!("~{n}:*"));
                self.go_on(n);
            }
            _ => {
                let n = self.random.below(there + 1);
                self.put(&format!("~{n}@*"));
                self.go_on(there - n);
            }
        }
    }

    /// Past n arguments again, in most cases.
    fn go_on(&mut self, n: usize) {
        match self.random.below(4) {
            0 => {}
            1 => self.put(&"~p".repeat(n)),
            _ => self.put(&format!("~{n}*")),
        }
    }

    pub(super) fn block(&mut self, levels: usize) {
        match self.random.below(6) {
            0 => self.numbered(levels - 1),
            1 => self.two_clauses(levels - 1),
            2 => self.one_clause(levels - 1),
            _ => self.iteration(levels - 1),
        }
    }

    /// A clause; the arguments of one that is not chosen are not wanted.
    fn clause(&mut self, levels: usize, chosen: bool) {
        let before = self.arguments.len();
        self.sequence(levels, 4);
        if !chosen {
            self.arguments.truncate(before);
        }
    }

    fn numbered(&mut self, levels: usize) {
        let clauses = 1 + self.random.below(3);
        let default = self.random.once_in(2);
        let chosen = self.random.below(clauses + 1);
        match self.random.below(4) {
            0 => self.put(&format!("~{chosen}[")),
            1 => self.put("~#["),
            2 => {
                self.put("~v[");
                self.take(Value::Int(chosen as i64));
            }
            _ => {
                self.put("~[");
                let outside = [-1, i64::MIN, i64::MAX, 1 << 32];
                let astray = self.random.once_in(8);
                let n = if astray {
                    self.random.pick(&outside)
                } else {
                    chosen as i64
                };
                self.take(Value::Int(n));
            }
        }
        for i in 0..clauses {
            if i > 0 {
                self.put("~;");
            }
            self.clause(levels, i == chosen);
        }
        if default {
            self.put("~:;");
            self.clause(levels, chosen == clauses);
        }
        self.put("~]");
    }

    fn two_clauses(&mut self, levels: usize) {
        self.put("~:[");
        let value = self.random.pick(&[None, Some(false), Some(true)]);
        let value = value.map_or_else(|| values::any(self.random, 1), Value::Bool);
        let second = value != Value::Bool(false);
        self.arguments.push(value);
        self.clause(levels, !second);
        self.put("~;");
        self.clause(levels, second);
        self.put("~]");
    }

    fn one_clause(&mut self, levels: usize) {
        self.put("~@[");
        let taken = self.random.once_in(3);
        self.clause(levels, !taken);
        if taken {
            self.arguments.push(Value::Bool(false));
        }
        self.put("~]");
    }

    /// The arguments of the body, once for each pass, in a list or among the others.
    fn iteration(&mut self, levels: usize) {
        self.put("~");
        self.parameters(&[COUNT]);
        let own = self.random.once_in(3);
        self.put(if own { "@{" } else { "{" });
        let outer = std::mem::take(&mut self.arguments);
        let start = self.text.len();
        self.sequence(levels, 5);
        if self.text.len() == start {
            self.writing();
        }
        let body = std::mem::replace(&mut self.arguments, outer);
        self.put("~}");
        let size: usize = body.iter().map(values::entries).sum();
        let passes = self.random.below(4).min(MOST_MEMBERS / size.max(1));
        let again = (0..passes).flat_map(|_| body.iter());
        let members: Vec<Value> = again
            .map(|value| values::like(self.random, value))
            .collect();
        if own {
            self.arguments.extend(members);
        } else {
            self.take(Value::List(members));
        }
    }
}
