//! Conditionals that a vet can count: each way through a block takes the same arguments, unless it strays.

use super::Writer;
use crate::drawing::values;

const BOOL: u8 = 0;
const INT: u8 = 1;
const CHAR: u8 = 2;
const LIST: u8 = 4;

/// What a vet never allows.
const FORBIDDEN: &[&str] = &[
    "~*", "~:*", "~0@*", "~^", "~{x~}", "~@{x~}", "~va", "~v%", "~,vd", "~v[x~]",
];

impl Writer<'_> {
    fn strays(&self) -> bool {
        !self.steady && self.random.once_in(14)
    }

    /// Directives that take exactly these kinds, with a block before the others if `deep`.
    pub(super) fn taking(&mut self, kinds: &[u8], levels: usize) {
        let mut rest = kinds;
        if self.deep && levels > 0 {
            rest = &rest[self.choosing(rest, levels)..];
        }
        while let Some((&kind, others)) = rest.split_first() {
            self.idle();
            if levels > 0 && self.random.once_in(3) {
                rest = &rest[self.choosing(rest, levels)..];
            } else {
                self.reading(kind);
                rest = others;
            }
        }
        self.idle();
        if levels > 0 && self.random.once_in(6) {
            self.choosing(&[], levels);
        }
    }

    /// Now and then something that takes no argument.
    fn idle(&mut self) {
        match self.random.below(10) {
            0..=2 => self.literal(),
            3 => self.repeat(),
            4 => self.newline(),
            5 if !self.arguments.is_empty() => {
                let plural = self.random.pick(&["~:p", "~:@p", "~@:P"]);
                self.put(plural);
            }
            6 => self.put(&format!("~{}c", self.random.below(128))),
            7 if self.strays() => self.put(self.random.pick(FORBIDDEN)),
            8 if self.random.once_in(30) => self.put(&"x".repeat(self.random.below(400))),
            _ => {}
        }
    }

    /// One directive that takes an argument of this kind.
    fn reading(&mut self, kind: u8) {
        let before = self.arguments.len();
        let strayed = self.random.below(5) as u8;
        let read = if self.strays() { strayed } else { kind };
        while self.arguments.len() == before {
            match (read, self.random.below(4)) {
                (LIST, _) | (_, 0) => self.plural(),
                (INT, 1 | 2) => self.integer(),
                (CHAR, 1 | 2) => self.character(),
                _ => self.display(),
            }
        }
        self.arguments.truncate(before);
        self.pass(kind);
    }

    fn pass(&mut self, kind: u8) {
        self.arguments
            .push(values::of_kind(self.random, kind, 0, 0));
    }

    /// A block that takes some of these kinds: how many.
    pub(super) fn choosing(&mut self, kinds: &[u8], levels: usize) -> usize {
        let first = kinds.first().copied();
        match (self.random.below(4), first) {
            (0 | 1, Some(BOOL)) => self.if_true(&kinds[..1], levels),
            (0, Some(_)) if self.strays() => self.if_true(&kinds[..1], levels),
            (0 | 1, Some(INT)) => {
                self.put("~[");
                self.pass(INT);
                1 + self.numbered_clauses(&kinds[1..], levels)
            }
            (2, _) | (_, None) => {
                let number = self.random.below(4).to_string();
                let number = self.random.pick(&[number.as_str(), "#", "+1", "4096"]);
                self.put(&format!("~{number}["));
                self.numbered_clauses(kinds, levels)
            }
            (_, Some(kind)) => {
                self.put("~:[");
                self.pass(kind);
                1 + self.clauses(&kinds[1..], 2, "~;", levels)
            }
        }
    }

    fn if_true(&mut self, kinds: &[u8], levels: usize) -> usize {
        self.put("~@[");
        self.clauses_over(kinds, 1, "", levels);
        1
    }

    /// Without `~:;` running none is a way, so nothing may be taken.
    fn numbered_clauses(&mut self, kinds: &[u8], levels: usize) -> usize {
        let clauses = 1 + self.random.below(4);
        if clauses > 1 && (self.random.once_in(2) || self.strays()) {
            let last = if self.strays() { "~;" } else { "~:;" };
            return self.clauses(kinds, clauses, last, levels);
        }
        self.clauses(&[], clauses, "~;", levels)
    }

    /// So many clauses that each take some of these kinds, the same ones.
    fn clauses(&mut self, kinds: &[u8], clauses: usize, last: &str, levels: usize) -> usize {
        let taken = self.random.below(kinds.len().min(3) + 1);
        self.clauses_over(&kinds[..taken], clauses, last, levels);
        taken
    }

    /// One of them has blocks down to the last level; that all have would make too long a text.
    fn clauses_over(&mut self, kinds: &[u8], clauses: usize, last: &str, levels: usize) {
        let start = self.arguments.len();
        let nested = self.random.below(clauses);
        for i in 0..clauses {
            if i > 0 {
                self.put(if i + 1 == clauses { last } else { "~;" });
            }
            self.arguments.truncate(start);
            let levels = if i == nested { levels - 1 } else { 0 };
            let missing = usize::from(!kinds.is_empty() && self.strays());
            self.taking(&kinds[missing..], levels);
            if self.strays() {
                self.put(self.random.pick(&["~d", "~p", "~,#a", "~,,,#:d"]));
            }
        }
        self.arguments.truncate(start);
        kinds.iter().for_each(|&kind| self.pass(kind));
        self.put("~]");
    }
}
