//! The target, read literally from the records of a case: each state is asked
//! whether it accepts a nested stack, and no table is made (document 01, "The
//! automaton"; document 02, §3).

use std::collections::HashMap;
use std::rc::Rc;

use crate::file::Case;
use crate::sets::{Set, has, members};
use crate::stack::{Configuration, Level, Note, One, Symbol, Two};

/// "The target is every configuration that the case's own automaton accepts from
/// its control."
pub fn in_target(case: &Case, now: &Configuration) -> bool {
    let mut reader = Reader {
        case,
        ones: HashMap::new(),
        twos: HashMap::new(),
    };
    reader.two(now.control, &now.stack)
}

/// Answers given before, by state and by the part of the one configuration that
/// is read.
struct Reader<'a> {
    case: &'a Case,
    ones: HashMap<(u8, *const Symbol), bool>,
    twos: HashMap<(u8, *const Level), bool>,
}

impl Reader<'_> {
    /// "An empty stack is accepted by final states only."
    fn two(&mut self, state: u8, stack: &Two) -> bool {
        let Some(level) = &stack.0 else {
            return has(self.case.final_two, state);
        };
        let key = (state, Rc::as_ptr(level));
        if let Some(&known) = self.twos.get(&key) {
            return known;
        }
        let accepts = self.by_edge(state, level);
        self.twos.insert(key, accepts);
        accepts
    }

    /// "One of its edges (r,S) has r accepting the top and S the rest. Each entry
    /// [p,S] is an edge of p."
    fn by_edge(&mut self, state: u8, level: &Level) -> bool {
        let inner = self.case.edges.iter().filter(|edge| edge.state == state);
        let inner = inner.map(|edge| (edge.one, edge.set));
        let entries = self.case.numbered_entries();
        let entries = entries.filter(|(_, written)| written.entry.control == state);
        let entries = entries.map(|(one, written)| (one, written.entry.set));
        let edges: Vec<(u8, Set)> = inner.chain(entries).collect();
        edges.into_iter().any(|(one, set)| {
            self.one(one, &level.top) && members(set).all(|two| self.two(two, &level.rest))
        })
    }

    fn one(&mut self, state: u8, stack: &One) -> bool {
        let Some(symbol) = &stack.0 else {
            return self.is_final(state);
        };
        let key = (state, Rc::as_ptr(symbol));
        if let Some(&known) = self.ones.get(&key) {
            return known;
        }
        let accepts = self.by_move(state, symbol);
        self.ones.insert(key, accepts);
        accepts
    }

    /// An inner order-1 state is final by the final set; "an entry written with
    /// second byte 254 instead of 255 is final".
    fn is_final(&self, state: u8) -> bool {
        match state.checked_sub(self.case.inner_one) {
            None => has(self.case.final_one, state),
            Some(number) => self.case.entries[usize::from(number)].is_final,
        }
    }

    /// "A move of its has the top symbol, R accepts the rest, and at order k > 0
    /// the annotation has order k and B accepts it."
    fn by_move(&mut self, state: u8, symbol: &Symbol) -> bool {
        let case = self.case;
        let mut moves = case
            .moves
            .iter()
            .filter(|m| m.state == state && m.symbol == symbol.name);
        moves.any(|m| {
            let note = match (m.order, &symbol.note) {
                (0, _) => true,
                (1, Note::One(note)) => members(m.note).all(|one| self.one(one, note)),
                (2, Note::Two(note)) => members(m.note).all(|two| self.two(two, note)),
                _ => false,
            };
            note && members(m.rest).all(|one| self.one(one, &symbol.rest))
        })
    }
}
