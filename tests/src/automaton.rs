//! Acceptance (document 01, "The automaton"; document 02, §3), on cells and on
//! nested stacks, by the table of some round.

use std::collections::HashMap;
use std::rc::Rc;

use crate::file::{Cell, Edge, Move};
use crate::sets::{Set, has, is_part, only};
use crate::stack::{Configuration, Level, Note, One, Symbol, Two};
use crate::table::{Finals, View};

/// The states that accept a stack, with the stack's order.
#[derive(Clone, Copy, Debug, PartialEq, Eq)]
pub struct Accepting {
    pub order: u8,
    pub states: Set,
}

/// A symbol of an order-1 stack, with who accepts its annotation and its rest.
#[derive(Clone, Copy)]
pub struct ReadSymbol {
    pub name: u8,
    pub note: Accepting,
    pub rest: Set,
}

/// "A move of its has the top symbol, R accepts the rest, and at order k > 0 the
/// annotation has order k and B accepts it." An empty set accepts every stack.
fn move_accepts(m: &Move, symbol: &ReadSymbol) -> bool {
    m.symbol == symbol.name
        && is_part(m.rest, symbol.rest)
        && (m.order == 0 || m.order == symbol.note.order && is_part(m.note, symbol.note.states))
}

/// The least move by which an order-1 state accepts a stack with this top.
pub fn least_move(view: View, one: u8, symbol: &ReadSymbol) -> Option<usize> {
    let moves = view.table().moves();
    view.moves_on(one, symbol.name)
        .find(|&number| move_accepts(&moves[number], symbol))
}

/// The least edge by which an order-2 state accepts a stack whose top and rest
/// are accepted by the given states: "one of its edges (r,S) has r accepting
/// the top and S the rest".
pub fn least_edge(view: View, state: u8, top: Set, rest: Set) -> Option<Edge> {
    view.edges_of(state)
        .find(|edge| has(top, edge.one) && is_part(edge.set, rest))
}

/// The order-1 states that accept a stack with this top.
pub fn accept_symbol(view: View, symbol: &ReadSymbol) -> Set {
    (0..view.order_one_states())
        .filter(|&one| least_move(view, one, symbol).is_some())
        .fold(0, |set, one| set | only(one))
}

/// The order-2 states that accept a stack of this top and rest.
pub fn accept_pair(view: View, top: Set, rest: Set) -> Set {
    (0..view.table().order_two_states())
        .filter(|&state| least_edge(view, state, top, rest).is_some())
        .fold(0, |set, state| set | only(state))
}

/// For each cell the states that accept the stack it stands for.
pub fn accepting(view: View, cells: &[Cell]) -> Vec<Accepting> {
    accepting_with(view, view.table().finals(), cells)
}

/// The same with the final states given. "An empty stack is accepted by final
/// states only"; a final entry "accepts the empty top order-1 stack" (document
/// 02, §3).
pub fn accepting_with(view: View, finals: Finals, cells: &[Cell]) -> Vec<Accepting> {
    let mut known: Vec<Accepting> = Vec::new();
    for &cell in cells {
        let at = |number: u16| known[usize::from(number)];
        let states = match cell {
            Cell::EmptyOne => finals.one,
            Cell::EmptyTwo => finals.two,
            Cell::Symbol { name, note, rest } => {
                let (note, rest) = (at(note), at(rest).states);
                accept_symbol(view, &ReadSymbol { name, note, rest })
            }
            Cell::Pair { top, rest } => accept_pair(view, at(top).states, at(rest).states),
        };
        let order = cell.order();
        known.push(Accepting { order, states });
    }
    known
}

/// Whether the table accepts the configuration from its control.
pub fn accepts(view: View, configuration: &Configuration) -> bool {
    let mut reader = StackReader::new(view);
    has(reader.two(&configuration.stack), configuration.control)
}

/// Acceptance on nested stacks. Shared parts are read once; the stacks outlive
/// the reader's use, so an address stands for one part.
pub struct StackReader<'a> {
    view: View<'a>,
    ones: HashMap<*const Symbol, Set>,
    twos: HashMap<*const Level, Set>,
}

impl<'a> StackReader<'a> {
    pub fn new(view: View<'a>) -> Self {
        StackReader {
            view,
            ones: HashMap::new(),
            twos: HashMap::new(),
        }
    }

    /// The order-1 states that accept the stack.
    pub fn one(&mut self, stack: &One) -> Set {
        let Some(symbol) = &stack.0 else {
            return self.view.table().finals().one;
        };
        if let Some(&states) = self.ones.get(&Rc::as_ptr(symbol)) {
            return states;
        }
        let read = ReadSymbol {
            name: symbol.name,
            note: self.note(&symbol.note),
            rest: self.one(&symbol.rest),
        };
        let states = accept_symbol(self.view, &read);
        self.ones.insert(Rc::as_ptr(symbol), states);
        states
    }

    /// The order-2 states that accept the stack.
    pub fn two(&mut self, stack: &Two) -> Set {
        let Some(level) = &stack.0 else {
            return self.view.table().finals().two;
        };
        if let Some(&states) = self.twos.get(&Rc::as_ptr(level)) {
            return states;
        }
        let top = self.one(&level.top);
        let rest = self.two(&level.rest);
        let states = accept_pair(self.view, top, rest);
        self.twos.insert(Rc::as_ptr(level), states);
        states
    }

    /// The states, of the annotation's order, that accept the annotation.
    pub fn note(&mut self, note: &Note) -> Accepting {
        match note {
            Note::One(one) => Accepting {
                order: 1,
                states: self.one(one),
            },
            Note::Two(two) => Accepting {
                order: 2,
                states: self.two(two),
            },
        }
    }
}
