//! The automaton with numbered moves and entries, round by round (document 01,
//! "The automaton" and "Saturation").

use std::collections::{HashMap, HashSet};

use crate::file::{Case, Edge, Entry, Move};
use crate::sets::{Set, only};

/// Numbers of moves and entries.
#[derive(Clone, Copy, Debug, PartialEq, Eq)]
pub struct Size {
    pub moves: usize,
    pub entries: usize,
}

/// The final states of each order: "an empty stack is accepted by final states
/// only".
#[derive(Clone, Copy, Debug, PartialEq, Eq)]
pub struct Finals {
    pub one: Set,
    pub two: Set,
}

impl Finals {
    /// The final states of a case: those that its final sets name, and the entries
    /// that its file writes as final (document 02, §3).
    fn of(case: &Case) -> Finals {
        let entries = case.numbered_entries();
        let entries = entries.filter(|(_, written)| written.is_final);
        Finals {
            one: entries.fold(case.final_one, |set, (one, _)| set | only(one)),
            two: case.final_two,
        }
    }
}

/// A case's automaton with what the rounds so far have added.
#[derive(Clone, Debug)]
pub struct Table {
    inner_one: u8,
    /// No round changes them: "Entries found by saturation are never final", and
    /// an entry of the file stays as it is written (document 02, §3).
    finals: Finals,
    moves: Vec<Move>,
    entries: Vec<Entry>,
    /// The edges of each order-2 state, by (order-1 state, S).
    edges: Vec<Vec<Edge>>,
    /// The numbers of the moves of a state on a symbol, rising.
    moves_on: HashMap<(u8, u8), Vec<usize>>,
    held: HashSet<Move>,
    /// The size after each round, from round 0 on.
    sizes: Vec<Size>,
}

impl Table {
    /// The case's own automaton: "Round 0 is the case's moves in file order."
    pub fn new(case: &Case) -> Table {
        let mut table = Table {
            inner_one: case.inner_one,
            finals: Finals::of(case),
            moves: Vec::new(),
            entries: Vec::new(),
            edges: vec![Vec::new(); usize::from(case.order_two_states())],
            moves_on: HashMap::new(),
            held: HashSet::new(),
            sizes: Vec::new(),
        };
        for edge in &case.edges {
            table.edges[usize::from(edge.state)].push(*edge);
        }
        for edges in &mut table.edges {
            edges.sort();
        }
        case.entries
            .iter()
            .for_each(|written| table.add_entry(written.entry));
        case.moves.iter().for_each(|&m| table.add_move(m));
        table.end_round();
        table
    }

    /// Adds an entry with the next number. "Each entry [p,S] is an edge of p."
    pub fn add_entry(&mut self, entry: Entry) {
        let edge = Edge {
            state: entry.control,
            one: self.inner_one + self.entries.len() as u8,
            set: entry.set,
        };
        self.entries.push(entry);
        self.edges[usize::from(entry.control)].push(edge);
    }

    /// Adds a move with the next number.
    pub fn add_move(&mut self, m: Move) {
        let key = (m.state, m.symbol);
        self.moves_on.entry(key).or_default().push(self.moves.len());
        self.moves.push(m);
        self.held.insert(m);
    }

    /// Records the size that the round reached.
    pub fn end_round(&mut self) {
        self.sizes.push(Size {
            moves: self.moves.len(),
            entries: self.entries.len(),
        });
    }

    pub fn moves(&self) -> &[Move] {
        &self.moves
    }

    pub fn entries(&self) -> &[Entry] {
        &self.entries
    }

    /// How many moves each entry has: "the count by walking" the table (document
    /// 02, §7). Moves of inner states are no entry's.
    pub fn move_counts(&self) -> Vec<usize> {
        let count = |one: u8| self.moves.iter().filter(|m| m.state == one).count();
        let states = (self.inner_one..).take(self.entries.len());
        states.map(count).collect()
    }

    pub fn finals(&self) -> Finals {
        self.finals
    }

    /// The number of order-2 states.
    pub fn order_two_states(&self) -> u8 {
        self.edges.len() as u8
    }

    /// The size after each round, from round 0 on.
    pub fn sizes(&self) -> &[Size] {
        &self.sizes
    }

    /// The round that added the move of this number.
    pub fn round_of_move(&self, number: usize) -> usize {
        self.sizes.partition_point(|size| size.moves <= number)
    }

    /// The order-1 state of entry [p, S], if it is held.
    pub fn entry_state(&self, entry: Entry) -> Option<u8> {
        let edges = &self.edges[usize::from(entry.control)];
        edges.iter().find(|e| e.set == entry.set).map(|e| e.one)
    }

    /// The entry of an order-1 state, if the state is no inner one.
    pub fn entry_of(&self, one: u8) -> Option<Entry> {
        let number = one.checked_sub(self.inner_one)?;
        self.entries.get(usize::from(number)).copied()
    }

    pub fn holds(&self, m: &Move) -> bool {
        self.held.contains(m)
    }

    /// The whole table.
    pub fn whole(&self) -> View<'_> {
        let size = Size {
            moves: self.moves.len(),
            entries: self.entries.len(),
        };
        View { table: self, size }
    }

    /// The number of rounds that added something.
    pub fn rounds(&self) -> usize {
        self.sizes.len() - 1
    }

    /// The table after the round of this number; 0 is the case's own.
    pub fn after_round(&self, round: usize) -> View<'_> {
        View {
            table: self,
            size: self.sizes[round],
        }
    }

    /// The table of the rounds before `round`, which is not 0.
    pub fn before_round(&self, round: usize) -> View<'_> {
        self.after_round(round - 1)
    }
}

/// The part of a table that is held after some round.
#[derive(Clone, Copy)]
pub struct View<'a> {
    table: &'a Table,
    size: Size,
}

impl<'a> View<'a> {
    pub fn table(self) -> &'a Table {
        self.table
    }

    pub fn size(self) -> Size {
        self.size
    }

    /// The number of order-1 states.
    pub fn order_one_states(self) -> u8 {
        self.table.inner_one + self.size.entries as u8
    }

    /// The edges of an order-2 state, by (order-1 state, S).
    pub fn edges_of(self, state: u8) -> impl Iterator<Item = Edge> {
        let ones = self.order_one_states();
        self.table.edges[usize::from(state)]
            .iter()
            .copied()
            .filter(move |edge| edge.one < ones)
    }

    /// The numbers of the moves of an order-1 state on a symbol, rising.
    pub fn moves_on(self, one: u8, symbol: u8) -> impl Iterator<Item = usize> {
        let numbers = self.table.moves_on.get(&(one, symbol));
        numbers
            .into_iter()
            .flatten()
            .copied()
            .take_while(move |&number| number < self.size.moves)
    }
}
