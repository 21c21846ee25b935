//! The guided run (document 01, "The guided run"; document 02, §3).

use std::collections::{BTreeMap, HashMap};

use crate::automaton::{ReadSymbol, accepting, least_edge, least_move};
use crate::derivation::{Derivation, first_derivation};
use crate::file::{Case, Cell, Edge, Start, StartFile};
use crate::lines::First;
use crate::sets::members;
use crate::stack::new_cells;
use crate::table::Table;

/// A cell with the choices of the states that accept it.
#[derive(Clone, Debug)]
struct ChosenCell {
    cell: Cell,
    /// For a symbol: the number of the move of an order-1 state.
    moves: BTreeMap<u8, usize>,
    /// For a pair: the edge of an order-2 state.
    edges: BTreeMap<u8, Edge>,
}

/// The symbol at the top of the walk, as its cells say it.
struct Top {
    name: u8,
    note: u16,
    rest: u16,
    /// The order-2 stack beneath.
    below: u16,
    /// The number of the chosen move.
    chosen: usize,
}

/// The walk of one start marked yes.
pub struct Walk<'a> {
    case: &'a Case,
    table: &'a Table,
    cells: Vec<ChosenCell>,
    control: u8,
    root: u16,
    /// Derivations found before, by move number.
    known: HashMap<usize, Derivation>,
}

/// "Each cell and each state accepting it gets the choice of least number."
fn least_choices(table: &Table, cells: &[Cell]) -> Vec<ChosenCell> {
    let view = table.whole();
    let accepting = accepting(view, cells);
    let at = |number: u16| accepting[usize::from(number)];
    let mut chosen = Vec::new();
    for (&cell, by) in cells.iter().zip(&accepting) {
        let mut moves = BTreeMap::new();
        let mut edges = BTreeMap::new();
        for state in members(by.states) {
            match cell {
                Cell::Symbol { name, note, rest } => {
                    let (note, rest) = (at(note), at(rest).states);
                    let symbol = ReadSymbol { name, note, rest };
                    let least = least_move(view, state, &symbol);
                    moves.extend(least.map(|number| (state, number)));
                }
                Cell::Pair { top, rest } => {
                    let least = least_edge(view, state, at(top).states, at(rest).states);
                    edges.extend(least.map(|edge| (state, edge)));
                }
                Cell::EmptyOne | Cell::EmptyTwo => {}
            }
        }
        chosen.push(ChosenCell { cell, moves, edges });
    }
    chosen
}

impl<'a> Walk<'a> {
    /// The walk before its first step. "All start cells are taken first."
    pub fn new(case: &'a Case, table: &'a Table, file: &StartFile, start: &Start) -> Self {
        Walk {
            case,
            table,
            cells: least_choices(table, &file.cells),
            control: start.control,
            root: start.root,
            known: HashMap::new(),
        }
    }

    /// The cells used: those of the start file and the new ones of the steps.
    pub fn cells_used(&self) -> usize {
        self.cells.len()
    }

    /// "The chosen move at the top has arrived if it is from round 0." "The walk
    /// has also arrived where no move is needed" (document 02, §3): at an empty
    /// stack or an empty top order-1 stack, to which no rule applies.
    pub fn has_arrived(&self) -> bool {
        let chosen = self.top().map(|top| top.chosen);
        chosen.is_none_or(|number| self.table.round_of_move(number) == 0)
    }

    /// The number of the next step's rule, for a walk that has not arrived.
    pub fn next_rule(&mut self) -> usize {
        self.next_derivation().rule
    }

    /// The new cells of the next step.
    pub fn next_cells(&mut self) -> usize {
        let rule = self.next_rule();
        new_cells(self.case.rules[rule].code)
    }

    /// Takes the next step. "New cells carry the choices of that derivation,
    /// old cells keep theirs, and no cell is given up."
    pub fn step(&mut self) {
        let derivation = self.next_derivation();
        let rule = self.case.rules[derivation.rule];
        let top = self.next_top();
        self.root = match rule.code {
            1 => self.rewrite(&top, &derivation, rule.put),
            2 => self.push(&top, &derivation, rule.put, top.rest),
            3 => self.push(&top, &derivation, rule.put, top.below),
            4 => self.copy(&top, &derivation),
            5 => self.pair(top.rest, top.below, vec![self.top_edge(&derivation)]),
            6 => top.below,
            7 => self.pair(top.note, top.below, vec![self.top_edge(&derivation)]),
            _ => top.note,
        };
        self.control = rule.to;
    }

    fn rewrite(&mut self, top: &Top, derivation: &Derivation, name: u8) -> u16 {
        let choice = vec![self.top_choice(derivation)];
        let symbol = self.symbol(name, top.note, top.rest, choice);
        self.pair(symbol, top.below, vec![self.top_edge(derivation)])
    }

    /// Both pushes. The symbol beneath the new one has the moves of the reading.
    fn push(&mut self, top: &Top, derivation: &Derivation, name: u8, note: u16) -> u16 {
        let read = self.symbol(top.name, top.note, top.rest, derivation.moves.clone());
        let choice = vec![self.top_choice(derivation)];
        let symbol = self.symbol(name, note, read, choice);
        self.pair(symbol, top.below, vec![self.top_edge(derivation)])
    }

    /// The copy beneath has the edges and moves of the reading.
    fn copy(&mut self, top: &Top, derivation: &Derivation) -> u16 {
        let read = self.symbol(top.name, top.note, top.rest, derivation.moves.clone());
        let below = self.pair(read, top.below, derivation.edges.clone());
        let choice = vec![self.top_choice(derivation)];
        let symbol = self.symbol(top.name, top.note, top.rest, choice);
        self.pair(symbol, below, vec![self.top_edge(derivation)])
    }

    /// The first move of the derivation as a choice of its state.
    fn top_choice(&self, derivation: &Derivation) -> (u8, usize) {
        match derivation.first {
            First::Move(number) => (self.table.moves()[number].state, number),
            _ => unreachable!("codes 1 to 4 choose a first move"),
        }
    }

    /// The edge of p' at the new top: the entry that the line names.
    fn top_edge(&self, derivation: &Derivation) -> Edge {
        let one = match derivation.first {
            First::Move(number) => self.table.moves()[number].state,
            First::Entry(one) => one,
            First::Nothing => unreachable!("codes 6 and 8 have no new cell"),
        };
        let entry = self.table.entry_of(one).expect("a control's edge");
        Edge {
            state: entry.control,
            one,
            set: entry.set,
        }
    }

    fn symbol(&mut self, name: u8, note: u16, rest: u16, moves: Vec<(u8, usize)>) -> u16 {
        self.add(ChosenCell {
            cell: Cell::Symbol { name, note, rest },
            moves: moves.into_iter().collect(),
            edges: BTreeMap::new(),
        })
    }

    fn pair(&mut self, top: u16, rest: u16, edges: Vec<Edge>) -> u16 {
        let by_state = edges.into_iter().map(|edge| (edge.state, edge));
        self.add(ChosenCell {
            cell: Cell::Pair { top, rest },
            moves: BTreeMap::new(),
            edges: by_state.collect(),
        })
    }

    fn add(&mut self, cell: ChosenCell) -> u16 {
        let number = self.cells.len();
        self.cells.push(cell);
        number.try_into().expect("at most 4,096 cells count")
    }

    /// The first derivation of the move chosen at the top.
    fn next_derivation(&mut self) -> Derivation {
        let chosen = self.next_top().chosen;
        let (case, table) = (self.case, self.table);
        let known = self.known.entry(chosen);
        known
            .or_insert_with(|| first_derivation(case, table, chosen))
            .clone()
    }

    /// The top of a walk that has not arrived.
    fn next_top(&self) -> Top {
        self.top().expect("no step leaves an empty stack")
    }

    /// The top of the stack with the choices that lead to it, if there is a
    /// symbol at the top.
    fn top(&self) -> Option<Top> {
        let root = &self.cells[usize::from(self.root)];
        let Cell::Pair { top, rest: below } = root.cell else {
            return None;
        };
        let symbol = &self.cells[usize::from(top)];
        let Cell::Symbol { name, note, rest } = symbol.cell else {
            return None;
        };
        let edge = root.edges[&self.control];
        Some(Top {
            name,
            note,
            rest,
            below,
            chosen: symbol.moves[&edge.one],
        })
    }
}
