//! In which round a start was won (document 02, §1): what the round of a start
//! hangs on, and an example worked out by hand.

use std::collections::BTreeMap;

use crate::automaton::{Accepting, ReadSymbol, accept_pair, accept_symbol, accepting};
use crate::file::{Case, Cell, FileEntry, Move, Rule, Start, StartFile};
use crate::sets::{Set, has, members};
use crate::table::Table;

// ---- what a round hangs on

/// How many starts were won in each round, and how many of each kind there were.
#[derive(Debug, Default, PartialEq, Eq)]
pub struct Reached {
    /// Won in rounds 0, 1, 2, 3, and later.
    pub rounds: [usize; 5],
    /// Won only when the top's annotation was accepted, by its order 1 or 2:
    /// with it read by the saturated table, won earlier.
    pub by_note: [usize; 2],
    /// The same of the rest of the top order-1 stack.
    pub by_rest: usize,
    /// The same of the order-2 stack beneath.
    pub by_below: usize,
    /// By the least moves alone, won later.
    pub not_least_move: usize,
    /// By the least edges alone, won later.
    pub not_least_edge: usize,
}

impl Reached {
    /// Counts the starts of a file by the case's saturated table.
    pub fn count(&mut self, table: &Table, file: &StartFile) {
        let rounds = Rounds::new(table, file);
        let least_moves = latest(table, &file.cells, Choices::LeastMoves);
        let least_edges = latest(table, &file.cells, Choices::LeastEdges);
        for start in &file.starts {
            let Some(won) = rounds.won(start, None) else {
                continue;
            };
            self.rounds[won.min(4)] += 1;
            let earlier = |part: Part| usize::from(rounds.won(start, Some(part)) < Some(won));
            if let Some(order) = rounds.note_order(start) {
                self.by_note[usize::from(order - 1)] += earlier(Part::Note);
            }
            self.by_rest += earlier(Part::Rest);
            self.by_below += earlier(Part::Below);
            let later = |by: &[BTreeMap<u8, usize>]| {
                usize::from(by[usize::from(start.root)][&start.control] > won)
            };
            self.not_least_move += later(&least_moves);
            self.not_least_edge += later(&least_edges);
        }
    }
}

/// A part of a start: the top symbol's annotation, its rest, the order-2 stack
/// beneath.
#[derive(Clone, Copy, PartialEq, Eq)]
enum Part {
    Note,
    Rest,
    Below,
}

/// Who accepts the cells of a file after each round.
struct Rounds<'a> {
    table: &'a Table,
    cells: &'a [Cell],
    accepting: Vec<Vec<Accepting>>,
}

impl<'a> Rounds<'a> {
    fn new(table: &'a Table, file: &'a StartFile) -> Self {
        let after = |round| accepting(table.after_round(round), &file.cells);
        Rounds {
            table,
            cells: &file.cells,
            accepting: (0..=table.rounds()).map(after).collect(),
        }
    }

    fn cell(&self, number: u16) -> Cell {
        self.cells[usize::from(number)]
    }

    /// The order of the top symbol's annotation, if there is a symbol at the top.
    fn note_order(&self, start: &Start) -> Option<u8> {
        let Cell::Pair { top, .. } = self.cell(start.root) else {
            return None;
        };
        match self.cell(top) {
            Cell::Symbol { note, .. } => Some(self.cell(note).order()),
            _ => None,
        }
    }

    /// The least round whose table accepts the start, where the part, if one is
    /// given, is read by the saturated table in every round. An empty stack has
    /// no parts: the case's own table accepts it, or none.
    fn won(&self, start: &Start, part: Option<Part>) -> Option<usize> {
        let last = self.table.rounds();
        let Cell::Pair { top, rest: below } = self.cell(start.root) else {
            return has(self.table.finals().two, start.control).then_some(0);
        };
        (0..=last).find(|&round| {
            let read = |cell: u16, of: Part| {
                let round = if part == Some(of) { last } else { round };
                self.accepting[round][usize::from(cell)]
            };
            let view = self.table.after_round(round);
            let top = match self.cell(top) {
                Cell::Symbol { name, note, rest } => {
                    let note = read(note, Part::Note);
                    let rest = read(rest, Part::Rest).states;
                    accept_symbol(view, &ReadSymbol { name, note, rest })
                }
                _ => self.table.finals().one,
            };
            let below = read(below, Part::Below).states;
            has(accept_pair(view, top, below), start.control)
        })
    }
}

/// Which choices are looked at: all, or only the least that accepts.
#[derive(Clone, Copy, PartialEq, Eq)]
pub enum Choices {
    All,
    LeastMoves,
    LeastEdges,
}

/// For each cell and each state that accepts it by the saturated table: the
/// latest round among the moves of an accepting choice, and of the choices below
/// it, the least of the choices looked at.
pub fn latest(table: &Table, cells: &[Cell], choices: Choices) -> Vec<BTreeMap<u8, usize>> {
    let mut known: Vec<BTreeMap<u8, usize>> = Vec::new();
    let view = table.whole();
    for &cell in cells {
        let at = |number: u16| &known[usize::from(number)];
        let finals = |set: Set| members(set).map(|state| (state, 0)).collect();
        let rounds = match cell {
            Cell::EmptyOne => finals(table.finals().one),
            Cell::EmptyTwo => finals(table.finals().two),
            Cell::Symbol { name, note, rest } => {
                let order = cells[usize::from(note)].order();
                let by_move = |number: usize| {
                    let m = &table.moves()[number];
                    let note = match m.order {
                        0 => Some(0),
                        _ if m.order == order => latest_of(m.note, at(note)),
                        _ => None,
                    };
                    let below = note?.max(latest_of(m.rest, at(rest))?);
                    Some(table.round_of_move(number).max(below))
                };
                let by_state = |one: u8| {
                    let mut rounds = view.moves_on(one, name).filter_map(by_move);
                    Some((one, chosen(&mut rounds, choices == Choices::LeastMoves)?))
                };
                (0..view.order_one_states()).filter_map(by_state).collect()
            }
            Cell::Pair { top, rest } => {
                let by_state = |state: u8| {
                    let mut rounds = view.edges_of(state).filter_map(|edge| {
                        let top = at(top).get(&edge.one)?;
                        Some(latest_of(edge.set, at(rest))?.max(*top))
                    });
                    Some((state, chosen(&mut rounds, choices == Choices::LeastEdges)?))
                };
                (0..table.order_two_states()).filter_map(by_state).collect()
            }
        };
        known.push(rounds);
    }
    known
}

/// The latest round of the members, 0 if there are none; nothing where one of
/// them does not accept.
fn latest_of(set: Set, rounds: &BTreeMap<u8, usize>) -> Option<usize> {
    members(set).try_fold(0, |latest, state| Some(latest.max(*rounds.get(&state)?)))
}

/// The round of the first choice, or the least of all.
fn chosen(rounds: &mut dyn Iterator<Item = usize>, first: bool) -> Option<usize> {
    if first { rounds.next() } else { rounds.min() }
}

// ---- an example

/// From control 1 a rule rewrites each of the symbols 1, 2 and 3 to the one
/// below it, and the target is symbol 0, so that symbol n is won in round n.
/// From control 0, symbols 4 to 7 go to control 1 by pop 1, pop 2, collapse 1
/// and collapse 2, by moves of round 1; symbol 8 by pop 1, or, by a move of round
/// 2, rewritten to 1; symbol 9 by pop 1, the entry [0,empty], or by pop 2, the
/// entry [0,{1}].
pub fn example_case() -> Case {
    let rule = |from, symbol, code, put| Rule {
        from,
        symbol,
        code,
        put,
        to: 1,
    };
    let mut case = Case::without_records(2, 0, 0, 10);
    case.rules = vec![
        rule(1, 1, 1, 0),
        rule(1, 2, 1, 1),
        rule(1, 3, 1, 2),
        rule(0, 4, 5, 0),
        rule(0, 5, 6, 0),
        rule(0, 6, 7, 0),
        rule(0, 7, 8, 0),
        rule(0, 8, 5, 0),
        rule(0, 8, 1, 1),
        rule(0, 9, 5, 0),
        rule(0, 9, 6, 0),
    ];
    case.entries = vec![FileEntry::plain(1, 0)];
    case.moves = vec![Move {
        state: 0,
        symbol: 0,
        order: 0,
        note: 0,
        rest: 0,
    }];
    case
}

/// Judge's words for the example: a row each for [[n]] from control 1; then from
/// control 0 for 4 on n, 5 above [n], 6 annotated by [n], 7 annotated by [[n]],
/// 8 on n, 9 on 3 above [n]; n from 0 to 3.
///
/// A pop or collapse to n is accepted by the later of rounds 1 and n. Symbol 8 is
/// rewritten in round 2, however late n is; symbol 9 on 3 need not wait for 3.
pub const EXAMPLE_WORDS: [[u16; 4]; 7] = [
    [1, 2, 3, 4],
    [2, 2, 3, 4],
    [2, 2, 3, 4],
    [2, 2, 3, 4],
    [2, 2, 3, 4],
    [2, 2, 3, 3],
    [2, 2, 3, 4],
];

/// The starts of those rows. Cells 0 and 1 are empty stacks of orders 1 and 2,
/// cell 2 + n is the order-1 stack [n], cell 6 + n is [[n]]; then each row but
/// the first has two cells for each n, the second a root: 58 cells.
pub fn example_start() -> StartFile {
    let symbol = |name, note, rest| Cell::Symbol { name, note, rest };
    let pair = |top, rest| Cell::Pair { top, rest };
    let mut cells = vec![Cell::EmptyOne, Cell::EmptyTwo];
    cells.extend((0..4).map(|n| symbol(n, 0, 0)));
    cells.extend((0..4).map(|n| pair(2 + n, 1)));
    let mut starts: Vec<Start> = (6..10).map(|root| Start { control: 1, root }).collect();
    for row in 1..7 {
        for n in 0..4 {
            let (one, two) = (2 + n, 6 + n);
            let (top, below) = match row {
                1 => (symbol(4, 0, one), 1),
                2 => (symbol(5, 0, 0), two),
                3 => (symbol(6, one, 0), 1),
                4 => (symbol(7, two, 0), 1),
                5 => (symbol(8, 0, one), 1),
                _ => (symbol(9, 0, 5), two),
            };
            let top_cell = cells.len() as u16;
            cells.extend([top, pair(top_cell, below)]);
            let root = top_cell + 1;
            starts.push(Start { control: 0, root });
        }
    }
    StartFile { starts, cells }
}
