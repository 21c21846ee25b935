//! The rounds (document 01, "Saturation"; document 02, §8).

use std::collections::{BTreeSet, HashSet};

use crate::file::{Case, Entry, Move, ORDER_ONE_STATES, Rule};
use crate::lines::{Joined, Reading, first_choices};
use crate::sets::{Set, least, only};
use crate::table::{Size, Table, View};

/// The largest number of moves of a table.
pub const MOST_MOVES: usize = 1024;

/// All rounds, as a number of rounds: each that adds something adds a move, so a
/// table that fits has fewer.
pub const ALL_ROUNDS: u64 = u64::MAX;

/// A result that is not yet held. The derived order is the one in which new
/// moves are appended: "by (p, S, symbol, order, B, R)".
#[derive(Clone, Copy, PartialEq, Eq, PartialOrd, Ord)]
struct Found {
    entry: Entry,
    symbol: u8,
    order: u8,
    note: Set,
    rest: Set,
}

/// The table of the rounds run, and whether there is something left to add.
#[derive(Clone, Debug)]
pub struct Stopped {
    pub table: Table,
    /// "Round n + 1 would add a move" (document 02, §8).
    pub goes_on: bool,
}

/// The saturated table, or nothing where refusal 9 is due. "The work ends when a
/// round adds none."
pub fn saturate(case: &Case, lent: Size) -> Option<Table> {
    stop_after(case, lent, ALL_ROUNDS).map(|stopped| stopped.table)
}

/// The table of at most so many rounds (document 02, §8), or nothing where refusal 9
/// is due: "more moves than lent or than 1,024, more entries than lent, or more than
/// 64 order-1 states". "9 concerns the rounds run": a round after them need not fit.
pub fn stop_after(case: &Case, lent: Size, rounds: u64) -> Option<Stopped> {
    let limit = Size {
        moves: lent.moves.min(MOST_MOVES),
        entries: lent
            .entries
            .min(ORDER_ONE_STATES - usize::from(case.inner_one)),
    };
    let mut table = Table::new(case);
    if table.moves().len() > limit.moves || table.entries().len() > limit.entries {
        return None;
    }
    for _ in 0..rounds {
        let found = new_results(case, &table, limit.moves)?;
        if found.is_empty() {
            let goes_on = false;
            return Some(Stopped { table, goes_on });
        }
        if !add_entries(&mut table, &found, limit.entries) {
            return None;
        }
        add_moves(&mut table, &found);
        table.end_round();
    }
    let goes_on = adds_a_move(case, &table);
    Some(Stopped { table, goes_on })
}

/// Whether the next round would add a move, whatever limit it would pass: the search
/// for its results ends with the first by which the table would grow.
fn adds_a_move(case: &Case, table: &Table) -> bool {
    new_results(case, table, table.moves().len()).is_none()
}

/// "A round adds every result of the earlier rounds that is not yet held."
/// Answers nothing as soon as the table would hold more than `most` moves.
fn new_results(case: &Case, table: &Table, most: usize) -> Option<BTreeSet<Found>> {
    let mut round = Round {
        view: table.whole(),
        most,
        inner: case.inner_two_set(),
        seen: HashSet::new(),
        found: BTreeSet::new(),
    };
    for rule in without_repeats(&case.rules) {
        for (_, reading) in first_choices(rule, table.whole()) {
            round.read(rule, reading)?;
        }
    }
    Some(round.found)
}

/// "Repeats are allowed": a rule that repeats another gives the same results.
fn without_repeats(rules: &[Rule]) -> Vec<&Rule> {
    let mut met = HashSet::new();
    rules.iter().filter(|&rule| met.insert(rule)).collect()
}

/// "New entries are numbered by (p, S)." False if there are more than `most`.
fn add_entries(table: &mut Table, found: &BTreeSet<Found>, most: usize) -> bool {
    for result in found {
        if table.entry_state(result.entry).is_none() {
            if table.entries().len() == most {
                return false;
            }
            table.add_entry(result.entry);
        }
    }
    true
}

/// "New moves are appended by (p, S, symbol, order, B, R)."
fn add_moves(table: &mut Table, found: &BTreeSet<Found>) {
    for result in found {
        let state = table.entry_state(result.entry);
        table.add_move(Move {
            state: state.expect("the round's entries are added first"),
            symbol: result.symbol,
            order: result.order,
            note: result.note,
            rest: result.rest,
        });
    }
}

/// The collecting of one round's results.
struct Round<'a> {
    view: View<'a>,
    most: usize,
    /// The inner order-2 states.
    inner: Set,
    /// Readings met before, each with the control and symbol of its rule: the
    /// same reading gives the same results, so it is followed only once.
    seen: HashSet<(u8, u8, Reading)>,
    found: BTreeSet<Found>,
}

impl Round<'_> {
    /// Follows every choice that the reading has left. The order of the members
    /// does not change the joined sets. It is: the edges of inner states, then
    /// the moves of the states named, then one control after another, edge and
    /// move together, since an entry is named by its own control alone.
    fn read(&mut self, rule: &Rule, reading: Reading) -> Option<()> {
        if !self.seen.insert((rule.from, rule.symbol, reading)) {
            return Some(());
        }
        if let Some(state) = least(reading.twos & self.inner) {
            self.choose_edge(rule, reading, state)
        } else if let Some(one) = least(reading.ones) {
            self.choose_move(rule, reading, one)
        } else if let Some(control) = least(reading.twos) {
            self.choose_edge(rule, reading, control)
        } else {
            self.keep(rule, reading.joined)
        }
    }

    /// "One choice of edge for each" order-2 state.
    fn choose_edge(&mut self, rule: &Rule, reading: Reading, state: u8) -> Option<()> {
        for edge in self.view.edges_of(state) {
            let next = Reading {
                joined: reading.joined.with_edge_set(edge.set),
                twos: reading.twos & !only(state),
                ones: reading.ones | only(edge.one),
            };
            self.read(rule, next)?;
        }
        Some(())
    }

    /// "One choice of a move on a for each state of the set."
    fn choose_move(&mut self, rule: &Rule, reading: Reading, one: u8) -> Option<()> {
        for number in self.view.moves_on(one, rule.symbol) {
            let m = &self.view.table().moves()[number];
            if let Some(joined) = reading.joined.with_move(m) {
                let next = Reading {
                    joined,
                    ones: reading.ones & !only(one),
                    ..reading
                };
                self.read(rule, next)?;
            }
        }
        Some(())
    }

    /// Keeps a result that is not yet held.
    fn keep(&mut self, rule: &Rule, joined: Joined) -> Option<()> {
        let found = Found {
            entry: Entry {
                control: rule.from,
                set: joined.set,
            },
            symbol: rule.symbol,
            order: joined.order,
            note: joined.note,
            rest: joined.rest,
        };
        if !self.is_held(&found) {
            self.found.insert(found);
        }
        let moves = self.view.table().moves().len() + self.found.len();
        (moves <= self.most).then_some(())
    }

    fn is_held(&self, found: &Found) -> bool {
        let table = self.view.table();
        table.entry_state(found.entry).is_some_and(|state| {
            table.holds(&Move {
                state,
                symbol: found.symbol,
                order: found.order,
                note: found.note,
                rest: found.rest,
            })
        })
    }
}
