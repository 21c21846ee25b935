//! The first derivation of a move (document 01, "The guided run"): "least rule,
//! then least choices in the order its line above names them, edges and then
//! moves by rising state".

use std::collections::HashSet;

use crate::file::{Case, Edge, Rule};
use crate::lines::{First, Joined, Reading, first_choices};
use crate::sets::{Set, least, only};
use crate::table::{Table, View};

/// A rule with the choices of its line.
#[derive(Clone, Debug, PartialEq, Eq)]
pub struct Derivation {
    /// The number of the rule.
    pub rule: usize,
    pub first: First,
    /// The chosen edge of each order-2 state read, by rising state.
    pub edges: Vec<Edge>,
    /// Each order-1 state read with the number of its move, by rising state.
    pub moves: Vec<(u8, usize)>,
}

/// The first derivation of a move of a round after 0 "from earlier rounds":
/// those before the round of the move.
pub fn first_derivation(case: &Case, table: &Table, number: usize) -> Derivation {
    let view = table.before_round(table.round_of_move(number));
    let m = &table.moves()[number];
    let entry = table
        .entry_of(m.state)
        .expect("rounds add moves of entries");
    let wanted = Joined {
        set: entry.set,
        order: m.order,
        note: m.note,
        rest: m.rest,
    };
    let rules = case.rules.iter().enumerate();
    rules
        .filter(|(_, rule)| rule.from == entry.control && rule.symbol == m.symbol)
        .find_map(|(at, rule)| derivation_by(at, rule, view, wanted))
        .expect("a round adds only results of the earlier rounds")
}

/// The first derivation of `wanted` by one rule.
fn derivation_by(at: usize, rule: &Rule, view: View, wanted: Joined) -> Option<Derivation> {
    first_choices(rule, view)
        .into_iter()
        .find_map(|(first, reading)| {
            let mut search = LeastReading::new(view, rule.symbol, wanted);
            search.edges_from(reading).then_some(Derivation {
                rule: at,
                first,
                edges: search.edges,
                moves: search.moves,
            })
        })
}

/// The search for the least reading that joins to `wanted`. Choices are tried
/// in rising order; a choice is passed over where the joined sets are no part
/// of `wanted`, which no later choice can mend.
struct LeastReading<'a> {
    view: View<'a>,
    symbol: u8,
    wanted: Joined,
    edges: Vec<Edge>,
    moves: Vec<(u8, usize)>,
    /// Order-1 states left and sets joined from which the search has failed.
    failed: HashSet<(Set, Joined)>,
}

impl<'a> LeastReading<'a> {
    fn new(view: View<'a>, symbol: u8, wanted: Joined) -> Self {
        LeastReading {
            view,
            symbol,
            wanted,
            edges: Vec::new(),
            moves: Vec::new(),
            failed: HashSet::new(),
        }
    }

    /// Chooses the edges left and then the moves; true where this succeeds.
    /// Edges are tried by (order-1 state, S).
    fn edges_from(&mut self, reading: Reading) -> bool {
        if !reading.joined.is_part(&self.wanted) {
            return false;
        }
        let Some(state) = least(reading.twos) else {
            return self.moves_from(reading.ones, reading.joined);
        };
        for edge in self.view.edges_of(state) {
            self.edges.push(edge);
            let next = Reading {
                joined: reading.joined.with_edge_set(edge.set),
                twos: reading.twos & !only(state),
                ones: reading.ones | only(edge.one),
            };
            if self.edges_from(next) {
                return true;
            }
            self.edges.pop();
        }
        false
    }

    /// Chooses the moves left; true where this succeeds.
    fn moves_from(&mut self, ones: Set, joined: Joined) -> bool {
        if !joined.is_part(&self.wanted) || self.failed.contains(&(ones, joined)) {
            return false;
        }
        let Some(one) = least(ones) else {
            return joined == self.wanted;
        };
        for number in self.view.moves_on(one, self.symbol) {
            let m = &self.view.table().moves()[number];
            if let Some(next) = joined.with_move(m) {
                self.moves.push((one, number));
                if self.moves_from(ones & !only(one), next) {
                    return true;
                }
                self.moves.pop();
            }
        }
        self.failed.insert((ones, joined));
        false
    }
}
