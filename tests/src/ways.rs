//! Every way in which the rules give results (document 01, "Saturation"): each
//! choice of a line and of its reading, written out.

use crate::derivation::Derivation;
use crate::file::{Case, Rule};
use crate::lines::{Joined, Reading, first_choices};
use crate::sets::{Set, least, only};
use crate::table::View;

/// A derivation with its result: the sets joined go to the symbol of the rule's
/// control.
pub struct Way {
    pub derivation: Derivation,
    pub result: Found,
}

/// A result: control, symbol, and the sets joined.
pub type Found = (u8, u8, Joined);

/// The states of a set of order-1 states that are read on a symbol.
pub type Read = fn(View, u8, Set) -> Set;

/// All states of the set, as they should be.
pub fn every_state(_: View, _: u8, ones: Set) -> Set {
    ones
}

/// Every way of the case's rules in the table of `view`, by the order in which a
/// first derivation is looked for; nothing if there are more than `most`.
pub fn ways(case: &Case, view: View, read: Read, most: usize) -> Option<Vec<Way>> {
    let mut ways = Vec::new();
    for (number, rule) in case.rules.iter().enumerate() {
        for (first, reading) in first_choices(rule, view) {
            let chosen = Derivation {
                rule: number,
                first,
                edges: Vec::new(),
                moves: Vec::new(),
            };
            let mut writing = Writing {
                rule,
                view,
                read,
                most,
                chosen,
                ways: &mut ways,
            };
            writing.edges_from(reading)?;
        }
    }
    Some(ways)
}

/// The writing of the ways that begin with one first choice.
struct Writing<'a> {
    rule: &'a Rule,
    view: View<'a>,
    read: Read,
    most: usize,
    chosen: Derivation,
    ways: &'a mut Vec<Way>,
}

impl Writing<'_> {
    /// Every choice of the edges left and then of moves.
    fn edges_from(&mut self, reading: Reading) -> Option<()> {
        let Some(state) = least(reading.twos) else {
            let ones = (self.read)(self.view, self.rule.symbol, reading.ones);
            return self.moves_from(ones, reading.joined);
        };
        for edge in self.view.edges_of(state) {
            self.chosen.edges.push(edge);
            self.edges_from(Reading {
                joined: reading.joined.with_edge_set(edge.set),
                twos: reading.twos & !only(state),
                ones: reading.ones | only(edge.one),
            })?;
            self.chosen.edges.pop();
        }
        Some(())
    }

    /// Every choice of the moves left.
    fn moves_from(&mut self, ones: Set, joined: Joined) -> Option<()> {
        let Some(one) = least(ones) else {
            self.ways.push(Way {
                derivation: self.chosen.clone(),
                result: (self.rule.from, self.rule.symbol, joined),
            });
            return (self.ways.len() <= self.most).then_some(());
        };
        for number in self.view.moves_on(one, self.rule.symbol) {
            if let Some(next) = joined.with_move(&self.view.table().moves()[number]) {
                self.chosen.moves.push((one, number));
                self.moves_from(ones & !only(one), next)?;
                self.chosen.moves.pop();
            }
        }
        Some(())
    }
}
