//! The eight lines of document 01, "Saturation": what each rule joins before
//! any reading, and what is left to read.

use crate::file::{Move, Rule};
use crate::sets::{Set, is_part, only};
use crate::table::View;

/// Joined sets: the sets of a result, or of a reading under way.
#[derive(Clone, Copy, Debug, Default, PartialEq, Eq, Hash)]
pub struct Joined {
    /// The edge set S.
    pub set: Set,
    /// The order of the annotation set, 0 while that is empty.
    pub order: u8,
    /// The annotation set B.
    pub note: Set,
    /// The rest set R.
    pub rest: Set,
}

impl Joined {
    /// Joins the sets of a move. "Unions of annotation sets of orders 1 and 2
    /// give no result"; an empty annotation set has order 0 and joins with any.
    pub fn with_move(self, m: &Move) -> Option<Joined> {
        if self.order != 0 && m.order != 0 && self.order != m.order {
            return None;
        }
        Some(Joined {
            order: self.order.max(m.order),
            note: self.note | m.note,
            rest: self.rest | m.rest,
            ..self
        })
    }

    /// Joins the set of an edge.
    pub fn with_edge_set(self, set: Set) -> Joined {
        Joined {
            set: self.set | set,
            ..self
        }
    }

    /// Whether joining more sets might still give `wanted`.
    pub fn is_part(&self, wanted: &Joined) -> bool {
        is_part(self.set, wanted.set)
            && is_part(self.rest, wanted.rest)
            && (self.order == 0 || self.order == wanted.order && is_part(self.note, wanted.note))
    }
}

/// Sets joined so far, with the states that are still to be read.
#[derive(Clone, Copy, Debug, Default, PartialEq, Eq, Hash)]
pub struct Reading {
    pub joined: Joined,
    /// Order-2 states without a chosen edge.
    pub twos: Set,
    /// Order-1 states without a chosen move.
    pub ones: Set,
}

/// What a line chooses before its reading.
#[derive(Clone, Copy, Debug, PartialEq, Eq, Hash)]
pub enum First {
    /// Lines 6 and 8.
    Nothing,
    /// Lines 5 and 7: the order-1 state of an entry [p', S].
    Entry(u8),
    /// Lines 1 to 4: the number of a move.
    Move(usize),
}

/// Every first choice of the rule's line in the table of `view`, with the
/// reading that is left. Entries and moves are in the order of their numbers.
pub fn first_choices(rule: &Rule, view: View) -> Vec<(First, Reading)> {
    match rule.code {
        1..=4 => first_moves(rule, view),
        5 | 7 => first_entries(rule, view),
        6 | 8 => vec![(First::Nothing, line_without_choice(rule))],
        code => unreachable!("code {code} is refused with 3"),
    }
}

/// Lines 1 to 4. The first move is on b, in line 4 on a.
fn first_moves(rule: &Rule, view: View) -> Vec<(First, Reading)> {
    let symbol = if rule.code == 4 {
        rule.symbol
    } else {
        rule.put
    };
    let mut choices = Vec::new();
    for edge in view.edges_of(rule.to) {
        for number in view.moves_on(edge.one, symbol) {
            let m = &view.table().moves()[number];
            if let Some(reading) = line_with_move(rule.code, m, edge.set) {
                choices.push((number, reading));
            }
        }
    }
    choices.sort_by_key(|&(number, _)| number);
    let first = |(number, reading)| (First::Move(number), reading);
    choices.into_iter().map(first).collect()
}

/// One of the lines 1 to 4 for a move (B, R) of [p', S], if it applies.
fn line_with_move(code: u8, m: &Move, set: Set) -> Option<Reading> {
    let sets = Joined {
        set,
        ..Joined::default()
    };
    let reading = match code {
        // "1: each move (b, B, R) of [p',S] gives (B, R), S."
        1 => Reading {
            joined: sets.with_move(m)?,
            ..Reading::default()
        },
        // "B empty or of the push's order, and each reading of a from R as
        // (B', R'): at order 1 (B', R' with B), S"
        2 if m.order != 2 => Reading {
            joined: Joined {
                rest: m.note,
                ..sets
            },
            ones: m.rest,
            twos: 0,
        },
        // "at order 2 (B', R'), S with B."
        3 if m.order != 1 => Reading {
            joined: sets.with_edge_set(m.note),
            ones: m.rest,
            twos: 0,
        },
        // "each reading of a from S as (B', R', S'): (B with B', R with R'), S'."
        4 => Reading {
            joined: Joined::default().with_move(m)?,
            twos: set,
            ones: 0,
        },
        _ => return None,
    };
    Some(reading)
}

/// Lines 5 and 7: "each entry [p',S]".
fn first_entries(rule: &Rule, view: View) -> Vec<(First, Reading)> {
    let mut choices = Vec::new();
    for edge in view.edges_of(rule.to) {
        let joined = if rule.code == 5 {
            // "(empty, {[p',S]}), S"
            Joined {
                set: edge.set,
                rest: only(edge.one),
                ..Joined::default()
            }
        } else {
            // "(order 1 {[p',S]}, empty), S"
            Joined {
                set: edge.set,
                order: 1,
                note: only(edge.one),
                rest: 0,
            }
        };
        choices.push((First::Entry(edge.one), nothing_to_read(joined)));
    }
    choices
}

/// Lines 6 and 8.
fn line_without_choice(rule: &Rule) -> Reading {
    nothing_to_read(if rule.code == 6 {
        // "(empty, empty), {p'}"
        Joined {
            set: only(rule.to),
            ..Joined::default()
        }
    } else {
        // "(order 2 {p'}, empty), empty set"
        Joined {
            order: 2,
            note: only(rule.to),
            ..Joined::default()
        }
    })
}

fn nothing_to_read(joined: Joined) -> Reading {
    Reading {
        joined,
        ..Reading::default()
    }
}
