//! Rounds and first derivations compared with a literal reading of document 01,
//! "Saturation", in which every choice of every line is written out.

use std::collections::BTreeSet;

use second::derivation::{Derivation, first_derivation};
use second::file::{Case, Edge, Entry, Move, Rule};
use second::lines::First;
use second::pairs::{gathered_pairs, pairs};
use second::saturation::saturate;
use second::sets::{Set, has, members, only};
use second::table::{Size, Table};

/// Tables above these sizes are left to the other tests.
const SMALL: Size = Size {
    moves: 60,
    entries: 20,
};

/// Readings with more choices than this are left to the other tests.
const MOST_CHOICES: usize = 20_000;

/// The moves and entries of the earlier rounds.
struct Earlier<'a> {
    case: &'a Case,
    moves: &'a [Move],
    entries: &'a [Entry],
}

/// One way in which a rule gives a result: its choices, and the result.
struct Way {
    first: First,
    edges: Vec<Edge>,
    moves: Vec<(u8, usize)>,
    entry: Entry,
    order: u8,
    note: Set,
    rest: Set,
}

/// Every list with one element of each of the lists, in the order of the lists.
/// Nothing if there are too many.
fn product<T: Copy>(lists: &[Vec<T>]) -> Option<Vec<Vec<T>>> {
    let mut all = vec![Vec::new()];
    for list in lists {
        if all.len() * list.len() > MOST_CHOICES {
            return None;
        }
        let longer = all.iter().flat_map(|chosen| {
            list.iter().map(move |&next| {
                let mut longer = chosen.clone();
                longer.push(next);
                longer
            })
        });
        all = longer.collect();
    }
    Some(all)
}

/// The union of annotation sets, if no two are of orders 1 and 2.
fn join_notes(notes: &[(u8, Set)]) -> Option<(u8, Set)> {
    let order = notes.iter().map(|note| note.0).max().unwrap_or(0);
    let clash = order == 2 && notes.iter().any(|note| note.0 == 1);
    let set = notes.iter().fold(0, |set, note| set | note.1);
    (!clash).then_some((order, set))
}

impl Earlier<'_> {
    fn state(&self, number: usize) -> u8 {
        self.case.inner_one + number as u8
    }

    /// The entries of a control with their order-1 states.
    fn entries_of(&self, control: u8) -> impl Iterator<Item = (u8, Entry)> {
        let numbered = self.entries.iter().enumerate();
        numbered
            .filter(move |(_, entry)| entry.control == control)
            .map(|(number, &entry)| (self.state(number), entry))
    }

    fn edges_of(&self, state: u8) -> Vec<Edge> {
        let inner = self.case.edges.iter().filter(|edge| edge.state == state);
        let entries = self.entries_of(state).map(|(one, entry)| Edge {
            state,
            one,
            set: entry.set,
        });
        let mut edges: Vec<Edge> = inner.copied().chain(entries).collect();
        edges.sort_by_key(|edge| (edge.one, edge.set));
        edges
    }

    /// Every choice of a move on the symbol for each of the order-1 states.
    fn move_choices(&self, symbol: u8, ones: Set) -> Option<Vec<Vec<(u8, usize)>>> {
        let of = |one: u8| {
            let numbered = self.moves.iter().enumerate();
            let fitting = numbered.filter(|(_, m)| m.state == one && m.symbol == symbol);
            fitting.map(|(number, _)| (one, number)).collect()
        };
        product(&members(ones).map(of).collect::<Vec<_>>())
    }

    /// Every choice of an edge for each of the order-2 states.
    fn edge_choices(&self, twos: Set) -> Option<Vec<Vec<Edge>>> {
        let of = |state| self.edges_of(state);
        product(&members(twos).map(of).collect::<Vec<_>>())
    }

    /// Every way of the rule, in the order of its choices.
    fn ways(&self, rule: &Rule) -> Option<Vec<Way>> {
        let mut ways = Vec::new();
        match rule.code {
            1..=4 => {
                for (number, m) in self.moves.iter().enumerate() {
                    let of = self.entries_of(rule.to).find(|(one, _)| *one == m.state);
                    if let Some((_, entry)) = of {
                        self.ways_with_move(rule, number, entry.set, &mut ways)?;
                    }
                }
            }
            5 | 7 => {
                for (one, entry) in self.entries_of(rule.to) {
                    let way = way(rule, First::Entry(one), entry.set);
                    ways.push(if rule.code == 5 {
                        Way {
                            rest: only(one),
                            ..way
                        }
                    } else {
                        Way {
                            order: 1,
                            note: only(one),
                            ..way
                        }
                    });
                }
            }
            6 => ways.push(way(rule, First::Nothing, only(rule.to))),
            _ => ways.push(Way {
                order: 2,
                note: only(rule.to),
                ..way(rule, First::Nothing, 0)
            }),
        }
        Some(ways)
    }

    /// The ways of the codes 1 to 4 by a move of [p', S].
    fn ways_with_move(
        &self,
        rule: &Rule,
        number: usize,
        set: Set,
        ways: &mut Vec<Way>,
    ) -> Option<()> {
        let m = &self.moves[number];
        let on = if rule.code == 4 {
            rule.symbol
        } else {
            rule.put
        };
        let first = First::Move(number);
        match rule.code {
            _ if m.symbol != on => {}
            1 => ways.push(Way {
                order: m.order,
                note: m.note,
                rest: m.rest,
                ..way(rule, first, set)
            }),
            2 | 3 if m.order == 0 || m.order == rule.code - 1 => {
                let (to_rest, to_set) = if rule.code == 2 {
                    (m.note, 0)
                } else {
                    (0, m.note)
                };
                for moves in self.move_choices(rule.symbol, m.rest)? {
                    let base = Way {
                        rest: to_rest,
                        moves,
                        ..way(rule, first, set | to_set)
                    };
                    ways.extend(self.joined(base, (0, 0)));
                }
            }
            4 => {
                for edges in self.edge_choices(set)? {
                    let ones = edges.iter().fold(0, |ones, edge| ones | only(edge.one));
                    let set = edges.iter().fold(0, |set, edge| set | edge.set);
                    for moves in self.move_choices(rule.symbol, ones)? {
                        let base = Way {
                            rest: m.rest,
                            edges: edges.clone(),
                            moves,
                            ..way(rule, first, set)
                        };
                        ways.extend(self.joined(base, (m.order, m.note)));
                    }
                }
            }
            _ => {}
        }
        Some(())
    }

    /// The way with the sets of its chosen moves joined.
    fn joined(&self, mut way: Way, note: (u8, Set)) -> Option<Way> {
        let mut notes = vec![note];
        for &(_, number) in &way.moves {
            let m = &self.moves[number];
            notes.push((m.order, m.note));
            way.rest |= m.rest;
        }
        (way.order, way.note) = join_notes(&notes)?;
        Some(way)
    }
}

fn way(rule: &Rule, first: First, set: Set) -> Way {
    Way {
        first,
        edges: Vec::new(),
        moves: Vec::new(),
        entry: Entry {
            control: rule.from,
            set,
        },
        order: 0,
        note: 0,
        rest: 0,
    }
}

/// The part of the table that is held after a round.
fn after<'a>(case: &'a Case, table: &'a Table, size: Size) -> Earlier<'a> {
    Earlier {
        case,
        moves: &table.moves()[..size.moves],
        entries: &table.entries()[..size.entries],
    }
}

/// What a round adds, as (p, S, symbol, order, B, R), sorted.
type Added = BTreeSet<(Entry, u8, u8, Set, Set)>;

/// Every result of the earlier rounds that is not yet held.
fn literal_round(earlier: &Earlier) -> Option<Added> {
    let held: Added = earlier
        .moves
        .iter()
        .filter(|m| m.state >= earlier.case.inner_one)
        .map(|m| named(earlier.entries, earlier.case, m))
        .collect();
    let mut added = Added::new();
    for rule in &earlier.case.rules {
        for way in earlier.ways(rule)? {
            added.insert((way.entry, rule.symbol, way.order, way.note, way.rest));
        }
    }
    Some(&added - &held)
}

/// A move of an entry, named by control and set.
fn named(entries: &[Entry], case: &Case, m: &Move) -> (Entry, u8, u8, Set, Set) {
    let entry = entries[usize::from(m.state - case.inner_one)];
    (entry, m.symbol, m.order, m.note, m.rest)
}

/// Compares every round of the table; false if one has too many choices.
fn rounds_agree(case: &Case, table: &Table, name: &str) -> bool {
    let sizes = table.sizes();
    for (round, &size) in sizes.iter().enumerate() {
        let earlier = after(case, table, size);
        let Some(added) = literal_round(&earlier) else {
            return false;
        };
        let next = sizes.get(round + 1).copied().unwrap_or(size);
        let moves = &table.moves()[size.moves..next.moves];
        let found: Vec<_> = moves
            .iter()
            .map(|m| named(table.entries(), case, m))
            .collect();
        assert_eq!(found, Vec::from_iter(added), "{name} round {}", round + 1);
        let entries = &table.entries()[size.entries..next.entries];
        assert!(entries.is_sorted_by(|x, y| x < y), "{name}");
        let used: BTreeSet<Entry> = found.iter().map(|result| result.0).collect();
        assert!(entries.iter().all(|entry| used.contains(entry)), "{name}");
    }
    true
}

/// The first way that gives the move, by the least rule.
fn literal_derivation(earlier: &Earlier, wanted: (Entry, u8, u8, Set, Set)) -> Option<Derivation> {
    for (number, rule) in earlier.case.rules.iter().enumerate() {
        for way in earlier.ways(rule)? {
            if wanted == (way.entry, rule.symbol, way.order, way.note, way.rest) {
                return Some(Derivation {
                    rule: number,
                    first: way.first,
                    edges: way.edges,
                    moves: way.moves,
                });
            }
        }
    }
    None
}

/// Compares the first derivation of every move that a round added.
fn derivations_agree(case: &Case, table: &Table, name: &str) -> usize {
    let first = table.sizes()[0].moves;
    for number in first..table.moves().len() {
        let round = table.round_of_move(number);
        let earlier = after(case, table, table.sizes()[round - 1]);
        let wanted = named(table.entries(), case, &table.moves()[number]);
        let derivation = first_derivation(case, table, number);
        let literal = literal_derivation(&earlier, wanted);
        assert_eq!(Some(derivation), literal, "{name} move {number}");
    }
    table.moves().len() - first
}

#[test]
fn rounds_and_derivations_agree_with_the_literal_reading() {
    let (mut tables, mut left_out, mut derived, mut joined) = (0, 0, 0, 0);
    for (name, pair) in pairs(300).chain(gathered_pairs(300)) {
        let Some(table) = saturate(&pair.case, SMALL) else {
            continue;
        };
        if rounds_agree(&pair.case, &table, &name) {
            tables += 1;
            derived += derivations_agree(&pair.case, &table, &name);
            joined += several_members(&pair.case, &table);
        } else {
            left_out += 1;
        }
    }
    println!("{tables} tables, {left_out} left out, {derived} derivations");
    println!("{joined} sets with several members in moves that rounds added");
    assert!(tables >= 600 && 20 * left_out < tables);
    assert!(derived >= 1000 && joined >= 100);
}

/// How many moves of the rounds have a set with more than one member.
fn several_members(case: &Case, table: &Table) -> usize {
    let added = table.moves().iter().skip(case.moves.len());
    added
        .filter(|m| m.note.count_ones() > 1 || m.rest.count_ones() > 1)
        .count()
}

/// Sets of one to three of the first states, for the members' order.
#[test]
fn members_rise() {
    for set in 0..8 {
        let listed: Vec<u8> = members(set).collect();
        assert!(listed.is_sorted());
        assert!((0..3).all(|n| listed.contains(&n) == has(set, n)));
    }
}
