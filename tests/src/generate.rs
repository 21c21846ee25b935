//! Generators of sound case and start files from fixed seeds.

use std::collections::{BTreeMap, BTreeSet};

use crate::encode::{encode_case, encode_start};
use crate::file::{
    Case, Cell, Edge, Entry, FileEntry, Move, ORDER_ONE_STATES, Rule, Start, StartFile,
};
use crate::plant::plant;
use crate::random::Random;
use crate::sets::{Set, members};
use crate::shapes::Shape;

/// A sound case and a sound start file for it, with their bytes.
#[derive(Clone, Debug)]
pub struct Pair {
    pub case: Case,
    pub start: StartFile,
    pub case_file: Vec<u8>,
    pub start_file: Vec<u8>,
}

/// The pair of files of a seed and a shape.
pub fn pair(seed: u64, shape: &Shape) -> Pair {
    let mut random = Random::new(seed);
    let mut case = case(&mut random, shape);
    let start = start(&mut random, shape, &case);
    if shape.planted {
        plant(&mut random, shape, &mut case, &start);
    }
    Pair {
        case_file: encode_case(&case),
        start_file: encode_start(&start),
        case,
        start,
    }
}

/// A sound case of the shape.
pub fn case(random: &mut Random, shape: &Shape) -> Case {
    let mut case = Case::without_records(
        random.byte(1, shape.controls),
        random.byte(0, shape.inner_two),
        random.byte(0, shape.inner_one),
        random.byte(1, shape.symbols),
    );
    let final_controls = random.part_of(case.control_set(), shape.finished);
    case.final_two = final_controls | random.part_of(case.inner_two_set(), 50);
    case.final_one = random.part_of(case.inner_one_set(), 50);
    case.rules = rules(random, shape, &case);
    case.entries = entries(random, shape, &case);
    case.edges = edges(random, shape, &case);
    case.moves = moves(random, shape, &case);
    case
}

/// Rules of any control on any symbol, or, with a planted target, one rule for
/// nearly every control and symbol, so that runs are long and have few
/// branches.
fn rules(random: &mut Random, shape: &Shape, case: &Case) -> Vec<Rule> {
    let mut rules = Vec::new();
    if shape.planted {
        for from in 0..case.controls {
            for symbol in 0..case.symbols {
                if random.chance(95) {
                    rules.push(rule(random, shape, case, from, symbol));
                }
            }
        }
    }
    for _ in 0..random.between(shape.rules / 4, shape.rules) {
        let from = random.byte(0, case.controls - 1);
        let symbol = random.byte(0, case.symbols - 1);
        rules.push(rule(random, shape, case, from, symbol));
    }
    random.shuffle(&mut rules);
    rules
}

fn rule(random: &mut Random, shape: &Shape, case: &Case, from: u8, symbol: u8) -> Rule {
    let code = random.pick(shape.codes);
    let put = random.byte(0, case.symbols - 1);
    let last = case.controls - 1;
    let to = if random.chance(shape.onward) {
        last.min(from + 1)
    } else {
        random.byte(0, last)
    };
    Rule {
        from,
        symbol,
        code,
        put: if code < 4 { put } else { 0 },
        to,
    }
}

/// Entries for the last control, most often, and for a few of the others,
/// strictly increasing.
fn entries(random: &mut Random, shape: &Shape, case: &Case) -> Vec<FileEntry> {
    let mut entries = BTreeMap::new();
    for control in 0..case.controls {
        let last = control == case.controls - 1;
        if random.chance(if last { 95 } else { shape.finished.max(20) }) {
            for _ in 0..random.between(1, shape.edges) {
                let set = random.part_of(case.inner_two_set(), shape.members);
                let is_final = random.chance(shape.finished);
                entries.insert(Entry { control, set }, is_final);
            }
        }
    }
    let most = ORDER_ONE_STATES - usize::from(case.inner_one);
    let written = |(entry, is_final)| FileEntry { entry, is_final };
    entries.into_iter().take(most).map(written).collect()
}

/// Edges of the inner states, strictly increasing by (state, S, second byte).
fn edges(random: &mut Random, shape: &Shape, case: &Case) -> Vec<Edge> {
    if case.inner_one == 0 {
        return Vec::new();
    }
    let mut edges = BTreeSet::new();
    for state in members(case.inner_two_set()) {
        for _ in 0..random.between(0, 2 * shape.edges) {
            let set = random.part_of(case.inner_two_set(), shape.members);
            edges.insert((state, set, random.byte(0, case.inner_one - 1)));
        }
    }
    edges
        .into_iter()
        .map(|(state, set, one)| Edge { state, one, set })
        .collect()
}

/// Moves of the order-1 states, strictly increasing.
fn moves(random: &mut Random, shape: &Shape, case: &Case) -> Vec<Move> {
    let states = case.inner_one + case.entries.len() as u8;
    let mut moves = BTreeSet::new();
    for state in 0..states {
        let least = usize::from(random.chance(90));
        for _ in 0..random.between(least, shape.moves) {
            let symbol = random.byte(0, case.symbols - 1);
            let (order, note) = note(random, shape, case);
            let rest = random.part_of(case.inner_one_set(), shape.members);
            moves.insert(Move {
                state,
                symbol,
                order,
                note,
                rest,
            });
        }
    }
    moves.into_iter().collect()
}

/// An annotation order and its set, which is empty exactly at order 0.
fn note(random: &mut Random, shape: &Shape, case: &Case) -> (u8, Set) {
    let order = random.byte(0, 2);
    let states = match order {
        0 => 0,
        1 => case.inner_one_set(),
        _ => case.inner_two_set(),
    };
    match random.part_of(states, shape.members) {
        0 => (0, 0),
        set => (order, set),
    }
}

/// A sound start file of the shape for the case.
pub fn start(random: &mut Random, shape: &Shape, case: &Case) -> StartFile {
    let mut cells = vec![Cell::EmptyOne, Cell::EmptyTwo];
    if random.chance(50) {
        cells.reverse();
    }
    for _ in 0..random.between(shape.cells / 4, shape.cells - 2) {
        let cell = cell(random, shape, case, &cells);
        cells.push(cell);
    }
    let last = case.controls - 1;
    let starts = (0..random.between(1, shape.starts))
        .map(|_| Start {
            control: random.byte(0, last).min(random.byte(0, last)),
            root: root(random, shape, &cells),
        })
        .collect();
    StartFile { starts, cells }
}

/// An order-2 cell, most often one whose top symbol a rule can read.
fn root(random: &mut Random, shape: &Shape, cells: &[Cell]) -> u16 {
    let readable = |cell: &Cell| match cell {
        Cell::Pair { top, .. } => matches!(cells[usize::from(*top)], Cell::Symbol { .. }),
        _ => false,
    };
    if random.chance(shape.finished / 2) {
        let finished = |cell: &Cell| cell.order() == 2 && !readable(cell);
        return random.pick(&numbers_of(cells, finished));
    }
    let readable: Vec<u16> = numbers_of(cells, readable);
    if readable.is_empty() || random.chance(10) {
        lower(random, shape, cells, Some(2))
    } else {
        random.pick(&readable)
    }
}

/// One more cell; now and then an empty stack anew.
fn cell(random: &mut Random, shape: &Shape, case: &Case, cells: &[Cell]) -> Cell {
    match random.below(20) {
        0 => Cell::EmptyOne,
        1 => Cell::EmptyTwo,
        2..=12 => Cell::Symbol {
            name: random.byte(0, case.symbols - 1),
            note: lower(random, shape, cells, None),
            rest: lower(random, shape, cells, Some(1)),
        },
        _ => Cell::Pair {
            top: lower(random, shape, cells, Some(1)),
            rest: lower(random, shape, cells, Some(2)),
        },
    }
}

/// The number of one of the cells, of the given order if there is one. Most of
/// the answers are among the last two, so that deep stacks occur; some are empty
/// stacks.
fn lower(random: &mut Random, shape: &Shape, cells: &[Cell], order: Option<u8>) -> u16 {
    let of_order = |cell: &Cell| order.is_none_or(|order| cell.order() == order);
    let is_empty = |cell: &Cell| matches!(cell, Cell::EmptyOne | Cell::EmptyTwo);
    let fitting = numbers_of(cells, of_order);
    if random.chance(shape.finished / 2) {
        random.pick(&numbers_of(cells, |cell| of_order(cell) && is_empty(cell)))
    } else if random.chance(75) {
        random.pick(&fitting[fitting.len().saturating_sub(2)..])
    } else {
        random.pick(&fitting)
    }
}

/// The numbers of the cells with a property.
fn numbers_of(cells: &[Cell], property: impl Fn(&Cell) -> bool) -> Vec<u16> {
    let numbered = (0..).zip(cells).filter(|(_, cell)| property(cell));
    numbered.map(|(number, _)| number).collect()
}
