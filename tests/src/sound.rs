//! A sound pair of files, written by hand, for tests to change.

use crate::file::{Case, Cell, Edge, FileEntry, Move, Rule, Start, StartFile};
use crate::sets::Set;

/// P 2, I 2, J 2, A 2: controls 0 and 1, inner order-2 states 2 and 3, inner
/// order-1 states 0 and 1, entries 2 and 3.
pub fn sound_case() -> Case {
    Case {
        controls: 2,
        inner_two: 2,
        inner_one: 2,
        symbols: 2,
        final_two: 0b1000,
        final_one: 0b10,
        rules: vec![
            rule(0, 1, 1, 1, 1),
            rule(0, 1, 4, 0, 1),
            rule(0, 1, 8, 0, 1),
        ],
        entries: vec![FileEntry::plain(0, 0b100), FileEntry::plain(1, 0)],
        edges: vec![edge(2, 1, 0), edge(2, 0, 0b1000), edge(3, 0, 0b1100)],
        moves: vec![
            a_move(0, 0, 0, 0, 0b11),
            a_move(0, 1, 1, 0b11, 0),
            a_move(3, 1, 2, 0b1100, 0),
        ],
    }
}

pub fn rule(from: u8, symbol: u8, code: u8, put: u8, to: u8) -> Rule {
    Rule {
        from,
        symbol,
        code,
        put,
        to,
    }
}

pub fn edge(state: u8, one: u8, set: Set) -> Edge {
    Edge { state, one, set }
}

pub fn a_move(state: u8, symbol: u8, order: u8, note: Set, rest: Set) -> Move {
    Move {
        state,
        symbol,
        order,
        note,
        rest,
    }
}

pub fn symbol(name: u8, note: u16, rest: u16) -> Cell {
    Cell::Symbol { name, note, rest }
}

pub fn pair(top: u16, rest: u16) -> Cell {
    Cell::Pair { top, rest }
}

pub fn start(control: u8, root: u16) -> Start {
    Start { control, root }
}

/// Cells 0 and 2 of order 1, cells 1 and 3 of order 2.
pub fn sound_start() -> StartFile {
    StartFile {
        starts: vec![start(1, 3), start(0, 1)],
        cells: vec![Cell::EmptyOne, Cell::EmptyTwo, symbol(1, 1, 0), pair(2, 1)],
    }
}
