//! A case whose runs build stacks as deep as 4,096 cells allow, and take them
//! down again; written by hand.

use crate::encode::{encode_case, encode_start};
use crate::file::{Case, Cell, Edge, FileEntry, Move, Rule, Start, StartFile};
use crate::services::MOST_CELLS;

/// The rules: copy, push of order 2 and push of order 1 on the way up, in
/// control 0, and collapse 2 on the way down, to control 1 and in it.
const COPY: u16 = 0;
const PUSH_TWO: u16 = 1;
const PUSH_ONE: u16 = 2;
const TURN: u16 = 3;
const DOWN: u16 = 4;

/// The cells of the start file.
pub const DEEP_CELLS: usize = 7;

/// The most rounds of a copy, four cells, and a push of order 2, three cells.
pub const MOST_ROUNDS: usize = (MOST_CELLS - DEEP_CELLS) / 7;

/// The most pushes.
pub const MOST_PUSHES: usize = (MOST_CELLS - DEEP_CELLS) / 3;

/// Inner state 2 of order 2 and inner state 0 of order 1 accept the stacks of
/// symbol 0 alone, annotations included. The target is such stacks, from control
/// 0 with a top annotated by an order-2 stack, from control 1 by an order-1 one.
pub fn deep_case() -> Vec<u8> {
    let rule = |from, code, to| Rule {
        from,
        symbol: 0,
        code,
        put: 0,
        to,
    };
    let a_move = |state, order, note| Move {
        state,
        symbol: 0,
        order,
        note,
        rest: 0b1,
    };
    let mut case = Case::without_records(2, 1, 1, 2);
    case.final_two = 0b100;
    case.final_one = 0b1;
    case.rules = vec![
        rule(0, 4, 0),
        rule(0, 3, 0),
        rule(0, 2, 0),
        rule(0, 8, 1),
        rule(1, 8, 1),
    ];
    case.entries = [0, 1]
        .map(|control| FileEntry::plain(control, 0b100))
        .into();
    case.edges = vec![Edge {
        state: 2,
        one: 0,
        set: 0b100,
    }];
    case.moves = vec![
        a_move(0, 1, 0b1),
        a_move(0, 2, 0b100),
        a_move(1, 2, 0b100),
        a_move(2, 1, 0b1),
    ];
    encode_case(&case)
}

/// Two starts, from control 0: [[0]] with 0 annotated by the empty order-1 stack,
/// and by [1], which no state accepts.
pub fn deep_start() -> Vec<u8> {
    let symbol = |name, note| Cell::Symbol {
        name,
        note,
        rest: 0,
    };
    let cells = vec![
        Cell::EmptyOne,
        Cell::EmptyTwo,
        symbol(0, 0),
        Cell::Pair { top: 2, rest: 1 },
        symbol(1, 0),
        symbol(0, 4),
        Cell::Pair { top: 5, rest: 1 },
    ];
    assert_eq!(cells.len(), DEEP_CELLS);
    let starts = [3, 6].map(|root| Start { control: 0, root }).into();
    encode_start(&StartFile { starts, cells })
}

/// Rounds of a copy and a push of order 2. The push annotates by the stack that
/// the round before has left, beneath the copy.
pub fn up(rounds: usize) -> Vec<u16> {
    [COPY, PUSH_TWO].repeat(rounds)
}

/// The way up, then collapses, each of which undoes a round.
pub fn up_and_down(rounds: usize, collapses: usize) -> Vec<u16> {
    let mut trace = up(rounds);
    trace.extend([TURN].iter().take(collapses));
    trace.resize(2 * rounds + collapses, DOWN);
    trace
}

/// Pushes of order 1, each of which annotates by the stack beneath the symbol
/// that it covers, then one of order 2. Written out without sharing, such a
/// stack is longer than the two before it together.
pub fn pushes(pushes: usize) -> Vec<u16> {
    let mut trace = vec![PUSH_ONE; pushes - 1];
    trace.push(PUSH_TWO);
    trace
}
