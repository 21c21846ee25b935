//! Generated pairs of files whose starts are accepted early by entries that rounds find,
//! and later by entries of the file, which have lesser numbers: the guide's walk is
//! another one by more rounds.
//!
//! The file has an entry [p,empty] for each control. The last control's has moves, the
//! target; the others get theirs one by one, along a chain of symbols that rules rewrite.
//! By a pop 2 a round finds [p,{p'}], which accepts the same tops before.

use std::collections::BTreeSet;

use crate::encode::{encode_case, encode_start};
use crate::file::{Case, Cell, FileEntry, Move, Rule, StartFile};
use crate::generate::Pair;
use crate::random::Random;
use crate::shapes::EARLY;
use crate::sound::{pair, rule, start, symbol};

/// The pair of files of a seed.
pub fn early(seed: u64) -> Pair {
    let random = &mut Random::new(seed);
    let case = case(random);
    let start = start_file(random, &case);
    Pair {
        case_file: encode_case(&case),
        start_file: encode_start(&start),
        case,
        start,
    }
}

fn case(random: &mut Random) -> Case {
    let controls = random.byte(2, EARLY.controls);
    let symbols = random.byte(3, EARLY.symbols);
    let inner = random.byte(0, EARLY.inner_one);
    let mut case = Case::without_records(controls, 0, inner, symbols);
    case.final_one = random.part_of(case.inner_one_set(), 50);
    case.final_two = random.part_of(case.control_set(), EARLY.finished);
    case.rules = chains(random, &case);
    case.rules.extend(short_ways(random, &case));
    random.shuffle(&mut case.rules);
    let entry = |control| FileEntry {
        is_final: random.chance(EARLY.finished),
        ..FileEntry::plain(control, 0)
    };
    case.entries = (0..controls).map(entry).collect();
    case.moves = target(random, &case);
    case
}

/// For each control but the last: rewrites of each symbol to one before it, and of symbol
/// 0 to the target's control.
fn chains(random: &mut Random, case: &Case) -> Vec<Rule> {
    let mut rules = Vec::new();
    let last = case.controls - 1;
    for from in 0..last {
        rules.push(rule(from, 0, 1, 0, last));
        for symbol in 1..case.symbols {
            if random.chance(85) {
                let back = random.pick(&[1, 1, 1, 2]).min(symbol);
                let any = random.byte(0, last);
                let to = random.pick(&[from, from, from, any]);
                rules.push(rule(from, symbol, 1, symbol - back, to));
            }
        }
    }
    rules
}

/// Pops and collapses, most of them of order 2, and a few pushes and copies.
fn short_ways(random: &mut Random, case: &Case) -> Vec<Rule> {
    let last = case.controls - 1;
    let mut rules = Vec::new();
    for from in 0..last {
        for symbol in 1..case.symbols {
            if random.chance(70) {
                let code = random.pick(EARLY.codes);
                let put = if code < 4 { random.byte(0, symbol) } else { 0 };
                let any = random.byte(0, last);
                let to = random.pick(&[last, last, any]);
                rules.push(rule(from, symbol, code, put, to));
            }
        }
    }
    rules
}

/// Moves of the last control's entry on the first symbols, and of the inner states.
fn target(random: &mut Random, case: &Case) -> Vec<Move> {
    let inner = case.inner_one_set();
    let target = case.inner_one + case.controls - 1;
    let mut moves = BTreeSet::new();
    for state in (0..case.inner_one).chain([target, target]) {
        let symbols = if state == target { 1 } else { case.symbols - 1 };
        for symbol in 0..=symbols {
            moves.insert(Move {
                state,
                symbol,
                order: 0,
                note: 0,
                rest: random.part_of(inner, EARLY.members),
            });
        }
    }
    moves.into_iter().collect()
}

/// Starts from controls but the last: a symbol, and beneath it and in its annotation the
/// stack [[0]], parts of earlier starts, or an empty stack.
fn start_file(random: &mut Random, case: &Case) -> StartFile {
    let mut cells = vec![Cell::EmptyOne, Cell::EmptyTwo, symbol(0, 0, 0), pair(2, 1)];
    let (mut ones, mut twos) = (vec![0, 0, 2], vec![1, 3, 3, 3]);
    let mut starts = Vec::new();
    for _ in 0..random.between(EARLY.starts / 2, EARLY.starts) {
        let name = random.byte(0, case.symbols - 1);
        let below = random.pick(&twos);
        let note = if random.chance(60) {
            random.pick(&twos)
        } else {
            random.pick(&ones)
        };
        let top = cells.len() as u16;
        cells.extend([symbol(name, note, random.pick(&ones)), pair(top, below)]);
        ones.push(top);
        twos.push(top + 1);
        starts.push(start(random.byte(0, case.controls - 2), top + 1));
    }
    StartFile { starts, cells }
}
