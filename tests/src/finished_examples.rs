//! Finished scripts as a target (document 02, §3): small cases with their answers,
//! worked out by hand.

use crate::every_state::entry;
use crate::file::{Case, Cell, FileEntry, Start, StartFile};
use crate::sound::{a_move, pair, rule, start, symbol};

/// A case, and starts on the common cells with their answers.
pub struct Example {
    pub name: &'static str,
    pub case: Case,
    pub answers: Vec<Answer>,
}

/// What the services say of a start: judge's word, the rules of the guided run and
/// the new cells of its steps. The word 0 is no, and then there is no run.
pub struct Answer {
    pub start: Start,
    pub word: u16,
    pub run: &'static [u16],
    pub new_cells: u64,
}

impl Example {
    pub fn start_file(&self) -> StartFile {
        let starts = self.answers.iter().map(|answer| answer.start);
        StartFile {
            starts: starts.collect(),
            cells: common_cells().into(),
        }
    }
}

// ---- the common cells

/// Roots among the common cells. Symbols are annotated by the empty order-1 stack,
/// where nothing else is said.
///
/// The empty stack, and stacks of empty order-1 stacks.
const EMPTY: u16 = 1;
const ONE_EMPTY: u16 = 2;
const TWO_EMPTY: u16 = 3;
/// [[0]], [[1]], [[1 0]].
const ZERO: u16 = 6;
const ONE: u16 = 7;
const ONE_ON_ZERO: u16 = 9;
/// [[0],[]], [[],[0]], [[0],[0]].
const ZERO_ON_EMPTY: u16 = 10;
const EMPTY_ON_ZERO: u16 = 11;
const ZERO_ON_ZERO: u16 = 12;
/// [[0]] with 0 annotated by the empty order-2 stack, and by [[]].
const ZERO_NOTING_EMPTY: u16 = 14;
const ZERO_NOTING_ONE_EMPTY: u16 = 16;

/// The number of the common cells.
pub const COMMON_CELLS: usize = 17;

fn common_cells() -> [Cell; COMMON_CELLS] {
    [
        Cell::EmptyOne,
        Cell::EmptyTwo,
        pair(0, EMPTY),
        pair(0, ONE_EMPTY),
        symbol(0, 0, 0),
        symbol(1, 0, 0),
        pair(4, EMPTY),
        pair(5, EMPTY),
        symbol(1, 0, 4),
        pair(8, EMPTY),
        pair(4, ONE_EMPTY),
        pair(0, ZERO),
        pair(4, ZERO),
        symbol(0, EMPTY, 0),
        pair(13, EMPTY),
        symbol(0, ONE_EMPTY, 0),
        pair(15, EMPTY),
    ]
}

// ---- answers

fn no(control: u8, root: u16) -> Answer {
    Answer {
        start: start(control, root),
        word: 0,
        run: &[],
        new_cells: 0,
    }
}

/// In the target: won in round 0, no step.
fn there(control: u8, root: u16) -> Answer {
    Answer {
        word: 1,
        ..no(control, root)
    }
}

/// Won in the round, by the run.
fn by(control: u8, root: u16, round: u16, run: &'static [u16], new_cells: u64) -> Answer {
    Answer {
        start: start(control, root),
        word: round + 1,
        run,
        new_cells,
    }
}

// ---- the examples

/// Every example.
pub fn examples() -> Vec<Example> {
    vec![
        final_control(),
        final_entry(),
        uncovered(),
        annotations(),
        sets_of_final_entries(),
        one_of_two(),
        found(),
        gains_moves(),
        in_two_steps(),
        no_further_step(),
        every_final_control(),
        last_entry(0),
        last_entry(16),
    ]
}

/// Control 1 is final and has no entry. By pop 2 and by collapse 2 from control 0
/// the whole stack must be empty. The entry of the collapse, [0,empty], is numbered
/// before that of the pop, [0,{1}].
fn final_control() -> Example {
    let mut case = Case::without_records(2, 0, 0, 2);
    case.final_two = 0b10;
    case.rules = vec![rule(0, 0, 6, 0, 1), rule(0, 0, 8, 0, 1)];
    Example {
        name: "a final control",
        case,
        answers: vec![
            there(1, EMPTY),
            no(0, EMPTY),
            no(1, ONE_EMPTY),
            no(1, ZERO),
            by(0, ZERO, 1, &[0], 0),
            by(0, ZERO_NOTING_EMPTY, 1, &[1], 0),
            no(0, ZERO_ON_EMPTY),
            no(0, ZERO_ON_ZERO),
            no(0, ONE),
        ],
    }
}

/// The entry [1,empty] is final: an empty top order-1 stack is enough, whatever is
/// beneath, and the empty stack is not one. Symbol 0 comes there by pop 1, symbol
/// 1 by collapse 1.
fn final_entry() -> Example {
    let mut case = Case::without_records(2, 0, 0, 2);
    case.rules = vec![rule(0, 0, 5, 0, 1), rule(0, 1, 7, 0, 1)];
    case.entries = vec![FileEntry::finished(1, 0)];
    Example {
        name: "a final entry",
        case,
        answers: vec![
            no(1, EMPTY),
            there(1, ONE_EMPTY),
            there(1, TWO_EMPTY),
            there(1, EMPTY_ON_ZERO),
            no(0, ONE_EMPTY),
            no(1, ZERO),
            by(0, ZERO, 1, &[0], 1),
            by(0, ZERO_ON_ZERO, 1, &[0], 1),
            by(0, ONE_ON_ZERO, 1, &[1], 1),
            by(0, ZERO_NOTING_EMPTY, 1, &[0], 1),
        ],
    }
}

/// The same target, uncovered by pop 2 and by collapse 2, which use no cell. Neither
/// may leave the empty stack.
fn uncovered() -> Example {
    let mut case = Case::without_records(2, 0, 0, 2);
    case.rules = vec![rule(0, 0, 6, 0, 1), rule(0, 0, 8, 0, 1)];
    case.entries = vec![FileEntry::finished(1, 0)];
    Example {
        name: "an empty top order-1 stack uncovered",
        case,
        answers: vec![
            by(0, ZERO_ON_EMPTY, 1, &[0], 0),
            by(0, ZERO_NOTING_ONE_EMPTY, 1, &[1], 0),
            no(0, ZERO_NOTING_EMPTY),
            no(0, ZERO_ON_ZERO),
        ],
    }
}

/// Control 0 is final, and so is its entry [0,empty], order-1 state 0: the set {0} of
/// either order accepts the empty stack of that order alone. Control 1 comes there
/// by collapse 1, control 2 by collapse 2.
fn annotations() -> Example {
    let mut case = Case::without_records(3, 0, 0, 2);
    case.final_two = 0b1;
    case.rules = vec![rule(1, 0, 7, 0, 0), rule(2, 0, 8, 0, 0)];
    case.entries = vec![FileEntry::finished(0, 0)];
    Example {
        name: "empty annotations of either order",
        case,
        answers: vec![
            by(1, ZERO, 1, &[0], 1),
            no(1, ZERO_NOTING_EMPTY),
            by(2, ZERO_NOTING_EMPTY, 1, &[1], 0),
            no(2, ZERO),
        ],
    }
}

/// The sets of final entries accept what is beneath: inner state 2 accepts the
/// empty stack alone, inner state 3 nothing. Control 0 has [0,{2}], control 1 has
/// [1,{2,3}].
fn sets_of_final_entries() -> Example {
    let mut case = Case::without_records(2, 2, 0, 2);
    case.final_two = 0b100;
    case.entries = vec![
        FileEntry::finished(0, 0b100),
        FileEntry::finished(1, 0b1100),
    ];
    Example {
        name: "sets of final entries",
        case,
        answers: vec![
            there(0, ONE_EMPTY),
            no(0, TWO_EMPTY),
            no(0, EMPTY),
            no(1, ONE_EMPTY),
        ],
    }
}

/// Each control and each entry has a mark of its own. Inner state 2 accepts nothing.
/// Control 0 is final, and it has [0,empty], which is not, and [0,{2}], which is;
/// control 1 is not final, and has its entries the other way round.
fn one_of_two() -> Example {
    let mut case = Case::without_records(2, 1, 0, 2);
    case.final_two = 0b1;
    case.entries = vec![
        FileEntry::plain(0, 0),
        FileEntry::finished(0, 0b100),
        FileEntry::finished(1, 0),
        FileEntry::plain(1, 0b100),
    ];
    Example {
        name: "one final entry of two",
        case,
        answers: vec![
            there(0, EMPTY),
            no(0, ONE_EMPTY),
            no(0, TWO_EMPTY),
            no(1, EMPTY),
            there(1, ONE_EMPTY),
            there(1, TWO_EMPTY),
        ],
    }
}

/// All of eight controls and eight inner order-2 states are final.
fn every_final_control() -> Example {
    let mut case = Case::without_records(8, 8, 0, 2);
    case.final_two = 0xffff;
    Example {
        name: "every control",
        case,
        answers: vec![
            there(0, EMPTY),
            there(7, EMPTY),
            no(0, ONE_EMPTY),
            no(7, ONE_EMPTY),
        ],
    }
}

/// Of 64 order-1 states, so many of them inner and not final, the last is a final
/// entry. The inner order-2 states 8, 9 and 10 are final, and each control has an
/// entry for each set of them, so that the last control's last entry is the one
/// for all three.
fn last_entry(inner: u8) -> Example {
    let mut case = Case::without_records(8, 3, inner, 2);
    case.final_two = 0b111 << 8;
    case.entries = (0..64 - inner).map(entry).collect();
    let last = (63 - inner) / 8;
    case.entries[usize::from(63 - inner)].is_final = true;
    Example {
        name: "the last of 64 order-1 states",
        case,
        answers: vec![
            there(last, ONE_EMPTY),
            no(last, TWO_EMPTY),
            no(last, EMPTY),
            no(last - 1, ONE_EMPTY),
        ],
    }
}

/// Saturation finds [0,empty] in round 1, by the rewrite to the final entry
/// [1,empty] with its move on 0. Control 0 has a final entry too, [0,{2}], whose
/// set accepts nothing. The pop of symbol 1 goes to control 0, where [[0]] has a
/// run and [[]] has none.
fn found() -> Example {
    let mut case = Case::without_records(2, 1, 0, 2);
    case.rules = vec![rule(0, 0, 1, 0, 1), rule(1, 1, 5, 0, 0)];
    case.entries = vec![FileEntry::finished(0, 0b100), FileEntry::finished(1, 0)];
    case.moves = vec![a_move(1, 0, 0, 0, 0)];
    Example {
        name: "an entry found by saturation",
        case,
        answers: vec![
            no(0, ONE_EMPTY),
            no(0, TWO_EMPTY),
            there(1, ONE_EMPTY),
            by(0, ZERO, 1, &[0], 2),
            by(1, ONE_ON_ZERO, 2, &[1, 0], 3),
            no(1, ONE),
        ],
    }
}

/// Saturation gives moves to both entries of the file: to [0,empty], which is final
/// and stays so, on 0 in round 1, and to [1,empty], which is not and does not become
/// so, on 1 in round 2. The latter has a move on 0 of its own.
fn gains_moves() -> Example {
    let mut case = Case::without_records(2, 0, 0, 2);
    case.rules = vec![rule(0, 0, 1, 0, 1), rule(1, 1, 1, 0, 0)];
    case.entries = vec![FileEntry::finished(0, 0), FileEntry::plain(1, 0)];
    case.moves = vec![a_move(1, 0, 0, 0, 0)];
    Example {
        name: "entries that gain moves",
        case,
        answers: vec![
            there(0, ONE_EMPTY),
            no(1, ONE_EMPTY),
            there(1, ZERO),
            by(0, ZERO, 1, &[0], 2),
            by(1, ONE, 2, &[1, 0], 4),
            no(0, ONE),
        ],
    }
}

/// 1 is rewritten to 0, and 0 is popped. The rewrite's move has the rest set of the
/// pop's, {[1,empty]}, which accepts the empty rest and no other.
fn in_two_steps() -> Example {
    let mut case = Case::without_records(2, 0, 0, 2);
    case.rules = vec![rule(0, 1, 1, 0, 0), rule(0, 0, 5, 0, 1)];
    case.entries = vec![FileEntry::finished(1, 0)];
    Example {
        name: "in two steps",
        case,
        answers: vec![
            by(0, ZERO, 1, &[1], 1),
            by(0, ONE, 2, &[0, 1], 3),
            no(0, ONE_ON_ZERO),
        ],
    }
}

/// Control 1 is final and has a final entry, and it has rules on both symbols. A
/// walk that comes to it with an empty stack or an empty top order-1 stack has
/// arrived; with a symbol at the top it goes on.
fn no_further_step() -> Example {
    let mut case = Case::without_records(2, 0, 0, 2);
    case.final_two = 0b10;
    case.entries = vec![FileEntry::finished(1, 0)];
    case.rules = vec![
        rule(0, 0, 5, 0, 1),
        rule(1, 0, 2, 0, 1),
        rule(1, 0, 4, 0, 1),
        rule(1, 0, 6, 0, 1),
        rule(1, 1, 7, 0, 1),
    ];
    Example {
        name: "no further step",
        case,
        answers: vec![
            there(1, EMPTY),
            there(1, ONE_EMPTY),
            there(1, EMPTY_ON_ZERO),
            by(0, ZERO, 1, &[0], 1),
            by(0, ZERO_ON_ZERO, 1, &[0], 1),
            by(1, ONE, 1, &[4], 1),
            by(1, ZERO, 1, &[3], 0),
        ],
    }
}
