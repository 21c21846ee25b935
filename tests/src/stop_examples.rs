//! Stop after a number of rounds (document 02, §8): examples worked out by hand.

use crate::file::{Case, Cell, FileEntry, Rule, StartFile};
use crate::sound::{a_move, pair, rule, start, symbol};

// ---- a walk that differs with the number of rounds

/// The target is symbol 0 from control 1. From control 0 rule 0 pops to it, and rules
/// 1 and 2 rewrite 0 to 1 and then to it. The file has the entries [0,empty], without
/// moves, and [1,empty].
///
/// Round 1 adds [0,empty] on 1 by rule 2, and finds [0,{1}] on 0 by rule 0. Round 2
/// adds [0,empty] on 0 by rule 1, and then nothing is left to add.
pub fn two_ways() -> Case {
    let mut case = Case::without_records(2, 0, 0, 2);
    case.rules = vec![
        rule(0, 0, 6, 0, 1),
        rule(0, 0, 1, 1, 0),
        rule(0, 1, 1, 0, 1),
    ];
    case.entries = vec![FileEntry::plain(0, 0), FileEntry::plain(1, 0)];
    case.moves = vec![a_move(1, 0, 0, 0, 0)];
    case
}

/// From control 0 the stacks [[0],[0]], [[0]] and [[1]], from control 1 [[0]] and
/// [[1]], of seven cells.
pub fn two_ways_start() -> StartFile {
    let cells = vec![
        Cell::EmptyOne,
        Cell::EmptyTwo,
        symbol(0, 0, 0),
        symbol(1, 0, 0),
        pair(2, 1),
        pair(3, 1),
        pair(2, 4),
    ];
    let starts = [(0, 6), (0, 4), (0, 5), (1, 4), (1, 5)];
    StartFile {
        starts: starts.map(|(p, root)| start(p, root)).into(),
        cells,
    }
}

/// Judge's words after 0, 1 and 2 rounds, and after more as after 2. The first start is
/// accepted by rule 0's entry after round 1, the second only after round 2, for the
/// empty stack beneath is in no target.
pub const TWO_WAYS_WORDS: [[u16; 5]; 3] = [
    [65535, 65535, 65535, 1, 65535],
    [2, 65535, 2, 1, 65535],
    [2, 3, 2, 1, 0],
];

/// The guide's rules for the first start after 1 round and after 2, with the cells
/// used: after round 2 the edge of least number is [0,empty], whose move on 0 is rule
/// 1's.
pub const TWO_WAYS_RUNS: [(u64, &[u16], u64); 2] = [(1, &[0], 7), (2, &[1, 2], 11)];

// ---- as many rounds as a table can have

/// The symbol of the first move, which only round 1 gives.
const FIRST: u8 = 31;

/// Symbols of the chain besides 0.
const SYMBOLS: usize = 30;

/// A case that adds one move a round, 8 and 8 for each link of a chain, of at most 241.
/// It has moves of its own that have no part in this, as many as are named.
///
/// Let S be {0}; control 0 is final. Round 1 gives [0,S] its move on the first symbol, by
/// a pop 2; rounds 2 to 8 give each [p,S] one on 0 with the rest set {[p-1,S]}, by a
/// pop 1; round 9 gives [0,S] one on 0, the first link, with the rest set {[7,S]}. From
/// there rewrites go along the links, one a round, and a push leads from the last to
/// the first again and reads 0, by which the rest set {[p,S]} becomes {[p-1,S]}. The
/// eighth time the rest set is {[0,S]}, and what the push reads from it is held.
#[derive(Clone, Copy, Debug)]
pub struct Longest {
    pub links: usize,
    pub own_moves: usize,
}

impl Longest {
    pub const fn new(links: usize, own_moves: usize) -> Longest {
        Longest { links, own_moves }
    }

    pub fn case(&self) -> Case {
        let mut case = Case::without_records(8, 0, 1, 32);
        case.final_two = 0b1;
        case.rules = vec![rule(0, FIRST, 6, 0, 0)];
        case.rules.extend((1..8).map(|p| rule(p, 0, 5, 0, p - 1)));
        case.rules.push(rule(0, 0, 5, 0, 7));
        case.rules.extend((1..self.links).map(rewrite));
        let (control, name) = link(self.links - 1);
        case.rules.push(rule(0, 0, 2, name, control));
        let moves = (0..self.own_moves as u8).map(|name| a_move(0, name, 0, 0, 0));
        case.moves = moves.collect();
        case
    }

    /// The rounds that add something.
    pub fn rounds(&self) -> u64 {
        8 + 8 * self.links as u64
    }

    /// From the last link's control its symbol on the first symbol, which [0,S] alone
    /// accepts, so that it is won in the last round; the first symbol from control 0, won
    /// in round 1; and from control 1, never won. Six cells.
    pub fn start(&self) -> StartFile {
        let (control, name) = link(self.links - 1);
        let cells = vec![
            Cell::EmptyOne,
            Cell::EmptyTwo,
            symbol(FIRST, 0, 0),
            symbol(name, 0, 2),
            pair(2, 1),
            pair(3, 1),
        ];
        let starts = [(control, 5), (0, 4), (1, 4)];
        StartFile {
            starts: starts.map(|(p, root)| start(p, root)).into(),
            cells,
        }
    }

    /// The run from the first start: eight times back along the links, with a push after
    /// each but the last time, which puts a 0 beneath; then a pop of the first link and of
    /// these seven, and the pop 2 of the first symbol, to the empty stack.
    pub fn run(&self) -> Vec<u16> {
        let last = 8 + self.links as u16;
        let links: Vec<u16> = (9..last).rev().collect();
        let mut run = links.clone();
        for _ in 0..7 {
            run.push(last);
            run.extend(&links);
        }
        run.extend((0..9).rev());
        run
    }

    /// The cells that it uses: 2 a rewrite, 3 a push, 1 a pop 1.
    pub fn cells(&self) -> u64 {
        6 + 2 * 8 * (self.links as u64 - 1) + 3 * 7 + 8
    }
}

/// The control and the symbol of a link.
fn link(number: usize) -> (u8, u8) {
    let before = number.checked_sub(1);
    before.map_or((0, 0), |at| {
        ((at / SYMBOLS) as u8, (1 + at % SYMBOLS) as u8)
    })
}

/// The rule by which a link becomes the one before it.
fn rewrite(number: usize) -> Rule {
    let ((from, name), (to, put)) = (link(number), link(number - 1));
    rule(from, name, 1, put, to)
}
