//! The family of the file `bench/flat`: repeated rewrites of a wide entry, one with
//! many moves, beside a chain that adds one move a round.

use crate::file::{Case, FileEntry};
use crate::sets::{Set, only};
use crate::sound::{a_move, rule};

/// The control and the symbol of the wide entry.
const WIDE_CONTROL: u8 = 7;
const WIDE_SYMBOL: u8 = 31;

/// The numbers of a member of the family.
#[derive(Clone, Copy, Debug)]
pub struct Flat {
    /// Rules that rewrite the wide entry's symbol to itself.
    pub repeats: usize,
    /// Rules of the chain: rewrites, and a push that leads from its end to its
    /// beginning.
    pub chain: usize,
    /// Inner order-1 states, which count how often the chain is gone through.
    pub turns: u8,
    /// Moves of the wide entry.
    pub wide: usize,
}

/// The file `bench/flat`.
pub const FLAT: Flat = Flat {
    repeats: 216,
    chain: 40,
    turns: 13,
    wide: 480,
};

impl Flat {
    /// The case. The links of the chain are controls with symbols, from control 0
    /// with symbol 0 on, where the target has one move, of rest set {0}. A rule of
    /// the chain rewrites a link to the one before it; the push leads from the first
    /// to the last and reads symbol 0, by which the rest set {r} becomes {r + 1}.
    pub fn case(&self) -> Case {
        let mut case = Case::without_records(WIDE_CONTROL + 1, 0, self.turns, WIDE_SYMBOL + 1);
        let rewrites = (1..self.chain).map(|number| {
            let ((from, symbol), (to, put)) = (link(number), link(number - 1));
            rule(from, symbol, 1, put, to)
        });
        case.rules.extend(rewrites);
        let (to, put) = link(self.chain - 1);
        case.rules.push(rule(0, 0, 2, put, to));
        let rewrite = rule(WIDE_CONTROL, WIDE_SYMBOL, 1, WIDE_SYMBOL, WIDE_CONTROL);
        case.rules.extend([rewrite].repeat(self.repeats));
        case.entries = [0, WIDE_CONTROL].map(|p| FileEntry::plain(p, 0)).into();
        let counting = (1..self.turns).map(|r| a_move(r - 1, 0, 0, 0, only(r)));
        case.moves.extend(counting);
        let (target, wide) = (self.turns, self.turns + 1);
        case.moves.push(a_move(target, 0, 0, 0, only(0)));
        let moves = (0..self.wide as Set).map(|rest| a_move(wide, WIDE_SYMBOL, 0, 0, rest));
        case.moves.extend(moves);
        case
    }

    /// The rounds that add something: the chain adds a move a round, from the second
    /// link of the first turn to the last link of the last.
    pub fn rounds(&self) -> usize {
        self.chain * usize::from(self.turns) - 1
    }

    /// The results that have to be looked at: one for each repeated rule with each
    /// move of the wide entry, and one for each move that the chain adds.
    pub fn results(&self) -> usize {
        self.repeats * self.wide + self.rounds()
    }
}

/// The control and the symbol of a link of the chain.
pub fn link(number: usize) -> (u8, u8) {
    let symbols = usize::from(WIDE_SYMBOL);
    ((number / symbols) as u8, (number % symbols) as u8)
}
