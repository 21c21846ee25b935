//! Stop after a number of rounds (document 02, §8): what judge and guide are asked of
//! generated pairs, and what judge must answer by the rounds of the whole table.

use crate::generate::Pair;
use crate::lent::Lent;
use crate::pairs::{early_pairs, gathered_pairs, late_pairs, pairs, sparse_pairs};
use crate::saturation::{ALL_ROUNDS, Stopped, stop_after};
use crate::services::{ENTRY_WORDS, LISTING_SIZE, MOVE_WORDS, Mark, marks};
use crate::table::Size;

// ---- what is asked

/// Numbers of rounds that are all rounds of a generated table.
pub const MANY: [u64; 6] = [1024, 1025, 65535, 65536, 1 << 32, ALL_ROUNDS];

/// Cells and trace words in which many walks of generated pairs arrive, and some halt.
pub const CELLS: usize = 64;
pub const TRACE: usize = 6;

/// What judge and guide are asked with: a number of rounds, and the tables lent.
#[derive(Clone, Copy, Debug)]
pub struct Call {
    pub rounds: u64,
    pub lent: Size,
}

impl Call {
    /// Memory with these tables, each with words behind it that are no record.
    pub fn memory(&self) -> Lent {
        let mut lent = Lent::new(self.lent.moves, self.lent.entries, CELLS, TRACE);
        lent.moves.extend([0; MOVE_WORDS - 1]);
        lent.entries.extend([0; ENTRY_WORDS - 1]);
        lent
    }
}

/// How many seeds are taken of each shape.
pub const SEEDS: u64 = 16;

/// Generated pairs with no round that adds something, with few and with many, and those
/// among more of them whose saturated tables pass document 01's limits.
pub fn stopped_pairs(count: u64) -> impl Iterator<Item = (String, Pair)> {
    let too_large = |named: &(String, Pair)| Stops::new(&named.1).whole.goes_on;
    pairs(count)
        .chain(early_pairs(2 * count))
        .chain(gathered_pairs(count))
        .chain(sparse_pairs(4 * count))
        .chain(late_pairs().step_by(25))
        .chain(pairs(8 * count).filter(too_large))
}

/// A pair of files with the table of all its rounds, or of as many as fit document
/// 01's limits; then it goes on.
pub struct Stops<'a> {
    pub pair: &'a Pair,
    pub whole: Stopped,
    /// The round in which each start is won, if it is.
    pub won: Vec<Option<usize>>,
}

impl<'a> Stops<'a> {
    pub fn new(pair: &'a Pair) -> Self {
        let after = |rounds| stop_after(&pair.case, LISTING_SIZE, rounds);
        let most = || (0..).map_while(after).last();
        let whole = after(ALL_ROUNDS).or_else(most).expect("round 0 fits");
        let round = |mark: Mark| match mark {
            Mark::Yes { round } => Some(round),
            Mark::No | Mark::Open => None,
        };
        let won = marks(&whole, &pair.start).into_iter().map(round);
        Stops {
            pair,
            won: won.collect(),
            whole,
        }
    }

    /// The last round of the whole table that adds something.
    pub fn last(&self) -> u64 {
        self.whole.table.rounds() as u64
    }

    /// The size of the table of so many rounds, if it is within document 01's limits.
    pub fn size(&self, rounds: u64) -> Option<Size> {
        let known = rounds <= self.last() || !self.whole.goes_on;
        let run = rounds.min(self.last()) as usize;
        known.then(|| self.whole.table.sizes()[run])
    }

    /// Every number of rounds up to two more than the last, and many.
    pub fn calls(&self) -> Vec<Call> {
        let numbers = (0..=self.last() + 2).chain(MANY);
        numbers
            .flat_map(|rounds| self.calls_after(rounds))
            .collect()
    }

    /// A number of rounds with all that counts lent, with the table of these rounds, and
    /// with a move or an entry less.
    pub fn calls_after(&self, rounds: u64) -> impl Iterator<Item = Call> {
        let exact = self.size(rounds);
        let short = [exact.and_then(less_moves), exact.and_then(less_entries)];
        let sizes = [Some(LISTING_SIZE), exact].into_iter().chain(short);
        sizes.flatten().map(move |lent| Call { rounds, lent })
    }

    /// The same numbers up to the last, and all rounds, each with tables of the size after
    /// every round.
    pub fn calls_of_every_size(&self) -> Vec<Call> {
        let numbers = (0..=self.last()).chain([ALL_ROUNDS]);
        let sizes = self.whole.table.sizes().iter();
        let all = numbers.flat_map(|rounds| sizes.clone().map(move |&lent| Call { rounds, lent }));
        all.collect()
    }
}

/// A move less than a size.
pub fn less_moves(size: Size) -> Option<Size> {
    let moves = size.moves.checked_sub(1)?;
    Some(Size { moves, ..size })
}

/// An entry less than a size.
pub fn less_entries(size: Size) -> Option<Size> {
    let entries = size.entries.checked_sub(1)?;
    Some(Size { entries, ..size })
}

// ---- what judge must answer

/// Judge's reply, "the rounds that added something", and the mark of each start; a
/// word 0 after a refusal counts as no.
#[derive(Clone, Debug, PartialEq, Eq)]
pub struct Judged {
    pub code: u64,
    pub count: u64,
    pub marks: Vec<Mark>,
}

impl Judged {
    /// What judge of the second implementation answers.
    pub fn of(pair: &Pair, call: &Call) -> Judged {
        let mut lent = call.memory();
        let (code, count) = lent.judge_after(&pair.case_file, &pair.start_file, call.rounds);
        assert!(lent.tables_are_zero());
        let marks = lent.marks(pair.start.starts.len());
        Judged { code, count, marks }
    }
}

impl Stops<'_> {
    /// The refusal 9.
    pub fn refused(&self) -> Judged {
        Judged {
            code: 9,
            count: 0,
            marks: vec![Mark::No; self.won.len()],
        }
    }

    /// Whether the table of so many rounds fits what is lent and document 01's limits.
    pub fn fits(&self, rounds: u64, lent: Size) -> bool {
        let within = |size: Size| size.moves <= lent.moves && size.entries <= lent.entries;
        self.size(rounds).is_some_and(within)
    }

    /// What judge must answer, by the rounds of the whole table: 9 if the table of the
    /// rounds run does not fit; yes for a start that was won in one of them; otherwise
    /// open, if there is a round after them that adds something.
    pub fn judged(&self, call: &Call) -> Judged {
        let Call { rounds, lent } = *call;
        if !self.fits(rounds, lent) {
            return self.refused();
        }
        let goes_on = rounds < self.last() || self.whole.goes_on;
        let mark = |won: &Option<usize>| match *won {
            Some(round) if round as u64 <= rounds => Mark::Yes { round },
            _ if goes_on => Mark::Open,
            _ => Mark::No,
        };
        Judged {
            code: 0,
            count: rounds.min(self.last()),
            marks: self.won.iter().map(mark).collect(),
        }
    }
}
