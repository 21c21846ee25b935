//! Stop after a number of rounds (document 02, §8): which mistakes the answers to
//! generated pairs tell, and what else they hang on.

use self::Kind::*;
use self::Mistake::*;
use crate::generate::Pair;
use crate::kinds::of_these;
use crate::saturation::{ALL_ROUNDS, Stopped, stop_after};
use crate::services::{GuideReply, LISTING_SIZE, Mark, walk_start};
use crate::stops::{CELLS, Call, Judged, Stops, TRACE, less_entries, less_moves};

// ---- mistakes

/// Another reading of the request.
#[derive(Clone, Copy, Debug, PartialEq, Eq, PartialOrd, Ord)]
pub enum Mistake {
    /// 9 for a round that was not run: for the next; for all.
    NineForNext,
    NineForAll,
    /// No in place of open; open where all rounds that were asked for added something,
    /// with nothing left to add.
    NoForOpen,
    OpenForNo,
    /// Open only for a start that the next round would accept; that a later one would;
    /// no for the others.
    OpenIfNext,
    OpenIfLater,
    /// Yes for a start that only a later round accepts.
    YesForLater,
    /// The last round, which adds nothing, is counted; all that were asked for are; the
    /// rounds before a refusal are.
    CountsEmpty,
    CountsAsked,
    CountsRefused,
    /// A round more is run; a round less.
    OneMore,
    OneLess,
    /// Only the low 16 bits of the number are read; only 32.
    LowSixteen,
    LowThirtyTwo,
    /// The guide walks by the least choices of all rounds, from a start marked yes; from
    /// one that is open.
    ChoicesOfAll,
    WalksFromOpen,
    /// The guide asks for the cells before it says open.
    CellsBeforeOpen,
}

/// The mistakes of judge.
const OF_JUDGE: [Mistake; 14] = [
    NineForNext,
    NineForAll,
    NoForOpen,
    OpenForNo,
    OpenIfNext,
    OpenIfLater,
    YesForLater,
    CountsEmpty,
    CountsAsked,
    CountsRefused,
    OneMore,
    OneLess,
    LowSixteen,
    LowThirtyTwo,
];

impl Stops<'_> {
    /// What judge answers by a mistake.
    fn mistaken(&self, mistake: Mistake, call: &Call) -> Judged {
        let right = self.judged(call);
        let Call { rounds, lent } = *call;
        let with = |rounds: u64| self.judged(&Call { rounds, lent });
        match mistake {
            NineForNext if !self.fits(rounds.saturating_add(1), lent) => self.refused(),
            NineForAll if !self.fits(ALL_ROUNDS, lent) => self.refused(),
            OneMore => with(rounds.saturating_add(1)),
            OneLess => with(rounds.saturating_sub(1)),
            LowSixteen => with(rounds & 0xffff),
            LowThirtyTwo => with(rounds & 0xffff_ffff),
            CountsRefused => self.counted_in_refusal(right, call),
            _ if right.code != 0 => right,
            CountsEmpty => Judged {
                count: rounds.min(self.last() + 1),
                ..right
            },
            CountsAsked => Judged {
                count: rounds,
                ..right
            },
            _ => self.marked(mistake, right, rounds),
        }
    }

    /// Judge's answer with other marks.
    fn marked(&self, mistake: Mistake, right: Judged, rounds: u64) -> Judged {
        let all_added = right.count == rounds;
        let other = |(mark, won): (Mark, &Option<usize>)| match (mistake, mark, *won) {
            (NoForOpen, Mark::Open, _) => Mark::No,
            (OpenForNo, Mark::No, _) if all_added => Mark::Open,
            (OpenIfNext, Mark::Open, won) if won != Some(rounds as usize + 1) => Mark::No,
            (OpenIfLater, Mark::Open, None) => Mark::No,
            (YesForLater, Mark::Open, Some(round)) => Mark::Yes { round },
            _ => mark,
        };
        let marks = right.marks.into_iter().zip(&self.won).map(other).collect();
        Judged { marks, ..right }
    }

    /// The refusal with the number of rounds that fit.
    fn counted_in_refusal(&self, right: Judged, call: &Call) -> Judged {
        let fitting = (1..=self.last()).take_while(|&rounds| self.fits(rounds, call.lent));
        match right.code {
            0 => right,
            _ => Judged {
                count: fitting.count() as u64,
                ..right
            },
        }
    }
}

// ---- what answers hang on

/// What a pair of files reaches by one of its calls.
#[derive(Clone, Copy, Debug, PartialEq, Eq, PartialOrd, Ord)]
pub enum Kind {
    /// A start is open after no round; after some.
    OpenAtOnce,
    OpenLater,
    /// A start is open that is won later; one that is not.
    OpenWon,
    OpenLost,
    /// A start is won in the last of the rounds asked for, and not in round 0.
    YesInLast,
    /// All starts are marked yes, and something is left to add.
    YesGoesOn,
    /// There is nothing left to add after as many rounds as were asked for, at least
    /// one, and a start is marked no; the same after no round.
    NoAtLast,
    NoAtOnce,
    /// 9 with a move less than needed; with an entry less; for document 01's limits.
    MovesShort,
    EntriesShort,
    PastLimits,
    /// No 9, because of the number of rounds: document 01's limits are passed later.
    WithinLimits,
    /// An answer is another one by the mistake.
    Tells(Mistake),
}

/// How many kinds there are.
pub const KINDS: usize = 12 + OF_JUDGE.len() + 3;

impl Stops<'_> {
    /// The kinds that the pair reaches, each once.
    pub fn kinds(&self) -> Vec<Kind> {
        let mut kinds = Vec::new();
        for call in self.calls() {
            let judged = self.judged(&call);
            kinds.extend(self.kinds_of_marks(&call, &judged));
            kinds.extend(self.kinds_of_refusal(&call, &judged));
            let told = |mistake: &Mistake| self.mistaken(*mistake, &call) != judged;
            kinds.extend(OF_JUDGE.into_iter().filter(told).map(Tells));
            if call.lent == LISTING_SIZE && judged.code == 0 && call.rounds <= self.last() {
                kinds.extend(self.told_by_guide(call.rounds));
            }
        }
        kinds.sort();
        kinds.dedup();
        kinds
    }

    fn kinds_of_marks(&self, call: &Call, judged: &Judged) -> Vec<Kind> {
        let Judged { code, count, marks } = judged;
        let rounds = call.rounds;
        let has = |mark: Mark| *code == 0 && marks.contains(&mark);
        let open = |won: bool| {
            let mut pairs = marks.iter().zip(&self.won);
            pairs.any(|(mark, round)| *mark == Mark::Open && round.is_some() == won)
        };
        let all_yes = marks.iter().all(|mark| matches!(mark, Mark::Yes { .. }));
        let last = Mark::Yes {
            round: *count as usize,
        };
        of_these([
            (OpenAtOnce, rounds == 0 && has(Mark::Open)),
            (OpenLater, rounds > 0 && has(Mark::Open)),
            (OpenWon, open(true)),
            (OpenLost, open(false)),
            (YesInLast, rounds > 0 && *count == rounds && has(last)),
            (YesGoesOn, all_yes && rounds < self.last()),
            (NoAtLast, rounds > 0 && *count == rounds && has(Mark::No)),
            (NoAtOnce, rounds == 0 && has(Mark::No)),
        ])
    }

    fn kinds_of_refusal(&self, call: &Call, judged: &Judged) -> Vec<Kind> {
        let size = self.size(call.rounds);
        let refused = judged.code == 9;
        of_these([
            (
                MovesShort,
                refused && size.and_then(less_moves) == Some(call.lent),
            ),
            (
                EntriesShort,
                refused && size.and_then(less_entries) == Some(call.lent),
            ),
            (PastLimits, refused && size.is_none()),
            (WithinLimits, !refused && self.whole.goes_on),
        ])
    }

    /// The mistakes that the guide's answers after so many rounds tell.
    fn told_by_guide(&self, rounds: u64) -> Vec<Kind> {
        let Pair { case, start, .. } = self.pair;
        let stopped = stop_after(case, LISTING_SIZE, rounds).expect("rounds that fit");
        let mut told = Vec::new();
        for number in 0..self.won.len() as u64 {
            let walked = |stopped: &Stopped, cells: usize| {
                let mut trace = [0; TRACE];
                (
                    walk_start(case, stopped, start, number, cells, &mut trace),
                    trace,
                )
            };
            let right = walked(&stopped, CELLS);
            let by_all = walked(&self.whole, CELLS) != right;
            let open = right.0 == GuideReply::Open;
            let without_cells = walked(&stopped, 0).0;
            told.extend(of_these([
                (Tells(ChoicesOfAll), by_all && !open),
                (Tells(WalksFromOpen), by_all && open),
                (Tells(CellsBeforeOpen), without_cells == GuideReply::Open),
            ]));
        }
        told
    }
}
