//! The services of both implementations behind the same signatures, and all that
//! one of the two answers to a pair of files.

use crate::file::Refusal;
use crate::lent::Lent;
use crate::replay::{self, ReplayReply};
use crate::saturation::ALL_ROUNDS;
use crate::services::{self, GuideReply};
use crate::{brackets, proved};

pub type Saturate = fn(&[u8], &mut [u64], &mut [u64]) -> (u64, u64, u64);
pub type Judge = fn(&[u8], &[u8], u64, &mut [u64], &mut [u64], &mut [u16]) -> (u64, u64);
pub type Guide =
    fn(&[u8], &[u8], u64, u64, &mut [u64], &mut [u64], &mut [u16], &mut [u16]) -> GuideReply;
pub type Listing = fn(&[u8], &[u8]) -> String;
pub type Replay = fn(&[u8], &[u8], u64, &[u8], &mut [u8]) -> ReplayReply;
pub type Brackets = fn(&[u8], &[u8], u64, &mut [u8]) -> (u64, usize);

/// The services of one of the two.
#[derive(Clone, Copy)]
pub struct Services {
    pub saturate: Saturate,
    pub judge: Judge,
    pub guide: Guide,
    pub listing: Listing,
    pub replay: Replay,
    pub brackets: Brackets,
}

/// The second implementation.
pub const SECOND: Services = Services {
    saturate: services::saturate,
    judge: services::judge,
    guide: services::guide,
    listing: services::listing,
    replay: replay::replay,
    brackets: brackets::brackets,
};

/// The proved library.
pub const PROVED: Services = Services {
    saturate: proved::saturate,
    judge: proved::judge,
    guide: proved::guide,
    listing: proved::listing,
    replay: proved::replay,
    brackets: proved::brackets,
};

/// The replies to a pair of files, each with the memory that it leaves.
#[derive(PartialEq, Eq)]
pub struct Answers {
    pub saturate: ((u64, u64, u64), Lent),
    pub judge: ((u64, u64), Lent),
    pub guide: (GuideReply, Lent),
    pub replays: Vec<(ReplayReply, Lent)>,
    pub brackets: ((u64, usize), Lent),
    pub listing: String,
}

impl Services {
    /// All that the services answer, judge and guide by all rounds, guide, replay and
    /// brackets from one start, replay to each of the traces.
    pub fn answers(
        &self,
        lent: &Lent,
        (case, start): (&[u8], &[u8]),
        number: u64,
        traces: &[Vec<u8>],
    ) -> Answers {
        let replay = |trace: &Vec<u8>| {
            left_by(lent, |lent| {
                (self.replay)(case, start, number, trace, &mut lent.replay_cells)
            })
        };
        Answers {
            saturate: left_by(lent, |lent| {
                (self.saturate)(case, &mut lent.moves, &mut lent.entries)
            }),
            judge: left_by(lent, |lent| self.judge_with(lent, case, start)),
            guide: left_by(lent, |lent| self.guide_with(lent, case, start, number)),
            replays: traces.iter().map(replay).collect(),
            brackets: left_by(lent, |lent| {
                (self.brackets)(case, start, number, &mut lent.text)
            }),
            listing: (self.listing)(case, start),
        }
    }

    fn judge_with(&self, lent: &mut Lent, case: &[u8], start: &[u8]) -> (u64, u64) {
        let Lent {
            moves,
            entries,
            answers,
            ..
        } = lent;
        (self.judge)(case, start, ALL_ROUNDS, moves, entries, answers)
    }

    fn guide_with(&self, lent: &mut Lent, case: &[u8], start: &[u8], number: u64) -> GuideReply {
        let Lent {
            moves,
            entries,
            cells,
            trace,
            ..
        } = lent;
        (self.guide)(
            case, start, number, ALL_ROUNDS, moves, entries, cells, trace,
        )
    }
}

/// The reply of a call and the memory that it leaves.
fn left_by<Reply>(lent: &Lent, call: impl FnOnce(&mut Lent) -> Reply) -> (Reply, Lent) {
    let mut lent = lent.clone();
    lent.fill();
    let reply = call(&mut lent);
    (reply, lent)
}

impl Answers {
    /// Whether each service answers this refusal and leaves the memory zero that it
    /// was lent.
    pub fn are_refusal(&self, refusal: Refusal) -> bool {
        let (reply, lent) = &self.saturate;
        *reply == (refusal, 0, 0) && lent.tables_are_zero() && self.are_refusal_of_pair(refusal)
    }

    /// The same of the services that read both files.
    pub fn are_refusal_of_pair(&self, refusal: Refusal) -> bool {
        let Answers {
            judge,
            guide,
            replays,
            brackets,
            listing,
            ..
        } = self;
        let replayed = |(reply, lent): &(ReplayReply, Lent)| {
            *reply == ReplayReply::Refused(refusal) && lent.replay_cells_are_zero()
        };
        judge.0 == (refusal, 0)
            && judge.1.tables_are_zero()
            && judge.1.answers_are_zero()
            && guide.0 == GuideReply::Refused(refusal)
            && guide.1.tables_are_zero()
            && guide.1.cells_are_zero()
            && guide.1.trace_is_zero_from(0)
            && replays.iter().all(replayed)
            && brackets.0 == (refusal, 0)
            && brackets.1.text_is_zero_from(0)
            && *listing == format!("refused {refusal}\n")
    }

    /// The replies, for a failure to name.
    pub fn in_short(&self) -> String {
        let replays: Vec<ReplayReply> = self.replays.iter().map(|replay| replay.0).collect();
        format!(
            "saturate {:?} judge {:?} guide {:?} replays {replays:?} brackets {:?} listing {:?}",
            self.saturate.0, self.judge.0, self.guide.0, self.brackets.0, self.listing
        )
    }
}
