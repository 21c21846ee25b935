//! The proved library beside the second implementation: both get the same files
//! and as much memory, filled with rubbish. They must answer alike and leave the
//! same words, and the proved library nothing else.

use std::fmt::Debug;
use std::iter::repeat_with;

use crate::data::hex;
use crate::lent::Lent;
use crate::proved;
use crate::random::Random;
use crate::replay::{REPLAY_CELL_BYTES, ReplayReply};
use crate::saturation::ALL_ROUNDS;
use crate::services::GuideReply;

/// Words on both sides of a lent slice that must stay as they are.
const MARGIN: usize = 4;

/// A slice of rubbish to lend, with its margins.
struct Rubbish<T> {
    before: Vec<T>,
    words: Vec<T>,
}

impl<T: Copy + PartialEq> Rubbish<T> {
    fn new(length: usize, word: impl FnMut() -> T) -> Rubbish<T> {
        let words: Vec<T> = repeat_with(word).take(length + 2 * MARGIN).collect();
        Rubbish {
            before: words.clone(),
            words,
        }
    }

    fn lent(&mut self) -> &mut [T] {
        let end = self.words.len() - MARGIN;
        &mut self.words[MARGIN..end]
    }

    /// Whether the margins are as before, and the slice is as given.
    fn holds(&self, slice: &[T]) -> bool {
        let end = self.words.len() - MARGIN;
        self.words[..MARGIN] == self.before[..MARGIN]
            && self.words[end..] == self.before[end..]
            && self.words[MARGIN..end] == *slice
    }
}

/// Both implementations, with memory of the same lengths.
pub struct Both {
    /// The memory as the second implementation left it, and, where a call
    /// returned, as the proved library left its own.
    pub lent: Lent,
    random: Random,
}

impl Both {
    pub fn new(lent: Lent) -> Both {
        let random = Random::new(1);
        Both { lent, random }
    }

    /// Lends so many cells to replay.
    pub fn lend_to_replay(&mut self, cells: usize) {
        self.lent.replay_cells.resize(cells * REPLAY_CELL_BYTES, 0);
    }

    fn words(&mut self, length: usize) -> Rubbish<u64> {
        Rubbish::new(length, || self.random.word())
    }

    fn halves(&mut self, length: usize) -> Rubbish<u16> {
        Rubbish::new(length, || self.random.word() as u16)
    }

    fn bytes(&mut self, length: usize) -> Rubbish<u8> {
        Rubbish::new(length, || self.random.word() as u8)
    }

    pub fn saturate(&mut self, case: &[u8]) -> (u64, u64, u64) {
        let second = self.lent.saturate(case);
        let mut moves = self.words(self.lent.moves.len());
        let mut entries = self.words(self.lent.entries.len());
        let proved = proved::saturate(case, moves.lent(), entries.lent());
        let tables = self.tables_agree(&moves, &entries);
        let service = || "saturate".to_string();
        self.answer(service, second, proved, &[("tables", tables)], (case, &[]))
    }

    /// Judge's reply by all rounds.
    pub fn judge(&mut self, case: &[u8], start: &[u8]) -> u64 {
        self.judge_after(case, start, ALL_ROUNDS).0
    }

    /// Judge's reply after at most so many rounds, and the rounds that added something.
    pub fn judge_after(&mut self, case: &[u8], start: &[u8], rounds: u64) -> (u64, u64) {
        let second = self.lent.judge_after(case, start, rounds);
        let mut moves = self.words(self.lent.moves.len());
        let mut entries = self.words(self.lent.entries.len());
        let mut answers = self.halves(self.lent.answers.len());
        let proved = proved::judge(
            case,
            start,
            rounds,
            moves.lent(),
            entries.lent(),
            answers.lent(),
        );
        let agree = [
            ("tables", self.tables_agree(&moves, &entries)),
            ("answers", answers.holds(&self.lent.answers)),
        ];
        let service = || format!("judge after {rounds} rounds");
        self.answer(service, second, proved, &agree, (case, start))
    }

    /// Guide's reply by all rounds.
    pub fn guide(&mut self, case: &[u8], start: &[u8], number: u64) -> GuideReply {
        self.guide_after(case, start, number, ALL_ROUNDS)
    }

    /// Guide's reply after at most so many rounds.
    pub fn guide_after(
        &mut self,
        case: &[u8],
        start: &[u8],
        number: u64,
        rounds: u64,
    ) -> GuideReply {
        let second = self.lent.guide_after(case, start, number, rounds);
        let mut moves = self.words(self.lent.moves.len());
        let mut entries = self.words(self.lent.entries.len());
        let mut cells = self.halves(self.lent.cells.len());
        let mut trace = self.halves(self.lent.trace.len());
        let proved = proved::guide(
            case,
            start,
            number,
            rounds,
            moves.lent(),
            entries.lent(),
            cells.lent(),
            trace.lent(),
        );
        let agree = [
            ("tables", self.tables_agree(&moves, &entries)),
            ("cells", cells.holds(&self.lent.cells)),
            ("trace", trace.holds(&self.lent.trace)),
        ];
        let service = || format!("guide {number} after {rounds} rounds");
        self.answer(service, second, proved, &agree, (case, start))
    }

    pub fn replay(&mut self, case: &[u8], start: &[u8], number: u64, trace: &[u8]) -> ReplayReply {
        let second = self.lent.replay(case, start, number, trace);
        let mut cells = self.bytes(self.lent.replay_cells.len());
        let proved = proved::replay(case, start, number, trace, cells.lent());
        let agree = [("cells", cells.holds(&self.lent.replay_cells))];
        let service = || format!("replay {number} of {}", hex(trace));
        self.answer(service, second, proved, &agree, (case, start))
    }

    pub fn brackets(&mut self, case: &[u8], start: &[u8], number: u64) -> (u64, usize) {
        let second = self.lent.brackets(case, start, number);
        let mut text = self.bytes(self.lent.text.len());
        let proved = proved::brackets(case, start, number, text.lent());
        let agree = [("text", text.holds(&self.lent.text))];
        let service = || format!("brackets {number}");
        self.answer(service, second, proved, &agree, (case, start))
    }

    fn tables_agree(&self, moves: &Rubbish<u64>, entries: &Rubbish<u64>) -> bool {
        moves.holds(&self.lent.moves) && entries.holds(&self.lent.entries)
    }

    /// The answer, if both gave it and all memory agrees.
    fn answer<T: PartialEq + Debug>(
        &self,
        service: impl FnOnce() -> String,
        second: T,
        proved: T,
        agree: &[(&str, bool)],
        (case, start): (&[u8], &[u8]),
    ) -> T {
        let others: Vec<&str> = agree
            .iter()
            .filter(|part| !part.1)
            .map(|part| part.0)
            .collect();
        if second != proved || !others.is_empty() {
            let Lent {
                moves,
                entries,
                answers,
                cells,
                trace,
                replay_cells,
                text,
            } = &self.lent;
            let lengths = [
                moves.len(),
                entries.len(),
                answers.len(),
                cells.len(),
                trace.len(),
                replay_cells.len(),
                text.len(),
            ];
            panic!(
                "{}: second {second:?}, proved {proved:?}, memory that differs {others:?}\n\
                 lengths of moves, entries, answers, cells, trace, cells of replay, text: {lengths:?}\n\
                 case {}\nstart {}",
                service(),
                hex(case),
                hex(start),
            );
        }
        second
    }
}
