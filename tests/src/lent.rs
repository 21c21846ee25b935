//! Memory lent to the services in tests. It holds words that are not zero
//! before each call, so that a word left as it was is noticed.

use crate::brackets::brackets;
use crate::file::Refusal;
use crate::replay::{REPLAY_CELL_BYTES, ReplayReply, replay};
use crate::saturation::ALL_ROUNDS;
use crate::services::{
    CELL_WORDS, ENTRY_WORDS, GuideReply, LISTING_CELLS, LISTING_ENTRIES, LISTING_MOVES,
    LISTING_TRACE, MOVE_WORDS, Mark, guide, judge, saturate,
};
use crate::traces::recorded;

/// Bytes for a text: enough for many starts of generated files, too few for others.
const TEXT_BYTES: usize = 100;

/// The lent slices.
#[derive(Clone, Debug, PartialEq, Eq)]
pub struct Lent {
    pub moves: Vec<u64>,
    pub entries: Vec<u64>,
    pub answers: Vec<u16>,
    pub cells: Vec<u16>,
    pub trace: Vec<u16>,
    pub replay_cells: Vec<u8>,
    pub text: Vec<u8>,
}

impl Lent {
    /// As much as the printing program lends, and an answer for each of 64
    /// starts.
    pub fn as_listing() -> Lent {
        Lent::new(LISTING_MOVES, LISTING_ENTRIES, LISTING_CELLS, LISTING_TRACE)
    }

    /// The given numbers of moves, entries, cells and trace words; as many cells
    /// for replay as for guide.
    pub fn new(moves: usize, entries: usize, cells: usize, trace: usize) -> Lent {
        Lent {
            moves: vec![0; moves * MOVE_WORDS],
            entries: vec![0; entries * ENTRY_WORDS],
            answers: vec![0; 64],
            cells: vec![0; cells * CELL_WORDS],
            trace: vec![0; trace],
            replay_cells: vec![0; cells * REPLAY_CELL_BYTES],
            text: vec![0; TEXT_BYTES],
        }
    }

    /// Puts words and bytes other than zero everywhere.
    pub fn fill(&mut self) {
        self.moves.fill(u64::MAX);
        self.entries.fill(u64::MAX);
        self.answers.fill(u16::MAX);
        self.cells.fill(u16::MAX);
        self.trace.fill(u16::MAX);
        self.replay_cells.fill(u8::MAX);
        self.text.fill(u8::MAX);
    }

    pub fn saturate(&mut self, case: &[u8]) -> (u64, u64, u64) {
        self.fill();
        saturate(case, &mut self.moves, &mut self.entries)
    }

    /// Judge's reply by all rounds.
    pub fn judge(&mut self, case: &[u8], start: &[u8]) -> u64 {
        self.judge_after(case, start, ALL_ROUNDS).0
    }

    /// Judge's reply after at most so many rounds, and the rounds that added something.
    pub fn judge_after(&mut self, case: &[u8], start: &[u8], rounds: u64) -> (u64, u64) {
        self.fill();
        judge(
            case,
            start,
            rounds,
            &mut self.moves,
            &mut self.entries,
            &mut self.answers,
        )
    }

    /// Guide's reply by all rounds.
    pub fn guide(&mut self, case: &[u8], start: &[u8], number: u64) -> GuideReply {
        self.guide_after(case, start, number, ALL_ROUNDS)
    }

    /// Guide's reply after at most so many rounds.
    pub fn guide_after(
        &mut self,
        case: &[u8],
        start: &[u8],
        number: u64,
        rounds: u64,
    ) -> GuideReply {
        self.fill();
        guide(
            case,
            start,
            number,
            rounds,
            &mut self.moves,
            &mut self.entries,
            &mut self.cells,
            &mut self.trace,
        )
    }

    pub fn replay(&mut self, case: &[u8], start: &[u8], number: u64, trace: &[u8]) -> ReplayReply {
        self.fill();
        replay(case, start, number, trace, &mut self.replay_cells)
    }

    pub fn brackets(&mut self, case: &[u8], start: &[u8], number: u64) -> (u64, usize) {
        self.fill();
        brackets(case, start, number, &mut self.text)
    }

    /// The marks that judge's words of the first starts stand for; the words after
    /// them must be zero.
    pub fn marks(&self, starts: usize) -> Vec<Mark> {
        let (words, after) = self.answers.split_at(starts);
        assert!(after.iter().all(|&word| word == 0));
        words.iter().copied().map(Mark::of_word).collect()
    }

    /// The rounds that those words name after all rounds, where no start is open.
    pub fn rounds(&self, starts: usize) -> Vec<Option<usize>> {
        let round = |mark: Mark| match mark {
            Mark::Yes { round } => Some(round),
            Mark::No => None,
            Mark::Open => panic!("a start is open after all rounds"),
        };
        self.marks(starts).into_iter().map(round).collect()
    }

    /// The numbers of moves of the first entries, which are their third words.
    pub fn counts(&self, entries: usize) -> Vec<u64> {
        let records = self.entries.chunks_exact(ENTRY_WORDS);
        records.take(entries).map(|words| words[2]).collect()
    }

    /// Whether the lent tables are zero.
    pub fn tables_are_zero(&self) -> bool {
        let words = self.moves.iter().chain(&self.entries);
        words.copied().all(|word| word == 0)
    }

    /// Whether the lent answers are zero.
    pub fn answers_are_zero(&self) -> bool {
        self.answers.iter().all(|&answer| answer == 0)
    }

    /// Whether the cells lent to replay are zero.
    pub fn replay_cells_are_zero(&self) -> bool {
        self.replay_cells.iter().all(|&byte| byte == 0)
    }

    /// Whether the cells lent to guide are zero.
    pub fn cells_are_zero(&self) -> bool {
        self.cells.iter().all(|&word| word == 0)
    }

    /// Whether the text is zero from byte `from` on.
    pub fn text_is_zero_from(&self, from: usize) -> bool {
        self.text[from..].iter().all(|&byte| byte == 0)
    }

    /// Whether the trace is zero from word `from` on.
    pub fn trace_is_zero_from(&self, from: usize) -> bool {
        self.trace[from..].iter().all(|&word| word == 0)
    }
}

/// Judge's words for the starts; those after them and the tables must be zero.
pub fn words(case: &[u8], start: &[u8], starts: usize) -> Vec<u16> {
    let mut lent = Lent::as_listing();
    assert_eq!(lent.judge(case, start), 0);
    assert!(lent.tables_are_zero());
    assert!(lent.answers[starts..].iter().all(|&answer| answer == 0));
    lent.answers[..starts].to_vec()
}

/// Replay's answer to rule numbers with so many cells, which must be zero after.
pub fn replayed(files: (&[u8], &[u8]), number: u64, trace: &[u16], cells: usize) -> ReplayReply {
    let bytes = cells * REPLAY_CELL_BYTES;
    replayed_bytes(files, number, &recorded(trace), bytes)
}

/// Replay's answer to the bytes of a trace with so many bytes of cells.
pub fn replayed_bytes(
    (case, start): (&[u8], &[u8]),
    number: u64,
    trace: &[u8],
    bytes: usize,
) -> ReplayReply {
    let mut lent = Lent::new(0, 0, 0, 0);
    lent.replay_cells.resize(bytes, 0);
    let reply = lent.replay(case, start, number, trace);
    assert!(lent.replay_cells_are_zero(), "the cells lent to replay");
    reply
}

/// The text of a start with so many bytes lent; those behind it must be zero, and
/// all of them in a refusal.
pub fn printed(
    (case, start): (&[u8], &[u8]),
    number: u64,
    bytes: usize,
) -> Result<String, Refusal> {
    let mut lent = Lent::new(0, 0, 0, 0);
    lent.text.resize(bytes, 0);
    let (refusal, length) = lent.brackets(case, start, number);
    assert!(lent.text_is_zero_from(length), "bytes after the text");
    if refusal != 0 {
        assert_eq!(length, 0, "the length of refusal {refusal}");
        return Err(refusal);
    }
    lent.text.truncate(length);
    Ok(String::from_utf8(lent.text).expect("text"))
}
