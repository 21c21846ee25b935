//! The three services and the listing (document 01, "Three services and their
//! halts"; document 02, §1, §7 and §8).

use crate::automaton::accepting;
use crate::file::{Case, Refusal, StartFile, decode_case};
use crate::guide::Walk;
use crate::saturation::{ALL_ROUNDS, Stopped, saturate as saturated_table, stop_after};
use crate::sets::has;
use crate::start_file::decode_start;
use crate::table::{Size, Table, View};

/// Words of a move and of an entry in lent tables.
pub const MOVE_WORDS: usize = 5;
pub const ENTRY_WORDS: usize = 3;

/// Sixteen-bit words of a lent cell: four fields and a choice for each of 64
/// states.
pub const CELL_WORDS: usize = 68;

/// "The lent cells, of which at most 4,096 count."
pub const MOST_CELLS: usize = 4096;

/// What the printing program lends.
pub const LISTING_MOVES: usize = 1024;
pub const LISTING_ENTRIES: usize = 64;
pub const LISTING_CELLS: usize = 512;
pub const LISTING_TRACE: usize = 1024;
pub const LISTING_SIZE: Size = Size {
    moves: LISTING_MOVES,
    entries: LISTING_ENTRIES,
};

/// What judge says of a start: "yes, no or open" (document 02, §8).
#[derive(Clone, Copy, Debug, PartialEq, Eq)]
pub enum Mark {
    /// "Accepted after at most n rounds", and first by the table of this round.
    Yes { round: usize },
    /// "Not accepted and nothing left to add."
    No,
    /// "Not accepted while round n + 1 would add a move."
    Open,
}

/// "Open (65535)."
pub const OPEN_WORD: u16 = 65535;

impl Mark {
    /// Judge's word: "0 for no, otherwise that round plus 1" (document 02, §1).
    fn word(self) -> u16 {
        match self {
            Mark::Yes { round } => round as u16 + 1,
            Mark::No => 0,
            Mark::Open => OPEN_WORD,
        }
    }

    /// The mark that a word of judge stands for.
    pub fn of_word(word: u16) -> Mark {
        match word {
            0 => Mark::No,
            OPEN_WORD => Mark::Open,
            word => Mark::Yes {
                round: usize::from(word) - 1,
            },
        }
    }
}

/// The answer of the guide.
#[derive(Clone, Copy, Debug, PartialEq, Eq)]
pub enum GuideReply {
    Refused(Refusal),
    NoRun,
    Open,
    Arrived { steps: u64, cells: u64 },
    TraceFull { steps: u64, cells: u64 },
    CellsShort { steps: u64, cells: u64 },
}

impl GuideReply {
    /// The steps that the reply counts, 0 for a refusal, for no run and for open.
    pub fn steps(self) -> usize {
        match self {
            GuideReply::Refused(_) | GuideReply::NoRun | GuideReply::Open => 0,
            GuideReply::Arrived { steps, .. }
            | GuideReply::TraceFull { steps, .. }
            | GuideReply::CellsShort { steps, .. } => steps as usize,
        }
    }
}

/// "Only whole records count."
fn lent_size(moves: &[u64], entries: &[u64]) -> Size {
    Size {
        moves: moves.len() / MOVE_WORDS,
        entries: entries.len() / ENTRY_WORDS,
    }
}

/// Fills the lent tables with the saturated table of the case. Answers 0 with
/// the numbers of moves and entries, or the refusal with 0 and 0.
pub fn saturate(case: &[u8], moves: &mut [u64], entries: &mut [u64]) -> (u64, u64, u64) {
    moves.fill(0);
    entries.fill(0);
    let lent = lent_size(moves, entries);
    let table = decode_case(case).and_then(|case| saturated_table(&case, lent).ok_or(9));
    match table {
        Ok(table) => {
            write_moves(&table, moves);
            write_entries(&table, entries);
            let numbers = (table.moves().len(), table.entries().len());
            (0, numbers.0 as u64, numbers.1 as u64)
        }
        Err(refusal) => (refusal, 0, 0),
    }
}

/// "Five words of 64 bits each, the fields in the order of body 4."
fn write_moves(table: &Table, lent: &mut [u64]) {
    for (m, words) in table.moves().iter().zip(lent.chunks_mut(MOVE_WORDS)) {
        let fields = [m.state, m.symbol, m.order].map(u64::from);
        words[..3].copy_from_slice(&fields);
        words[3] = m.note;
        words[4] = m.rest;
    }
}

/// "An entry table (p, S, a word each)", with "the count as a third word of the
/// entry" (document 02, §7).
fn write_entries(table: &Table, lent: &mut [u64]) {
    let entries = table.entries().iter().zip(table.move_counts());
    for ((entry, count), words) in entries.zip(lent.chunks_mut(ENTRY_WORDS)) {
        words[0] = entry.control.into();
        words[1] = entry.set;
        words[2] = count as u64;
    }
}

/// "Judge takes a number of rounds n and marks each start yes, no or open", 16 bits
/// per start. Answers 0 with "the rounds that added something", or the refusal
/// with 0.
pub fn judge(
    case: &[u8],
    start: &[u8],
    rounds: u64,
    moves: &mut [u64],
    entries: &mut [u64],
    answers: &mut [u16],
) -> (u64, u64) {
    moves.fill(0);
    entries.fill(0);
    answers.fill(0);
    let lent = lent_size(moves, entries);
    match judged(case, start, rounds, lent, answers.len()) {
        Ok((marks, count)) => {
            for (answer, mark) in answers.iter_mut().zip(marks) {
                *answer = mark.word();
            }
            (0, count as u64)
        }
        Err(refusal) => (refusal, 0),
    }
}

/// The mark of each start and the rounds that added something, or the refusal: 1 to
/// 6 and 12, as the files are read, then 8, which counts answer words, then 9, which
/// "concerns the rounds run".
fn judged(
    case: &[u8],
    start: &[u8],
    rounds: u64,
    lent: Size,
    answers: usize,
) -> Result<(Vec<Mark>, usize), Refusal> {
    let case = decode_case(case)?;
    let file = decode_start(start, &case)?;
    if answers < file.starts.len() {
        return Err(8);
    }
    let stopped = stop_after(&case, lent, rounds).ok_or(9u64)?;
    Ok((marks(&stopped, &file), stopped.table.rounds()))
}

/// The mark of each start by the rounds run.
pub fn marks(stopped: &Stopped, file: &StartFile) -> Vec<Mark> {
    let mark = |round: Option<usize>| match round {
        Some(round) => Mark::Yes { round },
        None if stopped.goes_on => Mark::Open,
        None => Mark::No,
    };
    won_by(&stopped.table, file).into_iter().map(mark).collect()
}

/// For each start the round in which it was won, if it was.
type Won = Vec<Option<usize>>;

/// "The least round whose table already accepts it": the tables of all rounds run
/// are asked, each by itself.
fn won_by(table: &Table, file: &StartFile) -> Won {
    let marks: Vec<Vec<bool>> = (0..=table.rounds())
        .map(|round| marks_by(table.after_round(round), file))
        .collect();
    (0..file.starts.len())
        .map(|number| marks.iter().position(|marks| marks[number]))
        .collect()
}

/// For each start of the file whether the table accepts it from its control.
fn marks_by(view: View, file: &StartFile) -> Vec<bool> {
    let accepting = accepting(view, &file.cells);
    let root = |at: u16| accepting[usize::from(at)].states;
    let starts = file.starts.iter();
    starts
        .map(|start| has(root(start.root), start.control))
        .collect()
}

/// Writes the rule numbers of the guided run of one start into the trace. "Guide
/// takes n too and works on the table of those rounds alone."
#[expect(clippy::too_many_arguments, reason = "those of the call from C")]
pub fn guide(
    case: &[u8],
    start: &[u8],
    number: u64,
    rounds: u64,
    moves: &mut [u64],
    entries: &mut [u64],
    cells: &mut [u16],
    trace: &mut [u16],
) -> GuideReply {
    moves.fill(0);
    entries.fill(0);
    cells.fill(0);
    trace.fill(0);
    let lent = lent_size(moves, entries);
    let lent_cells = cells.len() / CELL_WORDS;
    match prepare(case, start, number, rounds, lent) {
        Ok((case, file, stopped)) => walk_start(&case, &stopped, &file, number, lent_cells, trace),
        Err(refusal) => GuideReply::Refused(refusal),
    }
}

/// What the guide works on, or the refusal: 1 to 7 and 12, then "the same 9".
fn prepare(
    case: &[u8],
    start: &[u8],
    number: u64,
    rounds: u64,
    lent: Size,
) -> Result<(Case, StartFile, Stopped), Refusal> {
    let (case, file) = with_start(case, start, number)?;
    let stopped = stop_after(&case, lent, rounds).ok_or(9u64)?;
    Ok((case, file, stopped))
}

/// The files of a call that names a start, or the refusal 1 to 7 or 12.
pub fn with_start(case: &[u8], start: &[u8], number: u64) -> Result<(Case, StartFile), Refusal> {
    let case = decode_case(case)?;
    let file = decode_start(start, &case)?;
    if number >= file.starts.len() as u64 {
        return Err(7);
    }
    Ok((case, file))
}

/// No run or open, then cells short for the start file, then the walk. "An open
/// start it answers with open, tested where no run is, with no step and no cell."
pub fn walk_start(
    case: &Case,
    stopped: &Stopped,
    file: &StartFile,
    number: u64,
    lent_cells: usize,
    trace: &mut [u16],
) -> GuideReply {
    let number = number as usize;
    let accepted = marks_by(stopped.table.whole(), file)[number];
    match (accepted, stopped.goes_on) {
        (true, _) => {}
        (false, true) => return GuideReply::Open,
        (false, false) => return GuideReply::NoRun,
    }
    let lent_cells = lent_cells.min(MOST_CELLS);
    if lent_cells < file.cells.len() {
        return GuideReply::CellsShort { steps: 0, cells: 0 };
    }
    let walk = Walk::new(case, &stopped.table, file, &file.starts[number]);
    follow(walk, lent_cells, trace)
}

/// "A walk is tested for arrival first, then trace, then cells."
fn follow(mut walk: Walk, lent_cells: usize, trace: &mut [u16]) -> GuideReply {
    let mut taken = 0;
    loop {
        let steps = taken as u64;
        let cells = walk.cells_used() as u64;
        if walk.has_arrived() {
            return GuideReply::Arrived { steps, cells };
        }
        if taken == trace.len() {
            return GuideReply::TraceFull { steps, cells };
        }
        if walk.cells_used() + walk.next_cells() > lent_cells {
            return GuideReply::CellsShort { steps, cells };
        }
        trace[taken] = walk.next_rule() as u16;
        walk.step();
        taken += 1;
    }
}

/// What the printing program prints. Every line ends with a line end.
pub fn listing(case: &[u8], start: &[u8]) -> String {
    match listing_lines(case, start) {
        Ok(text) => text,
        Err(refusal) => format!("refused {refusal}\n"),
    }
}

/// The lines of a listing that is no refusal. It lends an answer word for each
/// start, so the refusals are those of judge without 8. "The listing runs all
/// rounds" (document 02, §8), so no start is open.
fn listing_lines(case: &[u8], start: &[u8]) -> Result<String, Refusal> {
    let case = decode_case(case)?;
    let file = decode_start(start, &case)?;
    let stopped = stop_after(&case, LISTING_SIZE, ALL_ROUNDS).ok_or(9u64)?;
    let table = &stopped.table;
    let (moves, entries) = (table.moves().len(), table.entries().len());
    // "`most` and the largest such count, 0 without entries" (document 02, §7).
    let most = table.move_counts().into_iter().max().unwrap_or(0);
    let mut text = format!("moves {moves} entries {entries}\nmost {most}\n");
    for (number, round) in (0..).zip(won_by(table, &file)) {
        let mut trace = [0; LISTING_TRACE];
        let reply = walk_start(&case, &stopped, &file, number, LISTING_CELLS, &mut trace);
        text += &format!("start {number} {}\n", listing_answer(round, reply));
    }
    Ok(text)
}

/// What the listing prints for a start after its number: "the round directly
/// before the steps", then the cells; before them all "stands `trace` or `cells`
/// if the walk halted so". Judge's round and guide's reply agree on yes and no.
pub fn listing_answer(round: Option<usize>, reply: GuideReply) -> String {
    use GuideReply::{Arrived, CellsShort, NoRun, TraceFull};
    match (round, reply) {
        (None, NoRun) => "no".to_string(),
        (Some(round), Arrived { steps, cells }) => format!("yes {round} {steps} {cells}"),
        (Some(round), TraceFull { steps, cells }) => format!("yes trace {round} {steps} {cells}"),
        (Some(round), CellsShort { steps, cells }) => format!("yes cells {round} {steps} {cells}"),
        _ => panic!("won in round {round:?}, guided to {reply:?}"),
    }
}
