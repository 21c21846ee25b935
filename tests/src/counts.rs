//! How many moves an entry has (document 02, §7): what one of the two implementations
//! says of it beside a walk through the moves that it writes, entry tables of every
//! length, and what the counts of a table hang on.

use self::Kind::*;
use crate::callers::{Answers, Services};
use crate::encode::encode_case;
use crate::file::Case;
use crate::generate::Pair;
use crate::kinds::of_these;
use crate::lent::Lent;
use crate::services::{GuideReply, LISTING_ENTRIES, MOVE_WORDS};
use crate::table::Table;

// ---- by walking

/// The order-1 states of moves written as words.
fn states(moves: &[u64]) -> impl Iterator<Item = u64> {
    moves.chunks(MOVE_WORDS).map(|words| words[0])
}

/// "The count by walking" for each entry; their states come after `inner` inner ones.
fn walked(moves: &[u64], inner: u64, entries: usize) -> Vec<u64> {
    let count = |one: u64| states(moves).filter(|&state| state == one).count() as u64;
    (inner..).take(entries).map(count).collect()
}

/// The third words of the entries of a case's saturated table, if it fits. They are
/// the counts by walking, their sum is the number of moves that are not of inner
/// states, and all words after the table are zero.
fn counts(services: Services, case: &Case, name: &str) -> Option<Vec<u64>> {
    let mut lent = Lent::as_listing();
    lent.fill();
    let file = encode_case(case);
    let (code, moves, entries) = (services.saturate)(&file, &mut lent.moves, &mut lent.entries);
    if code == 9 {
        assert!(lent.tables_are_zero(), "{name}");
        return None;
    }
    assert_eq!(code, 0, "{name}");
    let entries = entries as usize;
    let (moves, after) = lent.moves.split_at(MOVE_WORDS * moves as usize);
    let after = after.iter().chain(&lent.entries[3 * entries..]);
    assert!(after.copied().all(|word| word == 0), "{name}");
    let counts = lent.counts(entries);
    let inner = u64::from(case.inner_one);
    assert_eq!(counts, walked(moves, inner, entries), "{name}");
    let of_entries = states(moves).filter(|&state| state >= inner).count();
    assert_eq!(counts.iter().sum::<u64>(), of_entries as u64, "{name}");
    Some(counts)
}

/// Counts and the listing's second line on a pair; and the counts "after round 0", in
/// the table of the case without its rules, which are those of the file's records.
pub fn check_pair(services: Services, pair: &Pair, name: &str) {
    let counts_of = |case: &Case| counts(services, case, name);
    let printed = (services.listing)(&pair.case_file, &pair.start_file);
    match counts_of(&pair.case) {
        Some(counts) => {
            let lines: Vec<&str> = printed.lines().collect();
            let most = counts.iter().max().unwrap_or(&0);
            assert_eq!(lines[1], format!("most {most}"), "{name}");
            assert_eq!(lines.len(), 2 + pair.start.starts.len(), "{name}");
        }
        None => assert_eq!(printed, "refused 9\n", "{name}"),
    }
    let own = |one: u8| pair.case.moves.iter().filter(|m| m.state == one).count() as u64;
    let own = pair.case.numbered_entries().map(|(one, _)| own(one));
    let mut round_zero = pair.case.clone();
    round_zero.rules.clear();
    assert_eq!(counts_of(&round_zero), Some(own.collect()), "{name}");
}

// ---- lent entry tables

/// Entry tables of every length up to five words more than the saturated table needs:
/// saturate, judge and guide refuse with 9 if the whole records of three words are
/// fewer than its entries, and otherwise answer as with 64 entries lent. Answers
/// nothing if the table is large.
pub fn check_lengths(services: Services, files: (&[u8], &[u8]), name: &str) -> Option<()> {
    let with = |words: usize| {
        let mut lent = Lent::new(40, 0, 64, 20);
        lent.entries.resize(words, 0);
        services.answers(&lent, files, 0, &[])
    };
    let whole = with(3 * LISTING_ENTRIES);
    let (code, _, entries) = whole.saturate.0;
    if code != 0 {
        return None;
    }
    for words in 0..=3 * entries as usize + 5 {
        let answers = with(words);
        let right = if words / 3 < entries as usize {
            are_too_large(&answers)
        } else {
            are_as(&answers, &whole, words)
        };
        let short = answers.in_short();
        assert!(right, "{name} with {words} words for entries: {short}");
    }
    Some(())
}

/// Whether saturate, judge and guide refuse with 9 and leave zeros.
fn are_too_large(answers: &Answers) -> bool {
    let Answers {
        saturate,
        judge,
        guide,
        ..
    } = answers;
    saturate.0 == (9, 0, 0)
        && saturate.1.tables_are_zero()
        && judge.0 == (9, 0)
        && judge.1.tables_are_zero()
        && judge.1.answers_are_zero()
        && guide.0 == GuideReply::Refused(9)
        && guide.1.tables_are_zero()
        && guide.1.trace_is_zero_from(0)
}

/// Whether saturate, judge and guide answer as with more words for entries.
fn are_as(answers: &Answers, whole: &Answers, words: usize) -> bool {
    let (own, other) = (&answers.saturate, &whole.saturate);
    let saturated = own.0 == other.0
        && own.1.moves == other.1.moves
        && own.1.entries == other.1.entries[..words];
    let (own, other) = (&answers.judge, &whole.judge);
    let judged = own.0 == other.0 && own.1.answers == other.1.answers && own.1.tables_are_zero();
    let (own, other) = (&answers.guide, &whole.guide);
    let guided = own.0 == other.0 && own.1.trace == other.1.trace && own.1.tables_are_zero();
    saturated && judged && guided
}

// ---- what counts hang on

/// What the counts of a saturated table have to do with; a table may be of several
/// kinds.
#[derive(Clone, Copy, Debug, PartialEq, Eq, PartialOrd, Ord)]
pub enum Kind {
    /// No entry and no move; moves and no entry; entries, and moves of inner states
    /// only; entries and no move.
    Nothing,
    NoEntry,
    InnerOnly,
    NoMove,
    /// An entry of the file without moves; with those of the file alone; with more
    /// by rounds; with those by rounds alone.
    OwnBare,
    OwnKept,
    OwnGains,
    OwnByRounds,
    /// An entry found by rounds with one move; with several of the same round; with
    /// moves of several rounds.
    FoundOne,
    FoundSeveral,
    FoundLater,
    /// An inner state has more moves than each entry, some of which have moves.
    InnerMore,
    /// The largest of several counts is that of the first entry alone, of the last
    /// alone, of one between them alone, or of several.
    MostFirst,
    MostLast,
    MostBetween,
    MostSeveral,
    /// It has two digits.
    MostTwoDigits,
}

/// How many kinds there are.
pub const KINDS: usize = 17;

/// The kinds of a case's saturated table.
pub fn kinds(case: &Case, table: &Table) -> Vec<Kind> {
    let mut kinds = kinds_of_table(case, table);
    for number in 0..table.entries().len() {
        kinds.extend(kind_of_entry(case, table, number));
    }
    kinds.extend(kind_of_most(&table.move_counts()));
    kinds.sort();
    kinds.dedup();
    kinds
}

fn kinds_of_table(case: &Case, table: &Table) -> Vec<Kind> {
    let (no_entry, no_move) = (table.entries().is_empty(), table.moves().is_empty());
    let counts = table.move_counts();
    let most = counts.iter().copied().max().unwrap_or(0);
    let of_inner = |one: u8| table.moves().iter().filter(|m| m.state == one).count();
    let most_inner = (0..case.inner_one).map(of_inner).max().unwrap_or(0);
    of_these([
        (Nothing, no_entry && no_move),
        (NoEntry, no_entry && !no_move),
        (InnerOnly, !no_entry && !no_move && most == 0),
        (NoMove, !no_entry && no_move),
        (InnerMore, 0 < most && most < most_inner),
        (MostTwoDigits, most >= 10),
    ])
}

/// What the moves of an entry come from, if it is among the kinds.
fn kind_of_entry(case: &Case, table: &Table, number: usize) -> Option<Kind> {
    let state = usize::from(case.inner_one) + number;
    let moves = table.moves().iter().enumerate();
    let of_entry = moves.filter(|(_, m)| usize::from(m.state) == state);
    let rounds: Vec<usize> = of_entry.map(|(at, _)| table.round_of_move(at)).collect();
    let of_file = number < case.entries.len();
    // Moves stand in the order of their rounds.
    match (of_file, &rounds[..]) {
        (true, []) => Some(OwnBare),
        (true, [.., 0]) => Some(OwnKept),
        (true, [0, ..]) => Some(OwnGains),
        (true, _) => Some(OwnByRounds),
        (false, []) => None,
        (false, [_]) => Some(FoundOne),
        (false, [first, .., last]) if first == last => Some(FoundSeveral),
        (false, _) => Some(FoundLater),
    }
}

/// Where the largest of several counts stands.
fn kind_of_most(counts: &[usize]) -> Option<Kind> {
    let most = *counts.iter().max()?;
    if counts.len() < 2 || most == 0 {
        return None;
    }
    let first = counts.iter().position(|&count| count == most)?;
    let last = counts.iter().rposition(|&count| count == most)?;
    Some(match (first, last) {
        _ if first != last => MostSeveral,
        (0, _) => MostFirst,
        _ if last == counts.len() - 1 => MostLast,
        _ => MostBetween,
    })
}
