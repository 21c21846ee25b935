//! The proved library against the second implementation on generated files:
//! answers and every lent word; traces replayed on nested stacks; marks against
//! a bounded search; memory of every small length.

use second::compare::Both;
use second::generate::{Pair, pair};
use second::lent::Lent;
use second::pairs::{Searched, gathered_pairs, late_pairs, pairs, sparse_pairs};
use second::proved;
use second::random::{Random, seeds};
use second::search::Bounds;
use second::services::GuideReply::{self, Arrived, CellsShort, NoRun, Refused, TraceFull};
use second::services::{
    CELL_WORDS, ENTRY_WORDS, LISTING_ENTRIES, LISTING_MOVES, MOVE_WORDS, listing,
};
use second::shapes::WIDE;

/// Memory in which nearly every walk of a generated pair arrives.
fn ample() -> Both {
    Both::new(Lent::new(LISTING_MOVES, LISTING_ENTRIES, 1024, 2048))
}

/// The rounds in which the pair's starts were won, if judge does not refuse.
fn rounds(both: &mut Both, pair: &Pair) -> Option<Vec<Option<usize>>> {
    let code = both.judge(&pair.case_file, &pair.start_file);
    (code == 0).then(|| both.lent.rounds(pair.start.starts.len()))
}

/// What was met on pairs.
#[derive(Debug, Default)]
struct Met {
    /// Steps of runs by code.
    taken: [usize; 9],
    too_large: usize,
    yes: usize,
    no: usize,
    printed: usize,
}

impl Met {
    /// Saturate, judge, guide and brackets on a pair. What the guide answers is
    /// checked on nested stacks.
    fn compare(&mut self, both: &mut Both, pair: &Pair, name: &str) {
        both.saturate(&pair.case_file);
        for number in 0..=pair.start.starts.len() {
            let (code, _) = both.brackets(&pair.case_file, &pair.start_file, number as u64);
            self.printed += usize::from(code == 0);
        }
        let Some(rounds) = rounds(both, pair) else {
            assert_eq!(both.guide(&pair.case_file, &pair.start_file, 0), Refused(9));
            self.too_large += 1;
            return;
        };
        for (number, round) in rounds.iter().enumerate() {
            let reply = both.guide(&pair.case_file, &pair.start_file, number as u64);
            assert_eq!(reply != NoRun, round.is_some(), "{name} start {number}");
            if round.is_none() {
                self.no += 1;
                continue;
            }
            self.yes += 1;
            pair.check_run(number, reply, &both.lent.trace, name);
            for &rule in &both.lent.trace[..reply.steps()] {
                self.taken[usize::from(pair.case.rules[usize::from(rule)].code)] += 1;
            }
        }
        let after = rounds.len() as u64;
        let reply = both.guide(&pair.case_file, &pair.start_file, after);
        assert_eq!(reply, Refused(7), "{name}");
    }
}

/// Each operation and each kind of answer occurs.
#[test]
fn generated_files() {
    let mut both = ample();
    let mut met = Met::default();
    for (name, pair) in pairs(250) {
        met.compare(&mut both, &pair, &name);
    }
    println!("{met:?}");
    assert!(met.taken[1..].iter().all(|&steps| steps >= 20));
    assert!(met.too_large >= 5 && met.no >= 500 && met.printed >= 500);
}

/// Rounds that read sets of several entries.
#[test]
fn gathered_files() {
    let mut both = ample();
    let mut met = Met::default();
    for (name, pair) in gathered_pairs(250) {
        met.compare(&mut both, &pair, &name);
    }
    println!("{met:?}");
    assert!(met.taken[1..5].iter().all(|&steps| steps >= 20));
    assert!(met.yes >= 200 && met.no >= 200);
}

/// The proved listing is the second implementation's.
fn same_listings(pair: &Pair, name: &str) {
    let printed = proved::listing(&pair.case_file, &pair.start_file);
    let second = listing(&pair.case_file, &pair.start_file);
    assert_eq!(printed, second, "{name}");
}

/// Judge and the listing on starts won in many rounds.
#[test]
fn late_starts() {
    let mut both = ample();
    for (name, pair) in late_pairs() {
        both.judge(&pair.case_file, &pair.start_file);
        same_listings(&pair, &name);
    }
}

/// Entries without moves, moves of inner states only, and no entries.
#[test]
fn sparse_files() {
    let mut both = ample();
    let mut met = Met::default();
    for (name, pair) in sparse_pairs(500) {
        met.compare(&mut both, &pair, &name);
        same_listings(&pair, &name);
    }
    println!("{met:?}");
    assert!(met.yes >= 100 && met.no >= 500);
}

/// Files near the limits, from a few of their starts.
#[test]
fn wide_files() {
    let mut both = ample();
    let mut walks = 0;
    for seed in seeds(80) {
        let pair = pair(seed, &WIDE);
        let name = format!("wide {seed}");
        both.saturate(&pair.case_file);
        let rounds = rounds(&mut both, &pair).unwrap_or_default();
        for (number, round) in rounds.iter().enumerate().take(8) {
            let reply = both.guide(&pair.case_file, &pair.start_file, number as u64);
            if round.is_some() {
                pair.check_run(number, reply, &both.lent.trace, &name);
                walks += 1;
            }
        }
    }
    println!("{walks} walks");
    assert!(walks >= 50);
}

/// Memory of lengths that have nothing to do with what the files need.
#[test]
fn any_lengths() {
    let mut random = Random::new(7);
    for (_, pair) in pairs(60) {
        for _ in 0..4 {
            let mut lent = Lent::new(0, 0, 0, 0);
            let most_moves = random.pick(&[20, 200, 6000]);
            lent.moves.resize(random.between(0, most_moves), 0);
            lent.entries.resize(random.between(0, 60), 0);
            lent.answers.resize(random.between(0, 6), 0);
            lent.cells.resize(random.between(0, 80 * CELL_WORDS), 0);
            lent.trace.resize(random.between(0, 8), 0);
            lent.replay_cells.resize(random.between(0, 480), 0);
            lent.text.resize(random.between(0, 200), 0);
            every_service(&lent, &pair);
        }
    }
}

/// No start marked no reaches the target within the bounds, and no start marked
/// yes is one whose reachable configurations are all outside the target. Exactly
/// the starts in the target are won in round 0.
#[test]
fn marks_agree_with_the_search() {
    let bounds = Bounds {
        depth: 12,
        size: 60,
        configurations: 300,
    };
    let mut both = ample();
    let mut searched = Searched::default();
    for (name, pair) in pairs(120).chain(gathered_pairs(60)) {
        let Some(rounds) = rounds(&mut both, &pair) else {
            continue;
        };
        searched.check(&name, &pair, &rounds, bounds);
    }
    println!("{searched:?}");
    assert!(searched.reached >= 200 && searched.exhausted >= 200);
    assert!(searched.at_empty_stack >= 50 && searched.at_empty_top >= 50);
}

/// Tables of every length up to a few words more than the saturated table
/// needs, also lengths that are no multiple of a record.
#[test]
fn every_length_of_lent_tables() {
    let mut checked = 0;
    for (_, pair) in pairs(6) {
        let mut whole = ample();
        let (code, moves, entries) = whole.saturate(&pair.case_file);
        if code == 9 || moves > 30 {
            continue;
        }
        let mut lent = Lent::new(LISTING_MOVES, LISTING_ENTRIES, 40, 20);
        for words in 0..=MOVE_WORDS * (moves as usize + 1) + 1 {
            lent.moves.resize(words, 0);
            every_service(&lent, &pair);
        }
        lent.moves.resize(MOVE_WORDS * LISTING_MOVES, 0);
        for words in 0..=ENTRY_WORDS * (entries as usize + 1) + 1 {
            lent.entries.resize(words, 0);
            every_service(&lent, &pair);
        }
        checked += 1;
    }
    println!("{checked} pairs with tables of every length");
    assert!(checked >= 20);
}

/// All services with memory of the given lengths, guide, replay and brackets from
/// the first start.
fn every_service(lent: &Lent, pair: &Pair) {
    let mut both = Both::new(lent.clone());
    both.saturate(&pair.case_file);
    both.judge(&pair.case_file, &pair.start_file);
    both.guide(&pair.case_file, &pair.start_file, 0);
    both.replay(&pair.case_file, &pair.start_file, 0, &[0, 0]);
    both.brackets(&pair.case_file, &pair.start_file, 0);
}

/// Answer words of every number: 8 with fewer than starts.
#[test]
fn every_number_of_answers() {
    let mut both = ample();
    for (name, pair) in pairs(10) {
        let starts = pair.start.starts.len();
        for answers in 0..=starts + 2 {
            both.lent.answers.resize(answers, 0);
            let code = both.judge(&pair.case_file, &pair.start_file);
            assert_eq!(code == 8, answers < starts, "{name} answers {answers}");
        }
    }
}

/// The guide with every small number of cells and trace words, and words of
/// cells that make up no whole cell.
#[test]
fn every_small_number_of_cells_and_trace_words() {
    let mut both = ample();
    let (mut full, mut short, mut arrived) = (0, 0, 0);
    for (name, pair) in pairs(12) {
        for number in 0..pair.start.starts.len() {
            let reply = both.guide(&pair.case_file, &pair.start_file, number as u64);
            let Arrived { steps: 0..=10, .. } = reply else {
                continue;
            };
            let run = both.lent.trace[..reply.steps()].to_vec();
            for c in 0..=pair.cells_after(&run) + 1 {
                for t in 0..=run.len() + 1 {
                    match small_guide(&pair, number, &run, (c, t), &name) {
                        TraceFull { .. } => full += 1,
                        CellsShort { .. } => short += 1,
                        _ => arrived += 1,
                    }
                }
            }
        }
    }
    println!("arrived {arrived}, trace full {full}, cells short {short}");
    assert!(arrived >= 50 && full >= 100 && short >= 100);
}

fn small_guide(
    pair: &Pair,
    number: usize,
    run: &[u16],
    (c, t): (usize, usize),
    name: &str,
) -> GuideReply {
    let mut lent = Lent::new(LISTING_MOVES, LISTING_ENTRIES, c, t);
    let partial = (c + t) % CELL_WORDS;
    lent.cells.resize(c * CELL_WORDS + partial, 0);
    let mut both = Both::new(lent);
    let reply = both.guide(&pair.case_file, &pair.start_file, number as u64);
    let named = format!("{name} start {number} cells {c} trace {t}");
    assert_eq!(reply, pair.expected_reply(run, c, t), "{named}");
    let steps = reply.steps();
    assert_eq!(both.lent.trace[..steps], run[..steps], "{named}");
    reply
}
