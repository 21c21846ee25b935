//! The proved library against the second implementation after numbers of rounds
//! (document 02, §8): generated calls, plain and coded, damaged files, memory of any
//! length, every small number of cells and trace words, the worked models, the larger
//! files. `stop.rs` has the examples worked out by hand.

use std::mem::take;

use second::coded::{also_coded, coded_pairs};
use second::compare::Both;
use second::damage::changed;
use second::damage::{misplaced, values_near};
use second::data::larger_files;
use second::file::decode_case;
use second::generate::Pair;
use second::kinds::Kinds;
use second::lent::Lent;
use second::models::{
    CASE_A, CASE_A_CODED, CASE_B, CASE_B_FINISHED, CASE_C, START_A, START_B, START_C_ONE,
    START_C_TWO,
};
use second::pairs::{early_pairs, pairs};
use second::proved;
use second::random::Random;
use second::replay::ReplayReply::Accepted;
use second::saturation::ALL_ROUNDS;
use second::services::GuideReply::{Arrived, CellsShort, NoRun, Open, Refused, TraceFull};
use second::services::{LISTING_ENTRIES, LISTING_MOVES, Mark};
use second::start_file::decode_start;
use second::stops::{Call, Judged, MANY, SEEDS, Stops, stopped_pairs};
use second::traces::recorded;

/// What was met in calls.
#[derive(Debug, Default)]
struct Met {
    calls: usize,
    refused: usize,
    yes: usize,
    no: usize,
    open: usize,
    /// Walks that arrived after at least a step, and that halted before.
    arrived: usize,
    halted: usize,
}

impl Met {
    /// Judge, and guide from every start and from the number after them. Judge answers as
    /// the rounds of the whole table say, and a run that arrived is accepted by replay.
    fn compare(&mut self, stops: &Stops, call: &Call, name: &str) {
        let (case, start) = (&stops.pair.case_file, &stops.pair.start_file);
        let starts = stops.won.len();
        let mut both = Both::new(call.memory());
        let (code, count) = both.judge_after(case, start, call.rounds);
        let marks = both.lent.marks(starts);
        let judged = Judged { code, count, marks };
        assert_eq!(judged, stops.judged(call), "{name} {call:?}");
        self.calls += 1;
        let after = both.guide_after(case, start, starts as u64, call.rounds);
        assert_eq!(after, Refused(7), "{name} {call:?}");
        if judged.code == 9 {
            let reply = both.guide_after(case, start, 0, call.rounds);
            assert_eq!(reply, Refused(9), "{name} {call:?}");
            self.refused += 1;
            return;
        }
        for (number, mark) in (0..).zip(judged.marks) {
            let name = format!("{name} start {number} {call:?}");
            self.guide(&mut both, stops.pair, (number, call.rounds), mark, &name);
        }
    }

    fn guide(
        &mut self,
        both: &mut Both,
        pair: &Pair,
        (number, rounds): (u64, u64),
        mark: Mark,
        name: &str,
    ) {
        let (case, start) = (&pair.case_file, &pair.start_file);
        let reply = both.guide_after(case, start, number, rounds);
        let unmarked = match mark {
            Mark::Yes { .. } => None,
            Mark::No => Some(NoRun),
            Mark::Open => Some(Open),
        };
        if let Some(expected) = unmarked {
            assert_eq!(reply, expected, "{name}");
            // "Tested where no run is": before the cells lent.
            let cells = take(&mut both.lent.cells);
            let without = both.guide_after(case, start, number, rounds);
            both.lent.cells = cells;
            assert_eq!(without, expected, "{name}");
        } else {
            pair.check_run(number as usize, reply, &both.lent.trace, name);
        }
        self.yes += usize::from(unmarked.is_none());
        self.no += usize::from(reply == NoRun);
        self.open += usize::from(reply == Open);
        if let Arrived { steps, .. } = reply {
            let trace = recorded(&both.lent.trace[..reply.steps()]);
            let replayed = both.replay(case, start, number, &trace);
            assert_eq!(replayed, Accepted, "{name}");
            self.arrived += usize::from(steps > 0);
        }
        self.halted += usize::from(matches!(reply, TraceFull { .. } | CellsShort { .. }));
    }
}

/// All calls of pairs.
fn compare_pairs(pairs: impl Iterator<Item = (String, Pair)>) -> Met {
    let mut met = Met::default();
    for (name, pair) in pairs {
        let stops = Stops::new(&pair);
        for call in stops.calls() {
            met.compare(&stops, &call, &name);
        }
    }
    println!("{met:?}");
    met
}

#[test]
fn generated_calls() {
    let met = compare_pairs(stopped_pairs(SEEDS));
    assert!(met.calls >= 10_000 && met.refused >= 3000);
    assert!(met.yes >= 5000 && met.no >= 5000 && met.open >= 3000);
    assert!(met.arrived >= 3000 && met.halted >= 50);
}

/// The same with records of suppliers' codes.
#[test]
fn coded_calls() {
    let met = compare_pairs(coded_pairs(stopped_pairs(3)));
    assert!(met.calls >= 1000 && met.open >= 300 && met.arrived >= 300);
}

/// Every number of rounds up to 4 and many, every small table, from every number of a
/// start, with every small number of cells.
#[test]
fn models() {
    let models: [(&[u8], &[u8]); 6] = [
        (&CASE_A, &START_A),
        (&CASE_A_CODED, &START_A),
        (&CASE_B, &START_B),
        (&CASE_B_FINISHED, &START_B),
        (&CASE_C, &START_C_ONE),
        (&CASE_C, &START_C_TWO),
    ];
    for (case, start) in models {
        for rounds in (0..5).chain(MANY) {
            for (moves, entries) in (0..5).flat_map(|moves| [2, 3, moves].map(|n| (moves, n))) {
                for cells in 0..11 {
                    let mut both = Both::new(Lent::new(moves, entries, cells, cells % 4));
                    both.judge_after(case, start, rounds);
                    for number in 0..4 {
                        both.guide_after(case, start, number, rounds);
                    }
                }
            }
        }
    }
}

/// Memory of lengths that have nothing to do with what the files need, and any number of
/// rounds.
#[test]
fn any_lengths() {
    let mut random = Random::new(81);
    let mut codes = Kinds::default();
    for (_, pair) in pairs(30).chain(early_pairs(60)) {
        for _ in 0..4 {
            let mut lent = Lent::new(0, 0, 0, 0);
            let most_moves = random.pick(&[20, 200, 6000]);
            lent.moves.resize(random.between(0, most_moves), 0);
            lent.entries.resize(random.between(0, 60), 0);
            lent.answers.resize(random.between(0, 6), 0);
            lent.cells.resize(random.between(0, 5000), 0);
            lent.trace.resize(random.between(0, 8), 0);
            let few = random.between(0, 9) as u64;
            let rounds = random.pick(&[few, few, few, random_word(few)]);
            let mut both = Both::new(lent);
            let (code, _) = both.judge_after(&pair.case_file, &pair.start_file, rounds);
            codes.count([code]);
            let number = random.between(0, 4) as u64;
            both.guide_after(&pair.case_file, &pair.start_file, number, rounds);
        }
    }
    println!("{codes:?}");
    // 0, 8 and 9.
    assert!(codes.rarest(3) >= 20, "{codes:?}");
}

/// A large number with few low bits.
fn random_word(few: u64) -> u64 {
    few << 32 | few << 16 | few
}

/// The guide after few rounds with every small number of cells and trace words, where the
/// walk with all rounds is another.
#[test]
fn every_small_number_of_cells_and_trace_words() {
    let mut both = Both::new(Lent::new(LISTING_MOVES, LISTING_ENTRIES, 128, 64));
    let mut checked = 0;
    for (name, pair) in early_pairs(20) {
        let last = Stops::new(&pair).last();
        for number in 0..pair.start.starts.len() {
            let mut walked = |rounds: u64| {
                let (case, start) = (&pair.case_file, &pair.start_file);
                let reply = both.guide_after(case, start, number as u64, rounds);
                let arrived = matches!(reply, Arrived { .. });
                arrived.then(|| both.lent.trace[..reply.steps()].to_vec())
            };
            let with_all = walked(ALL_ROUNDS);
            for rounds in 0..last {
                let run = walked(rounds).filter(|run| run.len() < 9);
                if let Some(run) = run.filter(|run| with_all.as_ref() != Some(run)) {
                    check_halts(&pair, (number, rounds), &run, &name);
                    checked += 1;
                }
            }
        }
    }
    println!("{checked} walks");
    assert!(checked >= 30);
}

fn check_halts(pair: &Pair, (number, rounds): (usize, u64), run: &[u16], name: &str) {
    for c in 0..=pair.cells_after(run) + 1 {
        for t in 0..=run.len() + 1 {
            let mut both = Both::new(Lent::new(200, 64, c, t));
            let (case, start) = (&pair.case_file, &pair.start_file);
            let reply = both.guide_after(case, start, number as u64, rounds);
            let expected = pair.expected_reply(run, c, t);
            assert_eq!(reply, expected, "{name} start {number} cells {c} trace {t}");
        }
    }
}

/// Copies of a file: cut, rearranged, and with every byte changed.
fn damaged(file: &[u8]) -> Vec<Vec<u8>> {
    let mut copies = misplaced(file);
    for at in 0..file.len() {
        let values = values_near(file[at]).into_iter();
        copies.extend(values.map(|value| changed(file, at, value)));
    }
    copies
}

/// Damaged files after few rounds: the refusals are those of all rounds, but for 9.
#[test]
fn damaged_files() {
    let mut both = Both::new(Lent::new(200, 64, 64, 20));
    let mut refusals = Kinds::default();
    let small = pairs(2).filter(|(_, pair)| pair.case_file.len() + pair.start_file.len() < 400);
    for pair in also_coded(small.map(|(_, pair)| pair)) {
        let (case, start) = (&pair.case_file, &pair.start_file);
        let cases = damaged(case).into_iter().map(|case| (case, start.clone()));
        let starts = damaged(start)
            .into_iter()
            .map(|start| (case.clone(), start));
        for ((case, start), rounds) in cases.chain(starts).zip((0..4).cycle()) {
            let (code, _) = both.judge_after(&case, &start, rounds);
            let reply = both.guide_after(&case, &start, 0, rounds);
            let with_all = both.judge(&case, &start);
            if !matches!(with_all, 0 | 9) {
                assert_eq!((code, reply), (with_all, Refused(with_all)));
                refusals.count([code]);
            }
        }
    }
    println!("{refusals:?}");
    // 1 to 6 and 12.
    assert!(refusals.rarest(7) >= 20, "{refusals:?}");
}

/// The larger files after a few rounds and nearly all: judge of the proved library answers
/// as the rounds of the second implementation's table say.
#[test]
fn larger() {
    for file in larger_files() {
        println!("{}", file.name);
        let case = decode_case(&file.case).expect("a sound case");
        let start = decode_start(&file.start, &case).expect("a sound start file");
        let pair = Pair {
            case,
            start,
            case_file: file.case,
            start_file: file.start,
        };
        let stops = Stops::new(&pair);
        let last = stops.last();
        let near = |rounds: &u64| rounds % 500 < 3 || rounds.abs_diff(last) < 3;
        for rounds in (0..last + 3).filter(near) {
            for call in stops.calls_after(rounds) {
                let judged = judged(&pair, &call);
                assert_eq!(judged, stops.judged(&call), "{} {call:?}", file.name);
            }
        }
        let mut both = Both::new(Lent::new(LISTING_MOVES, LISTING_ENTRIES, 300, 100));
        let rounds = last.saturating_sub(1);
        both.guide_after(&pair.case_file, &pair.start_file, 0, rounds);
    }
}

/// What judge of the proved library answers.
fn judged(pair: &Pair, call: &Call) -> Judged {
    let mut lent = call.memory();
    lent.fill();
    let Lent {
        moves,
        entries,
        answers,
        ..
    } = &mut lent;
    let (case, start) = (&pair.case_file, &pair.start_file);
    let (code, count) = proved::judge(case, start, call.rounds, moves, entries, answers);
    assert!(lent.tables_are_zero());
    let marks = lent.marks(pair.start.starts.len());
    Judged { code, count, marks }
}
