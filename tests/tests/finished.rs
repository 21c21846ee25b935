//! Finished scripts as a target (document 02, §3): model B, examples worked out by
//! hand, and that generated files reach every kind.

use second::encode::{encode_case, encode_start};
use second::finished::{KINDS, Reading};
use second::finished_examples::{Answer, COMMON_CELLS, Example, examples};
use second::kinds::Kinds;
use second::lent::{Lent, replayed, words};
use second::models::{CASE_B, CASE_B_FINISHED, START_B, START_B_LONE};
use second::pairs::pairs;
use second::replay::ReplayReply::{Accepted, Fails, Refused};
use second::saturation::saturate;
use second::services::GuideReply::{self, Arrived, CellsShort, NoRun, TraceFull};
use second::services::{LISTING_ENTRIES, LISTING_MOVES, LISTING_SIZE, MOST_CELLS, listing};

/// Guide's reply with so many cells and trace words, and its trace. Cells, tables
/// and the trace behind the steps must be zero.
fn guided(
    files: (&[u8], &[u8]),
    number: u64,
    cells: usize,
    trace: usize,
) -> (GuideReply, Vec<u16>) {
    let mut lent = Lent::new(LISTING_MOVES, LISTING_ENTRIES, cells, trace);
    let reply = lent.guide(files.0, files.1, number);
    assert!(lent.tables_are_zero() && lent.cells_are_zero());
    assert!(lent.trace_is_zero_from(reply.steps()));
    lent.trace.truncate(reply.steps());
    (reply, lent.trace)
}

fn arrived(steps: u64, cells: u64) -> GuideReply {
    Arrived { steps, cells }
}

// ---- model B

/// "Model B's lone symbol turns to yes if its entry is written with 254": one step,
/// and one cell more than the seven of the file.
#[test]
fn model_b_with_254() {
    let files = (&CASE_B_FINISHED[..], &START_B[..]);
    assert_eq!(words(files.0, files.1, 2), [2, 2]);
    for number in [0, 1] {
        let walk = (arrived(1, 8), vec![0]);
        assert_eq!(guided(files, number, 512, 1024), walk);
    }
    let printed = "\
moves 2 entries 2
most 1
start 0 yes 1 1 8
start 1 yes 1 1 8
";
    assert_eq!(listing(files.0, files.1), printed);
}

/// The lone symbol in a file of its own, of four cells.
#[test]
fn model_b_with_254_alone() {
    let files = (&CASE_B_FINISHED[..], &START_B_LONE[..]);
    assert_eq!(words(files.0, files.1, 1), [2]);
    assert_eq!(guided(files, 0, 512, 1024), (arrived(1, 5), vec![0]));
    assert_eq!(replayed(files, 0, &[0], 5), Accepted);
    assert_eq!(replayed(files, 0, &[0], 4), Refused(11));
}

/// With 255 it is no, in either file.
#[test]
fn model_b_with_255() {
    let files = (&CASE_B[..], &START_B[..]);
    assert_eq!(words(files.0, files.1, 2), [2, 0]);
    assert_eq!(guided(files, 1, 512, 1024), (NoRun, vec![]));
    assert_eq!(words(&CASE_B, &START_B_LONE, 1), [0]);
    let printed = "moves 2 entries 2\nmost 1\nstart 0 no\n";
    assert_eq!(listing(&CASE_B, &START_B_LONE), printed);
    assert_eq!(replayed(files, 1, &[0], 8), Fails { step: 1 });
}

/// The mark changes no table.
#[test]
fn tables_of_model_b() {
    let tables = [CASE_B, CASE_B_FINISHED].map(|case| {
        let mut lent = Lent::as_listing();
        assert_eq!(lent.saturate(&case), (0, 2, 2));
        (lent.moves, lent.entries)
    });
    assert_eq!(tables[0], tables[1]);
}

/// "A walk is tested for arrival first, then trace, then cells": all lengths near
/// those of the run of the lone symbol, which ends at an empty top order-1 stack.
#[test]
fn halts_of_model_b_with_254() {
    let files = (&CASE_B_FINISHED[..], &START_B[..]);
    for cells in 0..10 {
        for trace in 0..3 {
            let expected = match (cells, trace) {
                (..7, _) => CellsShort { steps: 0, cells: 0 },
                (_, 0) => TraceFull { steps: 0, cells: 7 },
                (7, _) => CellsShort { steps: 0, cells: 7 },
                _ => arrived(1, 8),
            };
            assert_eq!(guided(files, 1, cells, trace).0, expected);
        }
    }
}

/// A step from the empty top order-1 stack fails, whichever rule is named.
#[test]
fn replay_of_model_b_with_254() {
    let files = (&CASE_B_FINISHED[..], &START_B[..]);
    assert_eq!(replayed(files, 1, &[0], 8), Accepted);
    assert_eq!(replayed(files, 1, &[0], 7), Refused(11));
    assert_eq!(replayed(files, 1, &[], 8), Fails { step: 0 });
    for rule in [0, 1, 65535] {
        assert_eq!(replayed(files, 1, &[0, rule], 9), Fails { step: 1 });
    }
}

// ---- examples

/// The files of an example.
fn files_of(example: &Example) -> (Vec<u8>, Vec<u8>) {
    let start = example.start_file();
    (encode_case(&example.case), encode_start(&start))
}

/// Each start of each example with its number.
fn for_each_answer(check: impl Fn((&[u8], &[u8]), u64, &Answer, &str)) {
    for example in examples() {
        let (case, start) = files_of(&example);
        for (number, answer) in (0..).zip(&example.answers) {
            let name = format!("{}, start {number}", example.name);
            check((&case, &start), number, answer, &name);
        }
    }
}

#[test]
fn words_of_the_examples() {
    for example in examples() {
        let (case, start) = files_of(&example);
        let expected: Vec<u16> = example.answers.iter().map(|answer| answer.word).collect();
        let words = words(&case, &start, expected.len());
        assert_eq!(words, expected, "{}", example.name);
    }
}

/// With more cells and trace words than any run takes: the walk goes no further
/// than where it has arrived.
#[test]
fn runs_of_the_examples() {
    for_each_answer(|files, number, answer, name| {
        let cells = COMMON_CELLS as u64 + answer.new_cells;
        let reply = match answer.word {
            0 => NoRun,
            _ => arrived(answer.run.len() as u64, cells),
        };
        let expected = (reply, answer.run.to_vec());
        assert_eq!(guided(files, number, MOST_CELLS, 4096), expected, "{name}");
    });
}

/// "Tested for arrival first, then trace, then cells": with as many trace words and
/// cells as the run takes it has arrived, also where that is no trace word and the
/// cells of the start file alone.
#[test]
fn exact_lengths_of_the_examples() {
    for_each_answer(|files, number, answer, name| {
        if answer.word == 0 {
            return;
        }
        let (steps, used) = (answer.run.len(), COMMON_CELLS + answer.new_cells as usize);
        let reply = guided(files, number, used, steps).0;
        assert_eq!(reply, arrived(steps as u64, used as u64), "{name}");
        let short = guided(files, number, COMMON_CELLS - 1, steps).0;
        assert_eq!(short, CellsShort { steps: 0, cells: 0 }, "{name}");
        let full = guided(files, number, used, steps.saturating_sub(1)).0;
        assert_eq!(matches!(full, TraceFull { .. }), steps > 0, "{name}");
    });
}

/// Replay accepts each run with the cells it takes, and no rule applies where a run
/// has ended at an empty stack or an empty top order-1 stack. The empty trace is
/// accepted exactly from the starts in the target.
#[test]
fn replays_of_the_examples() {
    for_each_answer(|files, number, answer, name| {
        let empty = replayed(files, number, &[], COMMON_CELLS);
        assert_eq!(empty == Accepted, answer.word == 1, "{name}");
        if answer.word > 0 {
            let used = COMMON_CELLS + answer.new_cells as usize;
            let reply = replayed(files, number, answer.run, used);
            assert_eq!(reply, Accepted, "{name}");
            let short = replayed(files, number, answer.run, used - 1);
            assert_eq!(short, Refused(11), "{name}");
        }
    });
}

/// "No rule applies to an empty stack or an empty top order-1 stack", and no walk
/// of the example leaves one.
#[test]
fn no_rule_applies_after_an_empty_stack() {
    let all = examples();
    let example = all.iter().find(|e| e.name == "no further step");
    let example = example.expect("the example of this name");
    let (case, start) = files_of(example);
    for (number, answer) in (0..).zip(&example.answers) {
        for rule in 0..example.case.rules.len() as u16 {
            let trace = [answer.run, &[rule]].concat();
            let step = answer.run.len() as u64;
            let reply = replayed((&case, &start), number, &trace, MOST_CELLS);
            assert_eq!(reply, Fails { step }, "start {number} rule {rule}");
        }
    }
}

// ---- generated files

/// The generated files on which the proved library is compared reach every kind of
/// what §3 adds.
#[test]
fn generated_files_reach_every_kind() {
    let mut lent = Lent::new(LISTING_MOVES, LISTING_ENTRIES, 1024, 2048);
    let mut reached = Kinds::default();
    let size = LISTING_SIZE;
    for (_, pair) in pairs(250) {
        let Some(table) = saturate(&pair.case, size) else {
            continue;
        };
        let starts = 0..pair.start.starts.len();
        let runs: Vec<_> = starts
            .map(|number| pair.guided(&mut lent, number))
            .collect();
        let reading = Reading {
            pair: &pair,
            table: &table,
        };
        reading.count(&mut reached, &runs);
    }
    println!("{reached:?}");
    assert!(reached.rarest(KINDS) >= 20, "{reached:?}");
}
