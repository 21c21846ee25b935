//! Generated files: traces replayed on nested stacks, marks compared with a
//! bounded search, and the guide's halts for all small numbers of cells and
//! trace words.

use second::automaton::{accepting, accepts};
use second::file::decode_case;
use second::generate::Pair;
use second::lent::Lent;
use second::pairs::{Searched, pairs};
use second::search::{Bounds, Outcome, search};
use second::services::GuideReply::{Arrived, CellsShort, NoRun, Refused};
use second::services::{LISTING_ENTRIES, LISTING_MOVES, MOST_CELLS};
use second::sets::has;
use second::stack::Configuration;
use second::start_file::decode_start;
use second::table::Table;
use second::target::in_target;

/// Memory with all cells that count and a long trace.
fn ample() -> Lent {
    Lent::new(LISTING_MOVES, LISTING_ENTRIES, MOST_CELLS, 4096)
}

/// The rounds in which the pair's starts were won, or nothing if judge refuses
/// with 9.
fn rounds(lent: &mut Lent, pair: &Pair, name: &str) -> Option<Vec<Option<usize>>> {
    match lent.judge(&pair.case_file, &pair.start_file) {
        0 => Some(lent.rounds(pair.start.starts.len())),
        9 => None,
        other => panic!("{name}: judge refuses a sound pair with {other}"),
    }
}

#[test]
fn generated_files_are_sound() {
    for (name, pair) in pairs(400) {
        assert_eq!(
            decode_case(&pair.case_file),
            Ok(pair.case.clone()),
            "{name}"
        );
        let start = decode_start(&pair.start_file, &pair.case);
        assert_eq!(start, Ok(pair.start), "{name}");
    }
}

/// A cell and the nested stack it stands for are accepted by the same controls of
/// the case's own automaton, read from its table and from its records.
#[test]
fn cells_and_stacks_are_accepted_alike() {
    for (name, pair) in pairs(100) {
        let own = Table::new(&pair.case);
        let by_cell = accepting(own.whole(), &pair.start.cells);
        for (number, start) in pair.start.starts.iter().enumerate() {
            for control in 0..pair.case.controls {
                let states = by_cell[usize::from(start.root)].states;
                let stack = Configuration {
                    control,
                    ..pair.configuration(number)
                };
                let accepted = in_target(&pair.case, &stack);
                assert_eq!(accepts(own.whole(), &stack), accepted, "{name}");
                assert_eq!(has(states, control), accepted, "{name}");
            }
        }
    }
}

/// Every trace is a run on nested stacks; one that arrived ends in the target.
/// Every operation occurs in the runs that arrived.
#[test]
fn traces_are_runs_to_the_target() {
    let mut lent = ample();
    let mut taken = [0; 9];
    for (name, pair) in pairs(400) {
        let Some(rounds) = rounds(&mut lent, &pair, &name) else {
            continue;
        };
        for (number, round) in rounds.iter().enumerate() {
            let reply = lent.guide(&pair.case_file, &pair.start_file, number as u64);
            let won = round.is_some();
            assert_eq!(reply != NoRun, won, "{name} start {number}");
            if won {
                pair.check_run(number, reply, &lent.trace, &name);
            }
            if let Arrived { steps, .. } = reply {
                for &rule in &lent.trace[..steps as usize] {
                    taken[usize::from(pair.case.rules[usize::from(rule)].code)] += 1;
                }
            }
        }
    }
    println!("steps by code 1 to 8: {:?}", &taken[1..]);
    assert!(taken[1..].iter().all(|&steps| steps >= 20), "{taken:?}");
}

/// No start marked no reaches the target within the bounds, and no start marked
/// yes is one whose reachable configurations are all outside the target. Exactly
/// the starts in the target are won in round 0.
#[test]
fn marks_agree_with_the_search() {
    let bounds = Bounds {
        depth: 12,
        size: 60,
        configurations: 400,
    };
    let mut lent = ample();
    let mut searched = Searched::default();
    for (name, pair) in pairs(300) {
        let Some(rounds) = rounds(&mut lent, &pair, &name) else {
            continue;
        };
        searched.check(&name, &pair, &rounds, bounds);
    }
    println!("{searched:?}");
    assert!(searched.reached >= 500 && searched.exhausted >= 500);
    assert!(searched.at_empty_stack >= 100 && searched.at_empty_top >= 100);
}

/// The search finds every start marked yes whose run is short, by no more steps
/// than the guide takes.
#[test]
fn short_runs_are_found_by_the_search() {
    let mut lent = ample();
    let (mut found, mut left_out) = (0, 0);
    for (name, pair) in pairs(300) {
        for number in 0..pair.start.starts.len() {
            let reply = lent.guide(&pair.case_file, &pair.start_file, number as u64);
            let Arrived { steps, .. } = reply else {
                continue;
            };
            let bounds = Bounds {
                depth: steps as usize,
                size: 500,
                configurations: 5000,
            };
            match search(&pair.case, pair.configuration(number), bounds) {
                Outcome::Reached { steps: least, .. } => {
                    assert!(least <= steps as usize, "{name} start {number}");
                    found += usize::from(steps > 0);
                }
                Outcome::Exhausted => panic!("{name} start {number} is not found"),
                Outcome::Bounded => left_out += 1,
            }
        }
    }
    println!("found {found}, left out {left_out}");
    assert!(found >= 300 && 10 * left_out < found);
}

/// The guide with every small `c` and `t`: reply, trace and zeroed memory.
fn check_halts(pair: &Pair, number: usize, run: &[u16], name: &str) {
    for c in 0..=pair.cells_after(run) + 1 {
        for t in 0..=run.len() + 1 {
            let mut lent = Lent::new(LISTING_MOVES, LISTING_ENTRIES, c, t);
            // Words that do not make up a whole cell do not count.
            lent.cells.extend([0; 67]);
            let reply = lent.guide(&pair.case_file, &pair.start_file, number as u64);
            let named = format!("{name} start {number} cells {c} trace {t}");
            assert_eq!(reply, pair.expected_reply(run, c, t), "{named}");
            let steps = reply.steps();
            assert_eq!(lent.trace[..steps], run[..steps], "{named}");
            assert!(lent.trace_is_zero_from(steps), "{named}");
            assert!(lent.tables_are_zero() && lent.cells_are_zero(), "{named}");
        }
    }
}

#[test]
fn halts_for_all_small_cells_and_traces() {
    let mut lent = ample();
    let mut checked = [0; 2];
    for (name, pair) in pairs(20) {
        for number in 0..pair.start.starts.len() {
            let reply = lent.guide(&pair.case_file, &pair.start_file, number as u64);
            if let Arrived { steps: 0..=10, .. } = reply {
                let run = lent.trace[..reply.steps()].to_vec();
                let end = pair.end_of_run(number, &run, &name);
                check_halts(&pair, number, &run, &name);
                checked[usize::from(end.stack.empty().is_some())] += 1;
            }
        }
    }
    println!("runs to a symbol, and to an empty stack or top: {checked:?}");
    assert!(checked.iter().all(|&runs| runs >= 10));
}

/// A start without a run is answered so for every number of cells.
#[test]
fn no_run_is_tested_before_the_cells() {
    let mut ample = ample();
    let mut no_cells = Lent::new(LISTING_MOVES, LISTING_ENTRIES, 0, 0);
    for (name, pair) in pairs(50) {
        for number in 0..pair.start.starts.len() as u64 {
            let reply = ample.guide(&pair.case_file, &pair.start_file, number);
            let without = no_cells.guide(&pair.case_file, &pair.start_file, number);
            match reply {
                NoRun | Refused(_) => assert_eq!(without, reply, "{name}"),
                _ => assert_eq!(without, CellsShort { steps: 0, cells: 0 }, "{name}"),
            }
        }
    }
}

/// A table is refused with 9 exactly if fewer whole moves or entries are lent
/// than it has; the words after the last record are zero.
#[test]
fn every_length_of_lent_tables() {
    for (name, pair) in pairs(4) {
        let mut whole = Lent::as_listing();
        let (code, moves, entries) = whole.saturate(&pair.case_file);
        if code == 9 || moves > 40 {
            continue;
        }
        let sizes = (moves as usize, entries as usize);
        for words in 0..=5 * sizes.0 + 6 {
            let mut lent = whole.clone();
            lent.moves = vec![0; words];
            check_lent_tables(&mut lent, &whole, &pair, sizes, &name);
        }
        for words in 0..=3 * sizes.1 + 4 {
            let mut lent = whole.clone();
            lent.entries = vec![0; words];
            check_lent_tables(&mut lent, &whole, &pair, sizes, &name);
        }
    }
}

fn check_lent_tables(
    lent: &mut Lent,
    whole: &Lent,
    pair: &Pair,
    (moves, entries): (usize, usize),
    name: &str,
) {
    let fits = lent.moves.len() / 5 >= moves && lent.entries.len() / 3 >= entries;
    let reply = lent.saturate(&pair.case_file);
    if fits {
        assert_eq!(reply, (0, moves as u64, entries as u64), "{name}");
        assert_eq!(lent.moves[..], whole.moves[..lent.moves.len()], "{name}");
        assert_eq!(
            lent.entries[..],
            whole.entries[..lent.entries.len()],
            "{name}"
        );
    } else {
        assert_eq!(reply, (9, 0, 0), "{name}");
        assert!(lent.tables_are_zero(), "{name}");
    }
}
