//! Replay (document 02, §2) on generated files: traces of every kind, those of
//! the guide, and every small length.

use second::attempts::{Attempt, count_answers};
use second::generate::Pair;
use second::lent::{Lent, replayed, replayed_bytes};
use second::pairs::pairs;
use second::random::Random;
use second::replay::REPLAY_CELL_BYTES;
use second::replay::ReplayReply::{Accepted, Refused};
use second::services::GuideReply::Arrived;
use second::services::{LISTING_ENTRIES, LISTING_MOVES, MOST_CELLS};
use second::traces::{recorded, traces};

/// Memory with all cells that count and a long trace.
fn ample() -> Lent {
    Lent::new(LISTING_MOVES, LISTING_ENTRIES, MOST_CELLS, 4096)
}

fn files(pair: &Pair) -> (&[u8], &[u8]) {
    (&pair.case_file, &pair.start_file)
}

/// Traces of every kind, with few and many cells: "accepts only a trace whose
/// rules all exist, apply one after another and end in the target, whoever made
/// it". Each kind of answer occurs.
#[test]
fn generated_traces() {
    let answers = count_answers(&mut Random::new(2), 25, |attempt| {
        let Attempt {
            pair,
            number,
            trace,
            cells,
            ..
        } = *attempt;
        let reply = replayed(files(pair), number as u64, trace, cells);
        let expected = pair.expected_replay(number, trace, cells);
        assert_eq!(reply, expected, "{number} {trace:?} {cells}: {pair:?}");
        reply
    });
    println!("{answers:?}");
    assert!(answers.rarest() >= 50, "{answers:?}");
}

/// No trace is accepted from a start that judge marks no, and the empty one
/// exactly from those won in round 0.
#[test]
fn only_marked_starts_are_accepted() {
    let mut random = Random::new(3);
    let mut lent = ample();
    let (mut accepted, mut not) = (0, 0);
    for (name, pair) in pairs(30) {
        if lent.judge(&pair.case_file, &pair.start_file) != 0 {
            continue;
        }
        let rounds = lent.rounds(pair.start.starts.len());
        for (number, round) in rounds.iter().enumerate() {
            let empty = replayed(files(&pair), number as u64, &[], MOST_CELLS);
            assert_eq!(empty == Accepted, *round == Some(0), "{name} {number}");
            for trace in traces(&mut random, &pair, number, None) {
                let reply = replayed(files(&pair), number as u64, &trace, MOST_CELLS);
                if round.is_some() {
                    accepted += usize::from(reply == Accepted);
                } else {
                    assert_ne!(reply, Accepted, "{name} {number} {trace:?}");
                    not += 1;
                }
            }
        }
    }
    println!("{accepted} traces accepted, {not} from starts marked no");
    assert!(accepted >= 500 && not >= 500);
}

/// "Every trace of the guide that arrived is accepted if the replay has cells":
/// as many as the guide says, and 11 with any fewer.
#[test]
fn traces_of_the_guide() {
    let mut lent = ample();
    let mut accepted = 0;
    for (name, pair) in pairs(60) {
        let files = files(&pair);
        for number in 0..pair.start.starts.len() as u64 {
            let reply = lent.guide(&pair.case_file, &pair.start_file, number);
            let Arrived { cells, .. } = reply else {
                continue;
            };
            let trace = &lent.trace[..reply.steps()];
            let used = cells as usize;
            for cells in [used, used + 1, MOST_CELLS, MOST_CELLS + 1] {
                assert_eq!(replayed(files, number, trace, cells), Accepted, "{name}");
            }
            for cells in [used - 1, used / 2, 0] {
                assert_eq!(replayed(files, number, trace, cells), Refused(11), "{name}");
            }
            accepted += usize::from(!trace.is_empty());
        }
    }
    println!("{accepted} traces with steps");
    assert!(accepted >= 200);
}

/// Every length of lent bytes, up to more than the trace takes, and the trace
/// with each of its bytes cut off.
#[test]
fn every_small_length() {
    let mut random = Random::new(4);
    let (mut checked, mut refused) = (0, 0);
    for (name, pair) in pairs(3) {
        let files = files(&pair);
        for trace in traces(&mut random, &pair, 0, None) {
            let used = pair.cells_after(&trace[..pair.longest_run(0, &trace)]);
            for bytes in 0..=REPLAY_CELL_BYTES * (used + 1) {
                let reply = replayed_bytes(files, 0, &recorded(&trace), bytes);
                let expected = pair.expected_replay(0, &trace, bytes / REPLAY_CELL_BYTES);
                assert_eq!(reply, expected, "{name} {trace:?} {bytes} bytes");
                refused += usize::from(reply == Refused(11));
                checked += 1;
            }
            for length in 0..2 * trace.len() {
                let reply = replayed_bytes(files, 0, &recorded(&trace)[..length], 6 * used);
                let expected = match length % 2 {
                    0 => pair.expected_replay(0, &trace[..length / 2], used),
                    _ => Refused(10),
                };
                assert_eq!(reply, expected, "{name} {trace:?} cut at {length}");
            }
        }
    }
    println!("{checked} lengths, {refused} of them refused");
    assert!(refused >= 1000 && checked >= refused + 1000);
}
