//! The vectors and the larger files that came with document 01, and the examples
//! of document 02's requests.

use second::automaton::accepts;
use second::callers::SECOND;
use second::data::{Vector, bytes, larger_files, listed, one_start, vectors};
use second::file::decode_case;
use second::lent::{Lent, replayed};
use second::replay::ReplayReply::{Accepted, Refused};
use second::requests::check_examples;
use second::saturation::saturate;
use second::services::GuideReply::{Arrived, CellsShort};
use second::services::{LISTING_ENTRIES, LISTING_MOVES, MOST_CELLS, listing, listing_answer};
use second::stack::{after_rules, configuration};
use second::start_file::decode_start;
use second::table::{Size, Table};

/// The listing is this text, which lacks what document 02 adds. The number after
/// `most` is the largest third word of the entries that saturate writes.
fn check_listing(case: &[u8], start: &[u8], text: &str, name: &str) {
    let listed = listed(&listing(case, start));
    assert_eq!(listed.text, text, "{name}");
    let saturated = listed.most.map(|_| {
        let mut lent = Lent::as_listing();
        let (code, _, entries) = lent.saturate(case);
        assert_eq!(code, 0, "{name}");
        let counts = lent.counts(entries as usize);
        counts.into_iter().max().unwrap_or(0)
    });
    assert_eq!(listed.most, saturated, "{name}");
}

#[test]
fn every_vector() {
    let vectors = vectors();
    assert_eq!(vectors.len(), 254);
    for vector in vectors {
        check_listing(&vector.case, &vector.start, &vector.printed, &vector.name);
    }
}

#[test]
fn every_example_of_the_requests() {
    check_examples(SECOND);
}

/// The services answer as the listing says, and the traces of the vectors are
/// runs on nested stacks that end in the target if they arrived, and then replay
/// accepts them, exactly if it has the cells.
#[test]
fn every_trace_of_the_vectors() {
    let mut lent = Lent::as_listing();
    for vector in vectors() {
        let refusal = lent.judge(&vector.case, &vector.start);
        if refusal == 0 {
            check_traces(&mut lent, &vector);
        } else {
            let printed = format!("refused {refusal}\n");
            assert_eq!(printed, vector.printed, "{}", vector.name);
        }
    }
}

fn check_traces(lent: &mut Lent, vector: &Vector) {
    let name = &vector.name;
    let case = decode_case(&vector.case).expect("a sound case");
    let file = decode_start(&vector.start, &case).expect("a sound start file");
    let own = Table::new(&case);
    let rounds = lent.rounds(file.starts.len());
    let printed = listing(&vector.case, &vector.start);
    let mut lines = printed.lines().skip(2);
    for ((number, start), round) in (0..).zip(&file.starts).zip(rounds) {
        let reply = lent.guide(&vector.case, &vector.start, number);
        let line = format!("start {number} {}", listing_answer(round, reply));
        assert_eq!(Some(line.as_str()), lines.next(), "{name}");
        let trace = &lent.trace[..reply.steps()];
        let end = after_rules(&case.rules, configuration(&file, start), trace);
        let end = end.unwrap_or_else(|| panic!("{name} start {number}: no run"));
        let arrived = matches!(reply, Arrived { .. });
        assert!(
            !arrived || accepts(own.whole(), &end),
            "{name} start {number}"
        );
        if let Arrived { cells, .. } = reply {
            let files = (&vector.case[..], &vector.start[..]);
            let with = |cells: u64| replayed(files, number, trace, cells as usize);
            assert_eq!(with(cells), Accepted, "{name} start {number}");
            assert_eq!(with(cells - 1), Refused(11), "{name} start {number}");
        }
    }
}

/// "The lent cells, of which at most 4,096 count": a run that needs more.
#[test]
fn more_cells_than_count() {
    let all = vectors();
    let vector = all.iter().find(|vector| vector.name == "doubling12");
    let vector = vector.expect("the vector doubling12");
    let starts = vector.printed.lines().count() as u64 - 1;
    let halts = (0..starts).map(|number| {
        let replies = [MOST_CELLS, MOST_CELLS + 1000].map(|cells| {
            let mut lent = Lent::new(LISTING_MOVES, LISTING_ENTRIES, cells, 65536);
            let reply = lent.guide(&vector.case, &vector.start, number);
            (reply, lent.trace)
        });
        assert_eq!(replies[0], replies[1], "start {number}");
        replies[0].0
    });
    let short = halts.filter(|reply| matches!(reply, CellsShort { .. }));
    assert!(short.count() > 0, "no run needs more than 4,096 cells");
}

#[test]
fn every_larger_file_with_an_expected_listing() {
    let mut listed = 0;
    for file in larger_files() {
        if let Some(expected) = file.printed {
            check_listing(&file.case, &file.start, &expected, &file.name);
            listed += 1;
        }
    }
    assert_eq!(listed, 6);
}

/// The start that a case without starts is given is the one of these files.
#[test]
fn the_start_given() {
    assert_eq!(one_start(), bytes("bench/dead-10/start.bin"));
}

/// The table sizes of the larger files: moves, entries, rounds. The vectors' README
/// gives those of the first eleven; the others follow from their records.
///
/// - dead-10: a push whose set has a member without a move gives no result.
/// - flat: a chain of 40 rules adds a move a round, by a push that 13 inner states
///   let begin anew 12 times, to an entry of the file and to a new one.
/// - guide-12-4: a push whose members have the rest sets that two states make up,
///   each of the four, beside a third state, and a push of an annotation.
/// - steps-400-254-240: a push from 400 moves whose rest sets have no move on the
///   symbol gives no result, and a pop gives one.
/// - swallow-10, thrash-12: a push whose last member has one move, and the sets of
///   that move hold those of all others.
#[test]
fn every_larger_table() {
    let sizes = [
        ("chain-999", 1003, 8, 999),
        ("copies-8", 129, 1, 0),
        ("copies-60", 961, 1, 0),
        ("copy-1008338", 758, 6, 8),
        ("copy-1031611", 988, 6, 6),
        ("deep-1002280", 802, 9, 6),
        ("large-880", 1007, 45, 9),
        ("mid-1013239", 999, 6, 7),
        ("mid-1021568", 801, 22, 9),
        ("power-2", 69, 1, 1),
        ("power-5", 545, 1, 1),
        ("dead-10", 41, 1, 0),
        ("flat", 493 + 13 * 40 - 1, 3, 13 * 40 - 1),
        ("guide-12-4", 51 + 4 + 1, 1, 1),
        ("steps-400-254-240", 402 + 1, 2, 1),
        ("swallow-10", 42 + 1, 1, 1),
        ("thrash-12", 182 + 1, 1, 1),
    ];
    let lent = Size {
        moves: LISTING_MOVES,
        entries: LISTING_ENTRIES,
    };
    let files = larger_files();
    assert_eq!(files.len(), sizes.len());
    for file in files {
        let name = &file.name;
        let expected = sizes.iter().find(|size| size.0 == name);
        let &(_, moves, entries, rounds) = expected.expect(name);
        let case = decode_case(&file.case).expect("a sound case");
        let table = saturate(&case, lent).expect("a table that fits");
        let size = (table.moves().len(), table.entries().len());
        assert_eq!(size, (moves, entries), "{name}");
        assert_eq!(table.rounds(), rounds, "{name}");
    }
}
