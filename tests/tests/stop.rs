//! Stop after a number of rounds (document 02, §8), in both implementations: model A,
//! examples worked out by hand, as many rounds as a table can have, refusals.
//! `stop_generated.rs` has generated files.

use second::callers::{PROVED, SECOND, Services};
use second::encode::{encode_case, encode_start};
use second::every_state::entry;
use second::file::{Case, FileEntry, Rule};
use second::lent::Lent;
use second::models::{CASE_A, CASE_A_CODED, START_A};
use second::services::GuideReply::{self, Arrived, CellsShort, NoRun, Open, Refused};
use second::services::OPEN_WORD as OPEN;
use second::sound::{a_move, rule};
use second::stop_examples::{Longest, TWO_WAYS_RUNS, TWO_WAYS_WORDS, two_ways, two_ways_start};
use second::stops::MANY;

/// Judge's reply, count and words of the first starts; all else must be zero.
fn judged(
    services: Services,
    (case, start): (&[u8], &[u8]),
    rounds: u64,
    (moves, entries): (usize, usize),
) -> (u64, u64, Vec<u16>) {
    let mut lent = Lent::new(moves, entries, 0, 0);
    lent.fill();
    let Lent {
        moves,
        entries,
        answers,
        ..
    } = &mut lent;
    let (code, count) = (services.judge)(case, start, rounds, moves, entries, answers);
    assert!(lent.tables_are_zero());
    // A sound start file has the number of its starts at byte 3.
    let starts = usize::from(start[3]);
    assert!(lent.answers[starts..].iter().all(|&word| word == 0));
    lent.answers.truncate(starts);
    (code, count, lent.answers)
}

/// Guide's reply and its trace; all else must be zero.
fn guided(
    services: Services,
    (case, start): (&[u8], &[u8]),
    (number, rounds): (u64, u64),
    mut lent: Lent,
) -> (GuideReply, Vec<u16>) {
    lent.fill();
    let Lent {
        moves,
        entries,
        cells,
        trace,
        ..
    } = &mut lent;
    let reply = (services.guide)(case, start, number, rounds, moves, entries, cells, trace);
    assert!(lent.tables_are_zero() && lent.cells_are_zero());
    assert!(lent.trace_is_zero_from(reply.steps()));
    lent.trace.truncate(reply.steps());
    (reply, lent.trace)
}

/// As much as the printing program lends.
const ALL: (usize, usize) = (1024, 64);

// ---- model A

/// The words and the count after so many rounds. "The table gains entry [0,empty] ..,
/// then [0,{1}] .., then ends": the first start is won in round 2, the second in round
/// 0. The third is never won, and open as long as there is a move to add, whatever move.
fn words_of_model_a(rounds: u64) -> (u64, u64, Vec<u16>) {
    match rounds {
        0 | 1 => (0, rounds, vec![OPEN, 1, OPEN]),
        _ => (0, 2, vec![3, 1, 0]),
    }
}

/// The table has n + 1 moves and entries after round n, up to round 2.
fn check_model_a(services: Services) {
    for case in [&CASE_A[..], &CASE_A_CODED] {
        let files = (case, &START_A[..]);
        for rounds in (0..5).chain(MANY) {
            assert_eq!(
                judged(services, files, rounds, ALL),
                words_of_model_a(rounds)
            );
            for moves in 0..5 {
                for entries in 0..5 {
                    let fits = rounds.min(2) < moves.min(entries);
                    let lent = (moves as usize, entries as usize);
                    let refused = (9, 0, vec![0, 0, 0]);
                    let expected = if fits {
                        words_of_model_a(rounds)
                    } else {
                        refused
                    };
                    assert_eq!(judged(services, files, rounds, lent), expected);
                }
            }
        }
        check_guide_of_model_a(services, files);
    }
}

/// "Tested where no run is": open and no run without a cell, and after 9.
fn check_guide_of_model_a(services: Services, files: (&[u8], &[u8])) {
    for rounds in (0..5).chain(MANY) {
        let size = rounds.min(2) as usize + 1;
        let with = |number: u64, cells: usize| {
            let asked = (number, rounds);
            let short = guided(services, files, asked, Lent::new(size - 1, size, cells, 2));
            assert_eq!(short, (Refused(9), vec![]));
            guided(services, files, asked, Lent::new(size, size, cells, 2))
        };
        let few = rounds < 2;
        for cells in [0, 5, 6, 8, 9] {
            let third = if few { Open } else { NoRun };
            assert_eq!(with(2, cells), (third, vec![]));
            let none = CellsShort { steps: 0, cells: 0 };
            let (first, trace) = match cells {
                _ if few => (Open, vec![]),
                0 | 5 => (none, vec![]),
                6 | 8 => (CellsShort { steps: 0, cells: 6 }, vec![]),
                _ => (Arrived { steps: 2, cells: 9 }, vec![0, 1]),
            };
            assert_eq!(with(0, cells), (first, trace));
            let arrived = Arrived { steps: 0, cells: 6 };
            let second = if cells < 6 { none } else { arrived };
            assert_eq!(with(1, cells), (second, vec![]));
        }
    }
}

#[test]
fn model_a_in_second() {
    check_model_a(SECOND);
}

#[test]
fn model_a_in_proved() {
    check_model_a(PROVED);
}

// ---- a walk that differs

fn check_two_ways(services: Services) {
    let (case, start) = (encode_case(&two_ways()), encode_start(&two_ways_start()));
    let files = (&case[..], &start[..]);
    for rounds in (0..5).chain(MANY) {
        let run = rounds.min(2);
        let words = TWO_WAYS_WORDS[run as usize].to_vec();
        assert_eq!(judged(services, files, rounds, ALL), (0, run, words));
        for (number, word) in (0..).zip(TWO_WAYS_WORDS[run as usize]) {
            let (reply, _) = guided(services, files, (number, rounds), Lent::as_listing());
            let unmarked = [(0, NoRun), (OPEN, Open)];
            for (mark, expected) in unmarked {
                assert_eq!(reply == expected, word == mark, "start {number}");
            }
        }
    }
    for (rounds, run, cells) in TWO_WAYS_RUNS {
        let steps = run.len() as u64;
        let expected = (Arrived { steps, cells }, run.to_vec());
        let reply = guided(services, files, (0, rounds), Lent::as_listing());
        assert_eq!(reply, expected);
    }
}

#[test]
fn two_ways_in_second() {
    check_two_ways(SECOND);
}

#[test]
fn two_ways_in_proved() {
    check_two_ways(PROVED);
}

// ---- as many rounds as a table can have

/// Judge's answer after so many rounds: the first start is won in the last round, the
/// second in round 1, the third never.
fn words_of_longest(longest: &Longest, rounds: u64) -> (u64, u64, Vec<u16>) {
    let last = longest.rounds();
    let run = rounds.min(last);
    if longest.own_moves as u64 + run > 1024 {
        return (9, 0, vec![0; 3]);
    }
    let left = if rounds < last { OPEN } else { 0 };
    let first = if rounds < last { OPEN } else { last as u16 + 1 };
    let second = if rounds == 0 { left } else { 2 };
    (0, run, vec![first, second, left])
}

/// Cases with their own moves, and numbers of rounds besides few: tables of fewer moves
/// than count and of all, and some that pass the limit by a round that need not be run.
/// With 1,024 rounds that add and one more to run, 1,024 is not all rounds; with a move
/// of its own no case has as many.
const LONGEST: [(Longest, &[u64]); 6] = [
    (Longest::new(1, 0), &[15, 16, 17, 1024, u64::MAX]),
    (Longest::new(2, 3), &[23, 24, 25, 1024, u64::MAX]),
    (Longest::new(126, 8), &[1015, 1016, 1017, u64::MAX]),
    (Longest::new(127, 0), &[1023, 1024, 1025, u64::MAX]),
    (Longest::new(127, 1), &[1022, 1023, 1024, 1025]),
    (Longest::new(128, 0), &[1023, 1024, 1025, 1026]),
];

fn check_longest(services: Services) {
    for (longest, many) in LONGEST {
        let (case, start) = (longest.case(), longest.start());
        let (case, start) = (encode_case(&case), encode_start(&start));
        let files = (&case[..], &start[..]);
        for &rounds in [0, 1, 2, 8, 9].iter().chain(many) {
            let expected = words_of_longest(&longest, rounds);
            let lent = (2000, 200);
            let name = format!("{longest:?} after {rounds} rounds");
            assert_eq!(judged(services, files, rounds, lent), expected, "{name}");
        }
        check_longest_run(services, &longest, files, longest.rounds() - 1);
        check_longest_run(services, &longest, files, longest.rounds().min(1024));
    }
}

/// The run is written whole where the last round is run and fits.
fn check_longest_run(services: Services, longest: &Longest, files: (&[u8], &[u8]), rounds: u64) {
    let (code, _, words) = words_of_longest(longest, rounds);
    let run = longest.run();
    let (steps, cells) = (run.len() as u64, longest.cells());
    let expected = match (code, words[0]) {
        (9, _) => (Refused(9), vec![]),
        (_, OPEN) => (Open, vec![]),
        _ => (Arrived { steps, cells }, run),
    };
    let lent = Lent::new(1024, 8, cells as usize, steps as usize);
    let reply = guided(services, files, (0, rounds), lent);
    assert_eq!(reply, expected, "{longest:?} after {rounds} rounds");
}

#[test]
fn longest_in_second() {
    check_longest(SECOND);
}

#[test]
fn longest_in_proved() {
    check_longest(PROVED);
}

// ---- nothing left to add, and limits

/// The start is in no target; it is no after these numbers of rounds, open after those,
/// and every other gives 9.
fn check_case(services: Services, case: &Case, no: &[u64], open: &[u64]) {
    let file = encode_case(case);
    for rounds in [0, 1, 2].into_iter().chain(MANY) {
        let mark = |word: u16| (0, vec![word; 3]);
        let expected = match () {
            _ if no.contains(&rounds) => mark(0),
            _ if open.contains(&rounds) => mark(OPEN),
            _ => (9, vec![0; 3]),
        };
        let files = (&file[..], &START_A[..]);
        let (code, _, words) = judged(services, files, rounds, (2000, 200));
        assert_eq!((code, words), expected, "after {rounds} rounds");
        let (reply, _) = guided(services, files, (0, rounds), Lent::new(2000, 200, 0, 0));
        let guide = match expected.1[0] {
            _ if expected.0 == 9 => Refused(9),
            OPEN => Open,
            _ => NoRun,
        };
        assert_eq!(reply, guide, "after {rounds} rounds");
    }
}

/// A rule of control 0 on symbol 0.
fn on_zero(code: u8, put: u8) -> Rule {
    rule(0, 0, code, put, 1)
}

/// "No means not accepted and nothing left to add": after no round, where there are no
/// rules, where they give no result, and where their result is held.
///
/// 64 order-1 states and a rule that gives a move, or an entry more; 1,024 moves and a
/// rule that gives one more: open after round 0, which fits.
fn check_cases(services: Services) {
    let all = [&[0, 1, 2][..], &MANY].concat();
    let plain = Case::without_records(2, 3, 5, 32);
    check_case(services, &plain, &all, &[]);
    let mut without_result = plain.clone();
    without_result.rules = vec![on_zero(1, 1), on_zero(2, 1), on_zero(4, 0), on_zero(5, 0)];
    check_case(services, &without_result, &all, &[]);
    let mut held = plain.clone();
    held.entries = vec![FileEntry::plain(0, 0)];
    held.moves = vec![a_move(5, 5, 0, 0, 0)];
    held.rules = vec![rule(0, 5, 1, 5, 0)];
    check_case(services, &held, &all, &[]);
    let mut states = Case::without_records(8, 3, 0, 32);
    states.entries = (0..64).map(entry).collect();
    states.rules = vec![rule(0, 5, 8, 0, 0)];
    check_case(services, &states, &all[1..], &[0]);
    states.rules = vec![rule(0, 5, 6, 0, 1)];
    check_case(services, &states, &[], &[0]);
    let mut moves = plain;
    let many = (0..32).flat_map(|name| (0..32).map(move |rest| a_move(0, name, 0, 0, rest)));
    moves.moves = many.collect();
    check_case(services, &moves, &all, &[]);
    moves.rules = vec![rule(0, 5, 6, 0, 1)];
    check_case(services, &moves, &[], &[0]);
    moves.moves.pop();
    check_case(services, &moves, &all[1..], &[0]);
}

#[test]
fn limits_in_second() {
    check_cases(SECOND);
}

#[test]
fn limits_in_proved() {
    check_cases(PROVED);
}

// ---- refusals

/// "0 in a refusal", and the other refusals come before 9, whatever the number.
fn check_refusals(services: Services) {
    let short = &START_A[..61];
    for rounds in [0, 1, 2, 1024, u64::MAX] {
        for size in [0, 64] {
            let count = |case: &[u8], start: &[u8], answers: usize| {
                let mut lent = Lent::new(size, size, 0, 0);
                lent.answers.truncate(answers);
                lent.fill();
                let Lent {
                    moves,
                    entries,
                    answers,
                    ..
                } = &mut lent;
                let reply = (services.judge)(case, start, rounds, moves, entries, answers);
                assert!(reply.0 == 0 || lent.tables_are_zero() && lent.answers_are_zero());
                reply
            };
            assert_eq!(count(&CASE_A[1..], &START_A, 3), (1, 0));
            assert_eq!(count(&CASE_A, short, 3), (5, 0));
            assert_eq!(count(&CASE_A, &START_A, 2), (8, 0));
            let used = if size == 0 {
                (9, 0)
            } else {
                (0, rounds.min(2))
            };
            assert_eq!(count(&CASE_A, &START_A, 3), used);
            let guide = |case: &[u8], start: &[u8], number: u64| {
                let lent = Lent::new(size, size, 9, 2);
                guided(services, (case, start), (number, rounds), lent).0
            };
            assert_eq!(guide(&CASE_A[1..], &START_A, 0), Refused(1));
            assert_eq!(guide(&CASE_A, short, 0), Refused(5));
            assert_eq!(guide(&CASE_A, &START_A, 3), Refused(7));
            let refused = guide(&CASE_A, &START_A, 2) == Refused(9);
            assert_eq!(refused, size == 0);
        }
    }
}

#[test]
fn refusals_in_second() {
    check_refusals(SECOND);
}

#[test]
fn refusals_in_proved() {
    check_refusals(PROVED);
}
