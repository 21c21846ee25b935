//! The proved library against the second implementation on files that came with
//! documents 01 and 02, on the example of `src/won.rs` and on files at the limits.

use second::callers::PROVED;
use second::compare::Both;
use second::damage::changed;
use second::data::{Listed, Vector, larger_files, listed, vectors};
use second::encode::{encode_case, encode_start};
use second::file::{Case, Cell, FileEntry, Move, Rule, Start, StartFile};
use second::finished_examples::{COMMON_CELLS, examples};
use second::lent::Lent;
use second::models::{
    CASE_A, CASE_B, CASE_B_FINISHED, CASE_C, START_A, START_B, START_B_LONE, START_C_ONE,
    START_C_TWO, case_a_with_rules, start_a_with_starts,
};
use second::proved;
use second::random::is_long;
use second::replay::ReplayReply::{Accepted, Fails, Refused};
use second::requests::check_examples;
use second::services::GuideReply::Arrived;
use second::services::{LISTING_ENTRIES, LISTING_MOVES, MOST_CELLS, listing, listing_answer};
use second::traces::recorded;
use second::won::{EXAMPLE_WORDS, example_case, example_start};

// ---- the files that came with documents 01 and 02

/// The proved listing is this text, which lacks what document 02 adds, and the
/// services answer as it says, judge with its rounds, saturate with its largest
/// count, guide from every `step`th start; its brackets are compared too. Where
/// guide arrives, replay accepts with the cells that it says, and not with one fewer.
fn check_listing(both: &mut Both, (case, start): (&[u8], &[u8]), step: usize, text: &str) {
    let printed = proved::listing(case, start);
    let Listed {
        text: own, rounds, ..
    } = listed(&printed);
    assert_eq!(own, text);
    let refusal = both.judge(case, start);
    if refusal != 0 {
        assert_eq!(printed, format!("refused {refusal}\n"));
        both.brackets(case, start, 0);
        return;
    }
    // A sound start file has the number of its starts at byte 3.
    let starts = usize::from(start[3]);
    assert_eq!(rounds, both.lent.rounds(starts));
    let (_, moves, entries) = both.saturate(case);
    let lines: Vec<&str> = printed.lines().collect();
    assert_eq!(lines[0], format!("moves {moves} entries {entries}"));
    let most = both.lent.counts(entries as usize).into_iter().max();
    assert_eq!(lines[1], format!("most {}", most.unwrap_or(0)));
    assert_eq!(lines.len(), 2 + starts);
    for (number, line) in lines[2..].iter().enumerate().step_by(step) {
        let reply = both.guide(case, start, number as u64);
        let answer = listing_answer(rounds[number], reply);
        assert_eq!(*line, format!("start {number} {answer}"));
        if let Arrived { cells, .. } = reply {
            let trace = recorded(&both.lent.trace[..reply.steps()]);
            let number = number as u64;
            both.lend_to_replay(cells as usize);
            assert_eq!(both.replay(case, start, number, &trace), Accepted);
            both.lend_to_replay(cells as usize - 1);
            assert_eq!(both.replay(case, start, number, &trace), Refused(11));
        }
        both.brackets(case, start, number as u64);
    }
}

#[test]
fn every_vector() {
    let mut both = Both::new(Lent::as_listing());
    for vector in vectors() {
        println!("{}", vector.name);
        let files = (&vector.case[..], &vector.start[..]);
        check_listing(&mut both, files, 1, &vector.printed);
    }
}

#[test]
fn every_example_of_the_requests() {
    check_examples(PROVED);
}

/// Rounds that hang on each part of a stack, and on choices that are not least.
#[test]
fn example_of_rounds() {
    let case = encode_case(&example_case());
    let start = encode_start(&example_start());
    let mut both = Both::new(Lent::as_listing());
    assert_eq!(both.judge(&case, &start), 0);
    let words = EXAMPLE_WORDS.as_flattened();
    assert_eq!(both.lent.answers[..words.len()], *words);
    assert_eq!(proved::listing(&case, &start), listing(&case, &start));
}

/// Empty stacks in the target and beside it: marks, and walks with the cells and
/// trace words that the run takes, fewer and more.
#[test]
fn examples_of_finished_scripts() {
    for example in examples() {
        let case = encode_case(&example.case);
        let start = encode_start(&example.start_file());
        let mut both = Both::new(Lent::as_listing());
        assert_eq!(both.judge(&case, &start), 0, "{}", example.name);
        let words = example.answers.iter().map(|answer| answer.word);
        let judged = both.lent.answers.iter().copied();
        assert!(
            judged.take(example.answers.len()).eq(words),
            "{}",
            example.name
        );
        assert_eq!(proved::listing(&case, &start), listing(&case, &start));
        for (number, answer) in (0..).zip(&example.answers) {
            let used = COMMON_CELLS + answer.new_cells as usize;
            for cells in [COMMON_CELLS - 1, COMMON_CELLS, used - 1, used, MOST_CELLS] {
                for trace in [0, 1, 2, 3, 1024] {
                    let lent = Lent::new(LISTING_MOVES, LISTING_ENTRIES, cells, trace);
                    let mut both = Both::new(lent);
                    both.guide(&case, &start, number);
                    both.replay(&case, &start, number, &recorded(answer.run));
                }
            }
        }
    }
}

/// The vector with the longest runs, with cells from too few to more than count
/// and traces of many lengths; what guide writes is replayed with as many cells.
#[test]
fn long_runs() {
    let all = vectors();
    let vector = all.iter().find(|vector| vector.name == "doubling12");
    let Vector { case, start, .. } = vector.expect("the vector doubling12");
    let cells = [
        0,
        1,
        100,
        512,
        1000,
        2047,
        MOST_CELLS - 1,
        MOST_CELLS,
        MOST_CELLS + 1,
        6000,
    ];
    for cells in cells {
        for trace in [0, 1, 1000, 1024, 4096, 65536] {
            let mut both = Both::new(Lent::new(LISTING_MOVES, LISTING_ENTRIES, cells, trace));
            for number in 0..u64::from(start[3]) {
                let reply = both.guide(case, start, number);
                let trace = recorded(&both.lent.trace[..reply.steps()]);
                both.replay(case, start, number, &trace);
            }
        }
    }
}

/// The larger files, from a few of their starts, or from all in a long run. Where
/// none came with a file, the listing is the second implementation's.
#[test]
fn every_larger_file() {
    let mut both = Both::new(Lent::as_listing());
    let step = if is_long() { 1 } else { 5 };
    for file in larger_files() {
        println!("{}", file.name);
        let files = (&file.case[..], &file.start[..]);
        let second = || listed(&listing(&file.case, &file.start)).text;
        let printed = file.printed.clone().unwrap_or_else(second);
        check_listing(&mut both, files, step, &printed);
    }
}

/// All services; guide, brackets and replay from each of the first numbers, and
/// from a number that no file has.
fn every_service(both: &mut Both, case: &[u8], start: &[u8]) {
    both.saturate(case);
    both.judge(case, start);
    for number in [0, 1, 2, 64, u64::MAX] {
        both.guide(case, start, number);
        both.brackets(case, start, number);
        for trace in [
            &[][..],
            &[0],
            &[0, 0],
            &[1, 0],
            &[0, 0, 1, 0],
            &[0, 0, 2, 0],
        ] {
            both.replay(case, start, number, trace);
        }
    }
}

/// Missing files, as files of length 0, and files that are exchanged.
#[test]
fn empty_and_exchanged_files() {
    let mut both = Both::new(Lent::as_listing());
    for (case, start) in [(&[][..], &[][..]), (&[], &START_A), (&CASE_A, &[])] {
        every_service(&mut both, case, start);
    }
    every_service(&mut both, &START_A, &CASE_A);
}

#[test]
fn models() {
    let models: [(&[u8], &[u8]); 6] = [
        (&CASE_A, &START_A),
        (&CASE_B, &START_B),
        (&CASE_B_FINISHED, &START_B),
        (&CASE_B_FINISHED, &START_B_LONE),
        (&CASE_C, &START_C_ONE),
        (&CASE_C, &START_C_TWO),
    ];
    for (case, start) in models {
        every_service(&mut Both::new(Lent::as_listing()), case, start);
        for moves in 0..5 {
            every_service(&mut Both::new(Lent::new(moves, 64, 512, 1024)), case, start);
        }
    }
}

// ---- at the limits

/// "64 starts pass, 65 give 5; 256 rules pass, 257 give 1; a cell naming itself
/// gives 6."
#[test]
fn at_the_edges() {
    let mut both = Both::new(Lent::as_listing());
    assert_eq!(both.judge(&CASE_A, &start_a_with_starts(64)), 0);
    assert_eq!(both.judge(&CASE_A, &start_a_with_starts(65)), 5);
    assert_eq!(both.saturate(&case_a_with_rules(256)), (0, 3, 3));
    assert_eq!(both.saturate(&case_a_with_rules(257)), (1, 0, 0));
    for (at, own_number) in [(52, 4), (58, 5), (60, 5)] {
        let naming_itself = changed(&START_A, at, own_number);
        assert_eq!(both.judge(&CASE_A, &naming_itself), 6);
    }
}

/// Replay with 256 rules, the last of them number 255, and with 255; from the
/// last of 64 starts, and from the one after it.
#[test]
fn replay_at_the_edges() {
    let mut both = Both::new(Lent::as_listing());
    let mut replay = |rules: usize, number: u64, trace: &[u16]| {
        let (case, start) = (case_a_with_rules(rules), start_a_with_starts(64));
        both.replay(&case, &start, number, &recorded(trace))
    };
    assert_eq!(replay(256, 0, &[0, 255]), Accepted);
    assert_eq!(replay(256, 0, &[0, 256]), Fails { step: 1 });
    assert_eq!(replay(255, 0, &[0, 255]), Fails { step: 1 });
    assert_eq!(replay(256, 63, &[0, 1]), Accepted);
    assert_eq!(replay(256, 64, &[0, 1]), Refused(7));
}

/// P, I, J and A from 0 to past their bounds.
#[test]
fn every_head() {
    let mut both = Both::new(Lent::as_listing());
    for at in 33..37 {
        for value in 0..=40 {
            every_service(&mut both, &changed(&CASE_A, at, value), &START_A);
        }
    }
}

/// A case of 8 controls without rules, for `change` to fill.
fn wide_case(change: impl Fn(&mut Case)) -> Vec<u8> {
    let mut case = Case::without_records(8, 8, 16, 32);
    change(&mut case);
    encode_case(&case)
}

/// The first `count` moves of states 0 to 15 on symbols 0 to 31, with the given
/// rest sets.
fn many_moves(count: usize) -> Vec<Move> {
    let plain = |number: usize| Move {
        state: (number / 64) as u8,
        symbol: (number / 2 % 32) as u8,
        order: 0,
        note: 0,
        rest: (number % 2) as u64,
    };
    (0..count).map(plain).collect()
}

fn pop_two(from: u8, symbol: u8, to: u8) -> Rule {
    Rule {
        from,
        symbol,
        code: 6,
        put: 0,
        to,
    }
}

/// 1,024 own moves pass and leave no room for a result; 1,025 give 1.
#[test]
fn moves_at_their_limit() {
    let mut both = Both::new(Lent::new(2000, 200, 512, 10));
    let full = wide_case(|case| case.moves = many_moves(1024));
    assert_eq!(both.saturate(&full), (0, 1024, 0));
    let with_results = |own: usize| {
        wide_case(|case| {
            case.moves = many_moves(own);
            case.rules = vec![pop_two(0, 0, 1)];
        })
    };
    assert_eq!(both.saturate(&with_results(1023)), (0, 1024, 1));
    assert_eq!(both.saturate(&with_results(1024)), (9, 0, 0));
    let more = wide_case(|case| case.moves = many_moves(1025));
    assert_eq!(both.saturate(&more), (1, 0, 0));
}

/// Order-1 states up to 64 and one more, of the file or by rounds: 8 controls
/// have 64 entries [p,{p'}].
#[test]
fn entries_at_their_limit() {
    let mut both = Both::new(Lent::new(2000, 200, 512, 10));
    let by_rounds = |inner: u8, extra: &[Rule]| {
        wide_case(|case| {
            case.inner_one = inner;
            case.rules = (0..64).map(|n| pop_two(n / 8, 0, n % 8)).collect();
            case.rules.extend(extra);
        })
    };
    let collapse = Rule {
        code: 8,
        ..pop_two(0, 0, 0)
    };
    assert_eq!(both.saturate(&by_rounds(0, &[])), (0, 64, 64));
    assert_eq!(both.saturate(&by_rounds(0, &[collapse])), (9, 0, 0));
    assert_eq!(both.saturate(&by_rounds(1, &[])), (9, 0, 0));
    let own = |count: u64, inner: u8| {
        wide_case(|case| {
            case.inner_one = inner;
            let entry = |n: u64| FileEntry::plain((n / 32) as u8, (n % 32) << 8);
            case.entries = (0..count).map(entry).collect();
        })
    };
    assert_eq!(both.saturate(&own(64, 0)), (0, 0, 64));
    assert_eq!(both.saturate(&own(64, 1)), (3, 0, 0));
    assert_eq!(both.saturate(&own(48, 16)), (0, 0, 48));
    assert_eq!(both.saturate(&own(49, 16)), (3, 0, 0));
    assert_eq!(both.saturate(&own(65, 0)), (1, 0, 0));
}

/// 256 cells pass, 257 give 5.
#[test]
fn cells_at_their_limit() {
    let mut both = Both::new(Lent::as_listing());
    let start = |count: usize| {
        let mut cells = vec![Cell::EmptyOne, Cell::EmptyTwo];
        while cells.len() < count {
            let below = cells.len() as u16 - 1;
            let top = if below % 2 == 1 { below - 1 } else { below };
            cells.push(match below % 2 {
                1 => Cell::Symbol {
                    name: (below / 2 % 2) as u8,
                    note: below,
                    rest: top,
                },
                _ => Cell::Pair {
                    top,
                    rest: below - 1,
                },
            });
        }
        let roots = (0..count as u16).filter(|root| root % 2 == 1);
        let starts = roots.rev().take(64).map(|root| Start {
            control: (root / 2 % 2) as u8,
            root,
        });
        encode_start(&StartFile {
            starts: starts.collect(),
            cells,
        })
    };
    for case in [&CASE_A[..], &CASE_B, &CASE_C] {
        let refusal = both.judge(case, &start(256));
        assert!(matches!(refusal, 0 | 6));
        for number in 0..64 {
            both.guide(case, &start(256), number);
            both.brackets(case, &start(256), number);
            for cells in 255..258 {
                both.lend_to_replay(cells);
                both.replay(case, &start(256), number, &[0, 0, 1, 0]);
            }
        }
        assert_eq!(both.judge(case, &start(257)), 5);
    }
}
