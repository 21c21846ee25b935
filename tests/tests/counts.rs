//! How many moves an entry has (document 02, §7), in both implementations: an example
//! worked out by hand, large counts, generated files beside a walk through their
//! moves, entry tables of every length; and that generated files reach every kind.

use second::callers::{PROVED, SECOND, Services};
use second::counts::{KINDS, check_lengths, check_pair, kinds};
use second::data::one_start;
use second::encode::encode_case;
use second::file::{Case, FileEntry, Move};
use second::generate::Pair;
use second::kinds::Kinds;
use second::lent::Lent;
use second::models::{
    CASE_A, CASE_A_CODED, CASE_B, CASE_C, START_A, START_B, START_C_ONE, START_C_TWO,
};
use second::pairs::{gathered_pairs, late_pairs, pairs, sparse_pairs};
use second::saturation::saturate;
use second::services::LISTING_SIZE;
use second::sound::{a_move, rule};

/// The words of the first entries, and the listing with the start [[0]] from control
/// 0; the words after them must be zero.
fn said(services: Services, case: &Case, entries: usize) -> (Vec<u64>, String) {
    let file = encode_case(case);
    let mut lent = Lent::as_listing();
    lent.fill();
    let (code, _, found) = (services.saturate)(&file, &mut lent.moves, &mut lent.entries);
    assert_eq!((code, found), (0, entries as u64));
    let (words, after) = lent.entries.split_at(3 * entries);
    assert!(after.iter().all(|&word| word == 0));
    (words.to_vec(), (services.listing)(&file, &one_start()))
}

// ---- by hand

/// The file's entries are [0,empty] without moves, [1,empty] with two and [2,empty]
/// without; inner state 0 has four moves. Round 1 gives [0,empty] moves on 0 and 1 by
/// the rewrites, and finds [1,{1}] with two by the pops; round 2 gives [0,empty] one
/// on 2, by its own on 0, and finds [0,{1}] with one, by that of [1,{1}] on 1. The
/// repeated rule adds nothing.
fn example() -> Case {
    let mut case = Case::without_records(3, 0, 1, 3);
    case.rules = vec![
        rule(0, 0, 1, 0, 1),
        rule(0, 1, 1, 1, 1),
        rule(0, 2, 1, 0, 0),
        rule(1, 1, 6, 0, 1),
        rule(1, 2, 6, 0, 1),
        rule(0, 0, 1, 0, 1),
    ];
    case.entries = (0..3).map(|p| FileEntry::plain(p, 0)).collect();
    case.moves = vec![
        a_move(0, 0, 0, 0, 0),
        a_move(0, 1, 0, 0, 0),
        a_move(0, 2, 0, 0, 0),
        a_move(0, 2, 0, 0, 0b1),
        a_move(2, 0, 0, 0, 0),
        a_move(2, 1, 0, 0, 0),
    ];
    case
}

/// [[0]] from control 0 is won in round 1 by a rewrite: one step, two cells more than
/// the four of the file.
fn check_example(services: Services) {
    let entries = [[0, 0, 3], [1, 0, 2], [2, 0, 0], [1, 0b10, 2], [0, 0b10, 1]];
    let printed = "moves 12 entries 5\nmost 3\nstart 0 yes 1 1 6\n";
    let said = said(services, &example(), 5);
    assert_eq!(said, (entries.as_flattened().to_vec(), printed.to_string()));
}

#[test]
fn example_in_second() {
    check_example(SECOND);
}

#[test]
fn example_in_proved() {
    check_example(PROVED);
}

// ---- large counts

/// So many moves of an order-1 state, on 32 symbols, with sets of five inner states.
fn many_moves(state: u8, count: usize) -> impl Iterator<Item = Move> {
    (0..count).map(move |n| a_move(state, (n / 32) as u8, 0, 0, (n % 32) as u64))
}

/// Counts of one digit to four, of the file's first entry or of its second, beside
/// moves of an inner state.
fn check_large(services: Services) {
    for count in [0, 1, 9, 10, 99, 100, 511, 512, 999, 1000, 1023, 1024] {
        for (of_inner, of_first, of_second) in [
            (0, count, 1024 - count),
            (1024 - count, count, 0),
            (1024 - count, 0, count),
        ] {
            let mut case = Case::without_records(1, 1, 5, 32);
            case.entries = vec![FileEntry::plain(0, 0), FileEntry::plain(0, 0b10)];
            case.moves = many_moves(0, of_inner)
                .chain(many_moves(5, of_first))
                .chain(many_moves(6, of_second))
                .collect();
            let (words, printed) = said(services, &case, 2);
            assert_eq!(words, [0, 0, of_first as u64, 0, 0b10, of_second as u64]);
            let most = of_first.max(of_second);
            let first_lines = format!("moves 1024 entries 2\nmost {most}\nstart 0 ");
            assert!(printed.starts_with(&first_lines), "{printed}");
        }
    }
}

#[test]
fn large_counts_in_second() {
    check_large(SECOND);
}

#[test]
fn large_counts_in_proved() {
    check_large(PROVED);
}

// ---- generated files

/// The generated pairs on which counts are walked.
fn counted_pairs() -> impl Iterator<Item = (String, Pair)> {
    pairs(100)
        .chain(gathered_pairs(100))
        .chain(late_pairs())
        .chain(sparse_pairs(500))
}

#[test]
fn generated_files_in_second() {
    for (name, pair) in counted_pairs() {
        check_pair(SECOND, &pair, &name);
    }
}

#[test]
fn generated_files_in_proved() {
    for (name, pair) in counted_pairs() {
        check_pair(PROVED, &pair, &name);
    }
}

/// They have every kind of entry and of largest count.
#[test]
fn generated_files_reach_every_kind() {
    let mut reached = Kinds::default();
    for (_, pair) in counted_pairs() {
        if let Some(table) = saturate(&pair.case, LISTING_SIZE) {
            reached.count(kinds(&pair.case, &table));
        }
    }
    println!("{reached:?}");
    assert!(reached.rarest(KINDS) >= 20, "{reached:?}");
}

// ---- lent entry tables

/// Entry tables of every length, for the worked models and for small generated pairs.
fn check_every_length(services: Services) {
    let models: [(&[u8], &[u8]); 5] = [
        (&CASE_A, &START_A),
        (&CASE_A_CODED, &START_A),
        (&CASE_B, &START_B),
        (&CASE_C, &START_C_ONE),
        (&CASE_C, &START_C_TWO),
    ];
    for files in models {
        check_lengths(services, files, "a model").expect("a small table");
    }
    let mut checked = 0;
    for (name, pair) in pairs(6).chain(sparse_pairs(30)) {
        let files = (&pair.case_file[..], &pair.start_file[..]);
        checked += usize::from(check_lengths(services, files, &name).is_some());
    }
    println!("{checked} pairs with entry tables of every length");
    assert!(checked >= 60);
}

#[test]
fn every_length_in_second() {
    check_every_length(SECOND);
}

#[test]
fn every_length_in_proved() {
    check_every_length(PROVED);
}
