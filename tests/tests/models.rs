//! The worked models of document 01, with the rounds and counts of document 02, §1
//! and §7, and the sentence "At the edges".

use second::file::decode_case;
use second::lent::{Lent, words};
use second::models::{
    CASE_A, CASE_B, CASE_C, START_A, START_B, START_C_ONE, START_C_TWO, case_a_with_rules,
    start_a_with_starts,
};
use second::saturation::saturate;
use second::services::GuideReply::{Arrived, NoRun, Refused, TraceFull};
use second::services::{LISTING_ENTRIES, LISTING_MOVES, listing, listing_answer};
use second::table::Size;

/// The trace of a start that arrives with these cells; all else must be zero.
fn arrived_trace(case: &[u8], start: &[u8], number: u64, steps: usize, used: u64) -> Vec<u16> {
    let mut lent = Lent::as_listing();
    let arrived = Arrived {
        steps: steps as u64,
        cells: used,
    };
    assert_eq!(lent.guide(case, start, number), arrived);
    assert!(lent.tables_are_zero() && lent.cells_are_zero());
    assert!(lent.trace_is_zero_from(steps));
    lent.trace[..steps].to_vec()
}

/// The start has no run, and all lent memory is zero.
fn assert_no_run(case: &[u8], start: &[u8], number: u64) {
    let mut lent = Lent::as_listing();
    assert_eq!(lent.guide(case, start, number), NoRun);
    assert!(lent.tables_are_zero() && lent.cells_are_zero());
    assert!(lent.trace_is_zero_from(0));
}

/// "The table gains entry [0,empty] with (1, order 2 {1}, empty), then [0,{1}]
/// with (0, empty, empty), then ends." The entry of the file has number 0; each of
/// the three has one move.
#[test]
fn model_a_table() {
    let mut lent = Lent::as_listing();
    assert_eq!(lent.saturate(&CASE_A), (0, 3, 3));
    let entries = [[1, 0, 1], [0, 0, 1], [0, 0b10, 1]];
    assert_eq!(lent.entries[..9], *entries.as_flattened());
    let moves = [[0, 1, 0, 0, 0], [1, 1, 2, 0b10, 0], [2, 0, 0, 0, 0]];
    assert_eq!(lent.moves[..15], *moves.as_flattened());
    assert!(lent.entries[9..].iter().all(|&word| word == 0));
    assert!(lent.moves[15..].iter().all(|&word| word == 0));
}

/// The rounds of the same sentence.
#[test]
fn model_a_rounds() {
    let lent = Size {
        moves: LISTING_MOVES,
        entries: LISTING_ENTRIES,
    };
    let case = decode_case(&CASE_A).expect("a sound case");
    let table = saturate(&case, lent).expect("a table that fits");
    let sizes = [1, 2, 3].map(|n| Size {
        moves: n,
        entries: n,
    });
    assert_eq!(table.sizes(), sizes);
}

/// "Yes, by rules 0, 1. Yes, no step. No." The first is won by the move of round
/// 2, the second is in the target.
#[test]
fn model_a_starts() {
    assert_eq!(words(&CASE_A, &START_A, 3), [3, 1, 0]);
    assert_eq!(arrived_trace(&CASE_A, &START_A, 0, 2, 9), [0, 1]);
    assert_eq!(arrived_trace(&CASE_A, &START_A, 1, 0, 6), []);
    assert_no_run(&CASE_A, &START_A, 2);
}

/// Model A's table is larger than what is lent: 9, and all memory zero.
fn assert_too_large(mut lent: Lent) {
    assert_eq!(lent.saturate(&CASE_A), (9, 0, 0));
    assert!(lent.tables_are_zero());
    assert_eq!(lent.judge(&CASE_A, &START_A), 9);
    assert!(lent.tables_are_zero() && lent.answers_are_zero());
    assert_eq!(lent.guide(&CASE_A, &START_A, 0), Refused(9));
    assert!(lent.tables_are_zero() && lent.cells_are_zero());
    assert!(lent.trace_is_zero_from(0));
}

/// "With two moves lent: 9."
#[test]
fn model_a_with_two_moves_lent() {
    assert_too_large(Lent::new(2, 64, 512, 1024));
}

/// Eight words hold two entries of three words, and the table has three.
#[test]
fn model_a_with_eight_words_for_entries() {
    let mut lent = Lent::as_listing();
    lent.entries.truncate(8);
    assert_too_large(lent);
}

/// Nine words are enough; one or two more are no entry, and stay zero.
#[test]
fn model_a_with_enough_words_for_entries() {
    for words in 9..12 {
        let mut lent = Lent::as_listing();
        lent.entries.truncate(words);
        assert_eq!(lent.saturate(&CASE_A), (0, 3, 3));
        assert_eq!(lent.entries[..9], [1, 0, 1, 0, 0, 1, 0, 0b10, 1]);
        assert!(lent.entries[9..].iter().all(|&word| word == 0));
        assert_eq!(lent.judge(&CASE_A, &START_A), 0);
        assert_eq!(lent.answers[..3], [3, 1, 0]);
        let arrived = Arrived { steps: 2, cells: 9 };
        assert_eq!(lent.guide(&CASE_A, &START_A, 0), arrived);
    }
}

#[test]
fn model_a_listing() {
    let printed = "\
moves 3 entries 3
most 1
start 0 yes 2 2 9
start 1 yes 0 0 6
start 2 no
";
    assert_eq!(listing(&CASE_A, &START_A), printed);
}

/// A halt's word stands before the round, which stands "directly before the
/// steps". No walk of the vectors fills the trace.
#[test]
fn a_full_trace_in_the_listing() {
    let full = TraceFull { steps: 4, cells: 7 };
    assert_eq!(listing_answer(Some(3), full), "yes trace 3 4 7");
}

/// "Symbol 0 above 1: yes. Symbol 0 alone: no, its top is empty after the pop."
/// Round 1 has the pop's move.
#[test]
fn model_b() {
    assert_eq!(words(&CASE_B, &START_B, 2), [2, 0]);
    assert_eq!(arrived_trace(&CASE_B, &START_B, 0, 1, 8), [0]);
    assert_no_run(&CASE_B, &START_B, 1);
}

/// The target's entry has its move on symbol 1, and the pop gives [0,empty] one on
/// symbol 0.
#[test]
fn model_b_listing() {
    let printed = "\
moves 2 entries 2
most 1
start 0 yes 1 1 8
start 1 no
";
    assert_eq!(listing(&CASE_B, &START_B), printed);
}

/// "[[0]], a file of four cells: yes, rules 0, 1, 8 cells." Round 1 gives [0,{1}]
/// by the pop, round 2 [0,empty] by the copy.
#[test]
fn model_c_with_one_stack() {
    assert_eq!(words(&CASE_C, &START_C_ONE, 1), [3]);
    assert_eq!(arrived_trace(&CASE_C, &START_C_ONE, 0, 2, 8), [0, 1]);
}

/// "[[0],[0]]: yes, rule 1 alone." Its lower stack is in the target.
#[test]
fn model_c_with_two_stacks() {
    assert_eq!(words(&CASE_C, &START_C_TWO, 1), [2]);
    assert_eq!(arrived_trace(&CASE_C, &START_C_TWO, 0, 1, 5), [1]);
}

/// The entries [1,empty], [0,{1}] and [0,empty] have a move each: all read symbol 0
/// alone, and every set of theirs is empty.
#[test]
fn model_c_listings() {
    let table = "moves 3 entries 3\nmost 1\n";
    let printed = format!("{table}start 0 yes 2 2 8\n");
    assert_eq!(listing(&CASE_C, &START_C_ONE), printed);
    let printed = format!("{table}start 0 yes 1 1 5\n");
    assert_eq!(listing(&CASE_C, &START_C_TWO), printed);
}

/// "64 starts pass, 65 give 5; 256 rules pass, 257 give 1; a cell naming itself
/// gives 6."
#[test]
fn at_the_edges() {
    let mut lent = Lent::as_listing();
    assert_eq!(lent.judge(&CASE_A, &start_a_with_starts(64)), 0);
    assert_eq!(lent.answers[3..], [3; 61]);
    assert_eq!(lent.judge(&CASE_A, &start_a_with_starts(65)), 5);
    assert_eq!(lent.saturate(&case_a_with_rules(256)), (0, 3, 3));
    assert_eq!(lent.saturate(&case_a_with_rules(257)), (1, 0, 0));
    // The annotation of cell 4, then both fields of cell 5.
    for (at, own_number) in [(52, 4), (58, 5), (60, 5)] {
        let mut naming_itself = START_A;
        naming_itself[at] = own_number;
        assert_eq!(lent.judge(&CASE_A, &naming_itself), 6);
    }
}
