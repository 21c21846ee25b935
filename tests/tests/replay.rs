//! Replay (document 02, §2) by hand: its sentences on the worked models, its
//! refusals in their order, and stacks as deep as the cells allow.

use second::deep::{
    DEEP_CELLS, MOST_PUSHES, MOST_ROUNDS, deep_case, deep_start, pushes, up, up_and_down,
};
use second::encode::{encode_case, encode_start};
use second::file::{Case, Rule, decode_case};
use second::lent::{Lent, replayed, replayed_bytes};
use second::models::{
    CASE_A, CASE_B, CASE_C, START_A, START_B, START_C_ONE, START_C_TWO, case_a_with_rules,
};
use second::replay::ReplayReply::{self, Accepted, Fails, Refused};
use second::services::GuideReply::{self, Arrived};
use second::services::MOST_CELLS;
use second::start_file::decode_start;

const A: (&[u8], &[u8]) = (&CASE_A, &START_A);

fn fails(step: u64) -> ReplayReply {
    Fails { step }
}

// ---- worked models

/// "Yes, by rules 0, 1", with the six cells of the file and three of the push.
#[test]
fn model_a_from_its_first_start() {
    assert_eq!(replayed(A, 0, &[0, 1], 9), Accepted);
    assert_eq!(replayed(A, 0, &[0, 1], 5000), Accepted);
    assert_eq!(replayed(A, 0, &[0, 1], 8), Refused(11));
    assert_eq!(replayed(A, 0, &[0, 1], 5), Refused(11));
    // "The trace's length in rule numbers if only the arrival is missing."
    assert_eq!(replayed(A, 0, &[0], 9), fails(1));
    // The saturated table accepts this start; the target is the case's own.
    assert_eq!(replayed(A, 0, &[], 9), fails(0));
}

/// "The first step that fails, counted from 0": a number that no rule has, and
/// rules whose symbol, or control, is another.
#[test]
fn model_a_fails() {
    assert_eq!(replayed(A, 0, &[1, 99], 9), fails(0));
    assert_eq!(replayed(A, 0, &[0, 2], 9), fails(1));
    assert_eq!(replayed(A, 0, &[0, 0], 9), fails(1));
    assert_eq!(replayed(A, 0, &[0, 1, 1], 9), fails(2));
    for number in [2, 255, 256, 257, 65535] {
        assert_eq!(replayed(A, 0, &[number], 9), fails(0));
        assert_eq!(replayed(A, 0, &[0, 1, number], 9), fails(2));
    }
}

/// "At the step it has come to, if that does not fail": the step in hand decides,
/// whatever follows it.
#[test]
fn model_a_short_or_fails() {
    assert_eq!(replayed(A, 0, &[0, 99], 8), Refused(11));
    assert_eq!(replayed(A, 0, &[99, 0], 8), fails(0));
    // The push does not apply, and its three cells would not fit.
    assert_eq!(replayed(A, 1, &[0], 6), fails(0));
    // The start file is tested before the first step.
    assert_eq!(replayed(A, 0, &[99], 5), Refused(11));
    assert_eq!(replayed(A, 1, &[], 5), Refused(11));
}

/// "Yes, no step. No."
#[test]
fn model_a_from_its_other_starts() {
    assert_eq!(replayed(A, 1, &[], 6), Accepted);
    assert_eq!(replayed(A, 2, &[], 6), fails(0));
    // Its annotation has order 1, and the rule asks for order 2.
    assert_eq!(replayed(A, 2, &[1], 6), fails(0));
}

/// The low byte comes first, and bytes that make up no whole cell do not count.
#[test]
fn bytes_of_model_a() {
    assert_eq!(replayed_bytes(A, 0, &[0, 0, 1, 0], 54), Accepted);
    assert_eq!(replayed_bytes(A, 0, &[0, 0, 0, 1], 54), fails(1));
    for bytes in 48..54 {
        assert_eq!(replayed_bytes(A, 0, &[0, 0, 1, 0], bytes), Refused(11));
    }
    assert_eq!(replayed_bytes(A, 0, &[0, 0, 1, 0], 59), Accepted);
}

/// "Symbol 0 above 1: yes. Symbol 0 alone: no, its top is empty after the pop."
#[test]
fn model_b() {
    let files = (&CASE_B[..], &START_B[..]);
    assert_eq!(replayed(files, 0, &[0], 8), Accepted);
    assert_eq!(replayed(files, 0, &[0], 7), Refused(11));
    assert_eq!(replayed(files, 1, &[0], 8), fails(1));
    // No rule applies to an empty top order-1 stack.
    assert_eq!(replayed(files, 1, &[0, 0], 9), fails(1));
}

/// "[[0]]: yes, rules 0, 1, 8 cells. [[0],[0]]: yes, rule 1 alone." Other ways
/// copy more often.
#[test]
fn model_c() {
    let one = (&CASE_C[..], &START_C_ONE[..]);
    assert_eq!(replayed(one, 0, &[0, 1], 8), Accepted);
    assert_eq!(replayed(one, 0, &[0, 1], 7), Refused(11));
    assert_eq!(replayed(one, 0, &[0, 0, 0, 1], 16), Accepted);
    assert_eq!(replayed(one, 0, &[0, 0, 0, 1], 15), Refused(11));
    // The pop leaves an empty order-2 stack, to which no rule applies.
    assert_eq!(replayed(one, 0, &[1], 4), fails(1));
    assert_eq!(replayed(one, 0, &[1, 1], 4), fails(1));
    let two = (&CASE_C[..], &START_C_TWO[..]);
    assert_eq!(replayed(two, 0, &[1], 5), Accepted);
}

/// Model C with a rewrite from control 1 to 0: a run through the target and out
/// of it, which counts only where it ends in it again.
#[test]
fn past_the_target() {
    let mut case = decode_case(&CASE_C).expect("a sound case");
    case.rules.push(Rule {
        from: 1,
        symbol: 0,
        code: 1,
        put: 0,
        to: 0,
    });
    let file = encode_case(&case);
    let files = (&file[..], &START_C_ONE[..]);
    assert_eq!(replayed(files, 0, &[0, 0, 1], 18), Accepted);
    assert_eq!(replayed(files, 0, &[0, 0, 1, 2], 18), fails(4));
    assert_eq!(replayed(files, 0, &[0, 0, 1, 2, 1], 18), Accepted);
    assert_eq!(replayed(files, 0, &[0, 0, 1, 2, 1], 13), Refused(11));
}

/// 256 rules: 255 is the last number.
#[test]
fn the_last_rule() {
    let case = case_a_with_rules(256);
    let files = (&case[..], &START_A[..]);
    assert_eq!(replayed(files, 0, &[0, 255], 9), Accepted);
    assert_eq!(replayed(files, 0, &[0, 256], 9), fails(1));
    let case = case_a_with_rules(255);
    assert_eq!(replayed((&case, &START_A), 0, &[0, 255], 9), fails(1));
}

// ---- refusals

/// Model A's case, changed to be refused with 1, 2, 3 and 4.
fn refused_cases() -> [Vec<u8>; 4] {
    let mut cases = [(); 4].map(|_| CASE_A.to_vec());
    cases[0].pop();
    // No control; a rule of control 2; the move twice.
    cases[1][33] = 0;
    cases[2][47] = 2;
    cases[3].extend_from_within(61..80);
    cases[3][27] = 2;
    cases
}

/// "10: the trace has an odd number of bytes, after 7. 11 .., for the start file":
/// each number where all that come later apply too.
#[test]
fn refusals_in_their_order() {
    let short_start = &START_A[..61];
    for (refusal, case) in (1..).zip(refused_cases()) {
        let reply = replayed_bytes((&case, short_start), 3, &[9], 1);
        assert_eq!(reply, Refused(refusal));
    }
    let reply = replayed_bytes((&CASE_A, short_start), 3, &[9], 1);
    assert_eq!(reply, Refused(5));
    let mut wrong_cell = START_A;
    wrong_cell[26] = 5;
    let reply = replayed_bytes((&CASE_A, &wrong_cell), 3, &[9], 1);
    assert_eq!(reply, Refused(6));
    for number in [3, 64, 1 << 32, u64::MAX] {
        assert_eq!(replayed_bytes(A, number, &[9], 1), Refused(7));
    }
    for bytes in [0, 1, 35, 5000] {
        assert_eq!(replayed_bytes(A, 2, &[9], bytes), Refused(10));
        assert_eq!(replayed_bytes(A, 0, &[0, 0, 1], bytes), Refused(10));
    }
    assert_eq!(replayed_bytes(A, 2, &[9, 9], 35), Refused(11));
    assert_eq!(replayed_bytes(A, 2, &[9, 9], 36), fails(0));
}

#[test]
fn empty_files() {
    assert_eq!(replayed_bytes((&[], &[]), 0, &[], 0), Refused(1));
    assert_eq!(replayed_bytes((&CASE_A, &[]), 0, &[], 0), Refused(5));
    assert_eq!(replayed_bytes(A, 0, &[], 0), Refused(11));
}

/// "Never 9": no table is saturated. With eight controls that pop to each other
/// the table has 65 entries; one pop leads into the target.
#[test]
fn never_9() {
    let mut case = Case::without_records(8, 0, 1, 1);
    let model = decode_case(&CASE_C).expect("a sound case");
    for from in 0..8 {
        case.rules.extend((0..8).map(|to| Rule {
            from,
            symbol: 0,
            code: 6,
            put: 0,
            to,
        }));
    }
    case.entries = model.entries;
    case.moves = model.moves;
    case.moves[0].state = 1;
    let case = encode_case(&case);
    let mut lent = Lent::as_listing();
    let refused = GuideReply::Refused(9);
    assert_eq!(lent.guide(&case, &START_C_TWO, 0), refused);
    assert_eq!(replayed((&case, &START_C_TWO), 0, &[1], 5), Accepted);
    assert_eq!(replayed((&case, &START_C_TWO), 0, &[2], 5), fails(1));
}

// ---- deep stacks

/// Copies and pushes of order 2 up to the last cell that counts, and down again
/// by collapses, which use no cell.
#[test]
fn deep_annotations() {
    let (case, start) = (deep_case(), deep_start());
    let files = (&case[..], &start[..]);
    let used = DEEP_CELLS + 7 * MOST_ROUNDS;
    let rounds = MOST_ROUNDS as u64;
    assert_eq!(replayed(files, 0, &up(MOST_ROUNDS), used), Accepted);
    assert_eq!(replayed(files, 0, &up(MOST_ROUNDS), used - 1), Refused(11));
    assert_eq!(replayed(files, 0, &up(MOST_ROUNDS + 1), 9999), Refused(11));
    assert_eq!(
        replayed(files, 1, &up(MOST_ROUNDS), used),
        fails(2 * rounds)
    );
    let down = |collapses| up_and_down(MOST_ROUNDS, collapses);
    assert_eq!(replayed(files, 0, &down(MOST_ROUNDS), used), Accepted);
    assert_eq!(replayed(files, 0, &down(9), used), fails(2 * rounds + 9));
    let length = 3 * rounds;
    assert_eq!(replayed(files, 1, &down(MOST_ROUNDS), used), fails(length));
    // The lowest symbol is annotated by a stack of order 1.
    assert_eq!(
        replayed(files, 0, &down(MOST_ROUNDS + 1), used),
        fails(length)
    );
}

/// Pushes of order 1 up to the last cell that counts.
#[test]
fn deep_order_one_stacks() {
    let (case, start) = (deep_case(), deep_start());
    let files = (&case[..], &start[..]);
    let used = DEEP_CELLS + 3 * MOST_PUSHES;
    assert_eq!(used, MOST_CELLS);
    assert_eq!(replayed(files, 0, &pushes(MOST_PUSHES), used), Accepted);
    assert_eq!(
        replayed(files, 0, &pushes(MOST_PUSHES), used - 1),
        Refused(11)
    );
    assert_eq!(
        replayed(files, 0, &pushes(MOST_PUSHES + 1), 9999),
        Refused(11)
    );
    let length = MOST_PUSHES as u64;
    assert_eq!(
        replayed(files, 1, &pushes(MOST_PUSHES), used),
        fails(length)
    );
}

/// The files of the deep runs are sound, and the guide finds a run of its own.
#[test]
fn files_of_the_deep_runs() {
    let case = decode_case(&deep_case()).expect("a sound case");
    let start = decode_start(&deep_start(), &case).expect("a sound start file");
    assert_eq!(encode_start(&start), deep_start());
    let reply = Lent::as_listing().guide(&deep_case(), &deep_start(), 0);
    assert!(matches!(reply, Arrived { steps: 1, .. }), "{reply:?}");
}
