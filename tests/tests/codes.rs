//! Suppliers' own operation codes (document 02, §5) in the second implementation:
//! model A and single rules by hand, refusals in their order, and coded cases
//! beside their rewritings.

use second::callers::SECOND;
use second::coded::{RECORDS, coded, record, rewritten};
use second::damage::changed;
use second::encode::encode_case;
use second::file::decode_case;
use second::lent::{Lent, replayed};
use second::models::{CASE_A, CASE_A_CODED, START_A, case_a_with_rules};
use second::pairs::pairs;
use second::random::Random;
use second::replay::ReplayReply::Accepted;
use second::rewriting::{
    check_damage, check_every_byte, check_every_code, check_every_symbol, check_pairs,
    check_vectors,
};
use second::services::GuideReply::Arrived;
use second::services::listing;
use second::sound::rule;

/// Bytes of model A's coded file: the first field, the first rule, the first byte
/// of the record, and the first rule's code and b.
const FIELDS: usize = 41;
const RULE: usize = 55;
const RECORD: usize = 88;
const CODE: usize = RULE + 2;
const PUT: usize = RULE + 3;

/// All services refuse the case, with model A's start file and with a wrong one,
/// and leave zeros.
fn assert_refused(case: &[u8], refusal: u64) {
    for start in [&START_A[..], &START_A[..61]] {
        let traces = [vec![], vec![0, 0, 1, 0], vec![9]];
        let answers = SECOND.answers(&Lent::as_listing(), (case, start), 0, &traces);
        assert!(answers.are_refusal(refusal), "{}", answers.in_short());
    }
}

// ---- by hand

/// Model A in a supplier's codes is model A.
#[test]
fn model_a() {
    assert_eq!(decode_case(&CASE_A_CODED), decode_case(&CASE_A));
    assert_eq!(rewritten(&CASE_A_CODED), CASE_A);
    assert_eq!(listing(&CASE_A_CODED, &START_A), listing(&CASE_A, &START_A));
    let mut lent = Lent::as_listing();
    assert_eq!(lent.saturate(&CASE_A_CODED), (0, 3, 3));
    let reply = lent.guide(&CASE_A_CODED, &START_A, 0);
    assert_eq!(reply, Arrived { steps: 2, cells: 9 });
    assert_eq!(lent.trace[..2], [0, 1]);
    let files = (&CASE_A_CODED[..], &START_A[..]);
    assert_eq!(replayed(files, 0, &[0, 1], 9), Accepted);
}

/// With the record 5, 1, 2, 3, 4, 6, 7, 8 the bytes (0,0,5,1,1) are a rewrite to
/// symbol 1, and (0,1,6,0,1) a pop of order 2 as with ours.
#[test]
fn a_rewrite_by_another_code() {
    let mut case = CASE_A_CODED;
    case[RULE..RULE + 10].copy_from_slice(&[0, 0, 5, 1, 1, 0, 1, 6, 0, 1]);
    case[RECORD..].copy_from_slice(&[5, 1, 2, 3, 4, 6, 7, 8]);
    let rules = decode_case(&case).expect("a sound case").rules;
    assert_eq!(rules, [rule(0, 0, 1, 1, 1), rule(0, 1, 6, 0, 1)]);
    // By our codes the same bytes are a pop 1 with a b that is not 0.
    case[RECORD..].copy_from_slice(&[1, 2, 3, 4, 5, 6, 7, 8]);
    assert_refused(&case, 3);
}

/// b by our operation: the code 3 for pop 1, and 200 for a rewrite.
#[test]
fn the_symbol_of_a_rule() {
    let mut case = CASE_A_CODED;
    case[RECORD..].copy_from_slice(&[200, 10, 30, 40, 3, 60, 70, 80]);
    case[CODE] = 3;
    case[PUT] = 0;
    assert!(decode_case(&case).is_ok());
    case[PUT] = 1;
    assert_refused(&case, 3);
    case[CODE] = 200;
    assert!(decode_case(&case).is_ok());
    case[PUT] = 2;
    assert_refused(&case, 3);
}

/// "A code not in the record is refusal 3", our own codes as well.
#[test]
fn codes_that_are_not_in_the_record() {
    for code in (0..=255).filter(|code| code % 10 != 0 || !(10..=80).contains(code)) {
        assert_refused(&changed(&CASE_A_CODED, CODE, code), 3);
    }
}

/// "12: the eight bytes are not all different, or one is zero", after 2 and before
/// 3 and the start file's refusals.
#[test]
fn refusals_in_their_order() {
    let record = |at: usize, code: u8| changed(&CASE_A_CODED, RECORD + at, code);
    for wrong in [record(7, 20), record(1, 20), record(0, 0), record(7, 0)] {
        assert_refused(&wrong, 12);
        // No control; a code that is not in the record; a wrong length.
        assert_refused(&changed(&wrong, FIELDS, 0), 2);
        assert_refused(&changed(&wrong, CODE, 3), 12);
        assert_refused(&changed(&wrong, RULE, 2), 12);
        assert_refused(&wrong[..95], 1);
    }
    let all_zero = [&CASE_A_CODED[..RECORD], &[0; 8]].concat();
    assert_refused(&all_zero, 12);
    assert_refused(&changed(&CASE_A_CODED, FIELDS, 0), 2);
    // Two edges in a wrong order, alone and with each of the others.
    let mut case = decode_case(&CASE_A).expect("a sound case");
    case.entries.push(case.entries[0]);
    let doubled = coded(&encode_case(&case), &RECORDS[3]);
    assert_refused(&doubled, 4);
    assert_refused(&changed(&doubled, CODE, 3), 3);
    assert_refused(&changed(&doubled, doubled.len() - 1, 0), 12);
}

/// Contents and length: "one record of 8 bytes", "the first body starts at byte
/// 41", kinds in order, the record last.
#[test]
fn contents_of_a_coded_case() {
    for length in 0..96 {
        assert_refused(&CASE_A_CODED[..length], 1);
    }
    assert_refused(&[&CASE_A_CODED[..], &[9]].concat(), 1);
    // Every other number of the contents table, and every other first byte.
    for (at, &byte) in CASE_A_CODED[..41].iter().enumerate() {
        for value in (0..=255).filter(|&value| value != byte) {
            let refusal = decode_case(&changed(&CASE_A_CODED, at, value));
            assert_eq!(refusal, Err(1), "byte {at} is {value}");
        }
    }
    assert_refused(&changed(&CASE_A_CODED, 0, 4), 1);
    // Four lines, from byte 33 on, with a record behind them and without.
    let four = changed(&CASE_A, 0, 5);
    assert_refused(&four, 1);
    assert_refused(&[&four[..], &CASE_A_CODED[RECORD..]].concat(), 1);
}

/// 256 rules pass, 257 give 1.
#[test]
fn rules_at_their_limit() {
    let mut lent = Lent::as_listing();
    for record in RECORDS {
        let case = coded(&case_a_with_rules(256), &record);
        assert_eq!(lent.saturate(&case), (0, 3, 3));
        let case = coded(&case_a_with_rules(257), &record);
        assert_eq!(lent.saturate(&case), (1, 0, 0));
    }
}

// ---- coded cases beside their rewritings

/// The rewriting of a coded case is the case that it was made of, which is also
/// the file of what it is read as.
#[test]
fn rewritings() {
    let mut random = Random::new(54);
    for (name, pair) in pairs(50) {
        let case = coded(&pair.case_file, &record(&mut random));
        assert_eq!(rewritten(&case), pair.case_file, "{name}");
        assert_eq!(decode_case(&case).as_ref(), Ok(&pair.case), "{name}");
    }
}

#[test]
fn generated_pairs() {
    check_pairs(SECOND);
}

#[test]
fn vectors() {
    check_vectors(SECOND);
}

#[test]
fn every_code() {
    check_every_code(SECOND);
}

#[test]
fn every_byte_as_a_code() {
    check_every_byte(SECOND);
}

#[test]
fn every_small_symbol() {
    check_every_symbol(SECOND);
}

#[test]
fn damage() {
    check_damage(SECOND);
}
