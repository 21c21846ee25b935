//! Damaged files: no panic, refusals in range, and all lent memory zero where a
//! file is refused.

use second::coded::{RECORDS, also_coded, coded, in_our_codes};
use second::damage::{
    bodies_swapped, changed, counts_off_by_one, cuts, lines_swapped, longer, offsets_off_by_one,
    values_near,
};
use second::damage_finals::{KINDS, changed_finals};
use second::encode::{encode_case, encode_start};
use second::file::decode_case;
use second::generate::{Pair, pair};
use second::kinds::Kinds;
use second::lent::Lent;
use second::random::seeds;
use second::replay::ReplayReply;
use second::services::GuideReply::{Arrived, NoRun, Refused};
use second::services::listing;
use second::shapes::SHAPES;
use second::start_file::decode_start;

/// The replies of the services: saturate, judge, and guide, replay and brackets for
/// start 0, where a reply that is no refusal counts as 0.
#[derive(Clone, Copy, Debug, PartialEq, Eq)]
struct Replies {
    saturate: u64,
    judge: u64,
    guide: u64,
    replay: u64,
    brackets: u64,
}

impl Replies {
    /// Those of the services that read both files.
    fn others(self) -> [u64; 4] {
        [self.judge, self.guide, self.replay, self.brackets]
    }
}

/// Runs the services; checks the range of refusals and the memory they leave.
fn run(lent: &mut Lent, case: &[u8], start: &[u8]) -> Replies {
    let (saturate, moves, entries) = lent.saturate(case);
    assert!(matches!(saturate, 0..=4 | 9 | 12), "saturate {saturate}");
    if saturate != 0 {
        assert!(lent.tables_are_zero());
        assert_eq!((moves, entries), (0, 0));
    }
    let judge = lent.judge(case, start);
    assert!(matches!(judge, 0..=6 | 9 | 12), "judge {judge}");
    assert!(lent.tables_are_zero());
    assert!(judge == 0 || lent.answers_are_zero());
    let reply = lent.guide(case, start, 0);
    assert!(lent.tables_are_zero() && lent.cells_are_zero());
    let guide = match reply {
        Refused(number) => {
            assert!(matches!(number, 1..=6 | 9 | 12), "guide {number}");
            assert!(lent.trace_is_zero_from(0));
            number
        }
        NoRun => {
            assert!(lent.trace_is_zero_from(0));
            0
        }
        Arrived { steps, .. } => {
            assert!(lent.trace_is_zero_from(steps as usize));
            0
        }
        _ => 0,
    };
    Replies {
        saturate,
        judge,
        guide,
        replay: run_replay(lent, case, start),
        brackets: run_brackets(lent, case, start),
    }
}

/// Prints start 0. A text that is too long counts as 0, for no file is at fault.
fn run_brackets(lent: &mut Lent, case: &[u8], start: &[u8]) -> u64 {
    let (code, length) = lent.brackets(case, start, 0);
    assert!(matches!(code, 0..=6 | 12 | 13), "brackets {code}");
    assert!(lent.text_is_zero_from(length));
    assert!(code == 0 || length == 0);
    if code == 13 { 0 } else { code }
}

/// Replays rules 0 and 1.
fn run_replay(lent: &mut Lent, case: &[u8], start: &[u8]) -> u64 {
    let reply = lent.replay(case, start, 0, &[0, 0, 1, 0]);
    assert!(lent.replay_cells_are_zero());
    match reply {
        ReplayReply::Refused(number) => {
            assert!(matches!(number, 1..=6 | 11 | 12), "replay {number}");
            number
        }
        _ => 0,
    }
}

/// All services that read the file answer the refusal.
fn assert_case_refused(lent: &mut Lent, case: &[u8], start: &[u8], refusal: u64) {
    let all = Replies {
        saturate: refusal,
        judge: refusal,
        guide: refusal,
        replay: refusal,
        brackets: refusal,
    };
    assert_eq!(run(lent, case, start), all);
    assert_eq!(listing(case, start), format!("refused {refusal}\n"));
}

fn assert_start_refused(lent: &mut Lent, case: &[u8], start: &[u8], refusal: u64) {
    let replies = run(lent, case, start);
    assert!(matches!(replies.saturate, 0 | 9));
    assert_eq!(replies.others(), [refusal; 4]);
    assert_eq!(listing(case, start), format!("refused {refusal}\n"));
}

/// Copies of a sound file whose contents table or length is wrong.
fn wrong_contents(file: &[u8]) -> Vec<Vec<u8>> {
    let mut copies: Vec<Vec<u8>> = cuts(file).collect();
    copies.extend(counts_off_by_one(file));
    copies.extend(offsets_off_by_one(file));
    copies.extend(lines_swapped(file));
    copies.push(longer(file, 0));
    copies.extend(
        (0..=255)
            .filter(|&byte| byte != file[0])
            .map(|byte| changed(file, 0, byte)),
    );
    copies
}

/// Small generated pairs whose tables fit, with and without a record of codes.
fn small_pairs(count: u64) -> Vec<Pair> {
    let seeds = seeds(count);
    let pairs = SHAPES
        .iter()
        .flat_map(|shape| seeds.clone().map(|seed| pair(seed, shape)));
    let mut lent = memory();
    let small = pairs
        .filter(|pair| pair.case_file.len() < 500 && pair.start_file.len() < 250)
        .filter(|pair| lent.saturate(&pair.case_file).0 == 0);
    also_coded(small).collect()
}

fn memory() -> Lent {
    Lent::new(200, 64, 64, 20)
}

/// "The case's first byte, contents table, a count or the length is wrong": 1,
/// the same of the start file: 5.
#[test]
fn wrong_contents_are_refused() {
    let mut lent = memory();
    for pair in small_pairs(6) {
        for copy in wrong_contents(&pair.case_file) {
            assert_case_refused(&mut lent, &copy, &pair.start_file, 1);
        }
        for copy in wrong_contents(&pair.start_file) {
            assert_start_refused(&mut lent, &pair.case_file, &copy, 5);
        }
    }
}

/// Both files wrong: "the lowest number that applies is returned".
#[test]
fn the_case_is_refused_before_the_start_file() {
    let mut lent = memory();
    for pair in small_pairs(2) {
        for copy in wrong_contents(&pair.case_file) {
            assert_case_refused(&mut lent, &copy, &pair.start_file[1..], 1);
        }
    }
}

/// A byte changed anywhere, to values near it and at the ends of the range. Coded
/// cases are refused with each number.
#[test]
fn every_byte_changed() {
    let mut lent = memory();
    let mut refusals = Kinds::default();
    for pair in small_pairs(4) {
        for at in 0..pair.case_file.len() {
            for value in values_near(pair.case_file[at]) {
                let copy = changed(&pair.case_file, at, value);
                let refusal = check_changed_case(&mut lent, &copy, &pair.start_file);
                refusals.count(refusal.filter(|_| pair.case_file[0] == 5));
            }
        }
        for at in 0..pair.start_file.len() {
            for value in values_near(pair.start_file[at]) {
                let copy = changed(&pair.start_file, at, value);
                check_changed_start(&mut lent, &pair, &copy);
            }
        }
    }
    println!("refusals of coded cases: {refusals:?}");
    assert!(refusals.rarest(5) >= 50, "{refusals:?}");
}

/// A changed file is refused, or in our codes it is the file of what it was read
/// as. The refusal is answered.
fn check_changed_case(lent: &mut Lent, copy: &[u8], start: &[u8]) -> Option<u64> {
    let replies = run(lent, copy, start);
    match decode_case(copy) {
        Ok(case) => {
            assert_eq!(encode_case(&case), in_our_codes(copy));
            assert!(matches!(replies.saturate, 0 | 9));
            assert!(matches!(replies.judge, 0 | 5 | 6 | 9));
            assert!(matches!(replies.replay, 0 | 5 | 6));
            assert_eq!(replies.brackets, replies.replay);
            None
        }
        Err(refusal) => {
            assert!(matches!(refusal, 1..=4 | 12));
            assert_eq!(
                (replies.saturate, replies.others()),
                (refusal, [refusal; 4])
            );
            Some(refusal)
        }
    }
}

fn check_changed_start(lent: &mut Lent, pair: &Pair, copy: &[u8]) {
    let replies = run(lent, &pair.case_file, copy);
    assert!(matches!(replies.saturate, 0 | 9));
    match decode_start(copy, &pair.case) {
        Ok(start) => {
            assert_eq!(encode_start(&start), copy);
            assert!(matches!(replies.judge, 0 | 9));
            assert_eq!((replies.replay, replies.brackets), (0, 0));
        }
        Err(refusal) => {
            assert!(matches!(refusal, 5 | 6));
            assert_eq!(replies.others(), [refusal; 4]);
        }
    }
}

/// Bodies that change places leave the contents table and the length sound.
#[test]
fn swapped_bodies() {
    let mut lent = memory();
    for pair in small_pairs(40) {
        for copy in bodies_swapped(&pair.case_file) {
            check_changed_case(&mut lent, &copy, &pair.start_file);
        }
        for copy in bodies_swapped(&pair.start_file) {
            check_changed_start(&mut lent, &pair, &copy);
        }
    }
}

/// Final sets, marks of entries, what sets name, and entries that stand twice
/// (document 02, §3): each change is refused as it must be, or passes.
#[test]
fn changed_finals_of_cases() {
    let mut lent = memory();
    let mut kinds = Kinds::default();
    for (pair, record) in small_pairs(20).iter().zip(RECORDS.iter().cycle()) {
        for (kind, copy) in changed_finals(&pair.case) {
            kinds.count([kind]);
            let is_coded = pair.case_file[0] == 5;
            let copy = if is_coded { coded(&copy, record) } else { copy };
            match kind.refusal() {
                Some(refusal) => assert_case_refused(&mut lent, &copy, &pair.start_file, refusal),
                None => {
                    let case = decode_case(&copy).expect("a sound case");
                    assert_ne!(case, pair.case);
                    assert_eq!(encode_case(&case), in_our_codes(&copy));
                    assert_eq!(run(&mut lent, &copy, &pair.start_file).judge, 0);
                }
            }
        }
    }
    println!("{kinds:?}");
    assert!(kinds.rarest(KINDS) >= 50, "{kinds:?}");
}

/// An empty file, which also stands for a missing one, and a file longer than
/// any sound one have a wrong length.
#[test]
fn empty_and_very_long_files() {
    let mut lent = memory();
    let pair = &small_pairs(1)[0];
    assert_case_refused(&mut lent, &[], &pair.start_file, 1);
    assert_start_refused(&mut lent, &pair.case_file, &[], 5);
    let long = |file: &[u8]| {
        let mut copy = file.to_vec();
        copy.resize(100_000, 0);
        copy
    };
    assert_case_refused(&mut lent, &long(&pair.case_file), &pair.start_file, 1);
    assert_start_refused(&mut lent, &pair.case_file, &long(&pair.start_file), 5);
}
