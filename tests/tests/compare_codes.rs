//! Suppliers' own operation codes (document 02, §5) in the proved library: coded
//! cases beside their rewritings, and against the second implementation.
//! `compare_damage.rs` has changed bytes of coded cases, `compare_files.rs` the
//! examples that came with document 02.

use second::callers::PROVED;
use second::coded::{RECORDS, coded, coded_pairs, record};
use second::compare::Both;
use second::damage::{changed, cuts, longer};
use second::damage_codes::{KINDS, changed_codes};
use second::data::larger_files;
use second::encode::encode_case;
use second::file::Case;
use second::generate::{Pair, pair};
use second::kinds::Kinds;
use second::lent::Lent;
use second::models::{CASE_A, CASE_A_CODED, START_A, case_a_with_rules};
use second::pairs::{gathered_pairs, late_pairs, pairs};
use second::proved;
use second::random::{Random, seeds};
use second::replay::ReplayReply::{Accepted, Fails};
use second::rewriting::{
    check_damage, check_every_byte, check_every_code, check_every_symbol, check_pairs,
    check_vectors,
};
use second::services::GuideReply::NoRun;
use second::services::{LISTING_ENTRIES, LISTING_MOVES, listing};
use second::shapes::WIDE;
use second::sound::{a_move, edge, rule};
use second::traces::{recorded, wander};

// ---- beside their rewritings

#[test]
fn generated_pairs_rewritten() {
    check_pairs(PROVED);
}

#[test]
fn vectors_rewritten() {
    check_vectors(PROVED);
}

#[test]
fn larger_files_rewritten() {
    let mut random = Random::new(55);
    for file in larger_files() {
        let plain = proved::listing(&file.case, &file.start);
        let case = coded(&file.case, &record(&mut random));
        assert_eq!(proved::listing(&case, &file.start), plain, "{}", file.name);
    }
}

#[test]
fn every_code() {
    check_every_code(PROVED);
}

#[test]
fn every_byte_as_a_code() {
    check_every_byte(PROVED);
}

#[test]
fn every_small_symbol() {
    check_every_symbol(PROVED);
}

#[test]
fn damage_and_its_refusals() {
    check_damage(PROVED);
}

// ---- against the second implementation

fn ample() -> Both {
    Both::new(Lent::new(LISTING_MOVES, LISTING_ENTRIES, 1024, 2048))
}

/// All services, guide, brackets and replay from every start, replay of what the
/// guide wrote and of rules chosen at random. The replays that are accepted are counted.
fn compare(both: &mut Both, random: &mut Random, pair: &Pair) -> usize {
    let (case, start) = (&pair.case_file, &pair.start_file);
    both.saturate(case);
    both.judge(case, start);
    let mut accepted = 0;
    for number in 0..pair.start.starts.len() {
        both.brackets(case, start, number as u64);
        let reply = both.guide(case, start, number as u64);
        let guided = both.lent.trace[..reply.steps()].to_vec();
        for trace in [guided, wander(random, pair, number, 8).trace] {
            let reply = both.replay(case, start, number as u64, &recorded(&trace));
            accepted += usize::from(reply == Accepted && !trace.is_empty());
        }
    }
    accepted
}

#[test]
fn generated_pairs() {
    let (mut both, mut random) = (ample(), Random::new(56));
    let accepted: usize = coded_pairs(pairs(50).chain(gathered_pairs(50)))
        .map(|(_, pair)| compare(&mut both, &mut random, &pair))
        .sum();
    println!("{accepted} replays with steps accepted");
    assert!(accepted >= 200);
}

/// Files near the limits, and judge and the listing on starts won in many rounds.
#[test]
fn wide_and_late_files() {
    let (mut both, mut random) = (ample(), Random::new(57));
    for seed in seeds(15) {
        let pair = pair(seed, &WIDE).with_codes(&record(&mut random));
        both.saturate(&pair.case_file);
        both.judge(&pair.case_file, &pair.start_file);
        both.guide(&pair.case_file, &pair.start_file, 0);
    }
    for (name, pair) in coded_pairs(late_pairs()).step_by(7) {
        both.judge(&pair.case_file, &pair.start_file);
        let printed = proved::listing(&pair.case_file, &pair.start_file);
        let second = listing(&pair.case_file, &pair.start_file);
        assert_eq!(printed, second, "{name}");
    }
}

/// Memory of lengths that have nothing to do with what the files need.
#[test]
fn any_lengths() {
    let mut random = Random::new(58);
    for (_, pair) in coded_pairs(pairs(30)) {
        let mut lent = Lent::new(0, 0, 0, 0);
        let most_moves = random.pick(&[20, 200, 6000]);
        lent.moves.resize(random.between(0, most_moves), 0);
        lent.entries.resize(random.between(0, 40), 0);
        lent.answers.resize(random.between(0, 6), 0);
        lent.cells.resize(random.between(0, 4000), 0);
        lent.trace.resize(random.between(0, 8), 0);
        lent.replay_cells.resize(random.between(0, 480), 0);
        lent.text.resize(random.between(0, 200), 0);
        compare(&mut Both::new(lent), &mut random, &pair);
    }
}

/// Each change to a record, its place or a rule's code, with the start file and
/// with one that is cut short.
#[test]
fn changed_codes_of_cases() {
    let mut both = Both::new(Lent::new(200, 64, 64, 20));
    let mut random = Random::new(59);
    let (mut kinds, mut refusals) = (Kinds::default(), Kinds::default());
    for (_, pair) in pairs(6).filter(|(_, pair)| pair.case_file.len() < 500) {
        for (kind, case) in changed_codes(&pair.case, &record(&mut random)) {
            let short = &pair.start_file[..pair.start_file.len() - 1];
            for start in [&pair.start_file[..], short] {
                both.judge(&case, start);
                both.guide(&case, start, 0);
                both.replay(&case, start, 0, &[0, 0]);
                both.brackets(&case, start, 0);
            }
            refusals.count([both.saturate(&case).0]);
            kinds.count([kind]);
        }
    }
    println!("{kinds:?} {refusals:?}");
    assert!(kinds.rarest(KINDS) >= 20, "{kinds:?}");
    // 0, 1, 2, 12, 3, 4 and 9.
    assert!(refusals.rarest(7) >= 5, "{refusals:?}");
}

/// Model A in a supplier's codes: cut at every length, every byte changed to every
/// value, and with as many rules as there may be.
#[test]
fn model_a() {
    let mut both = Both::new(Lent::new(20, 20, 20, 20));
    let every_byte = (0..CASE_A_CODED.len())
        .flat_map(|at| (0..=255).map(move |value| changed(&CASE_A_CODED, at, value)));
    let mut answers = Kinds::default();
    for case in cuts(&CASE_A_CODED).chain(every_byte) {
        answers.count([both.saturate(&case).0]);
        both.judge(&case, &START_A);
        both.guide(&case, &START_A, 0);
        both.replay(&case, &START_A, 0, &[0, 0, 1, 0]);
        both.brackets(&case, &START_A, 0);
    }
    println!("{answers:?}");
    // 0, 1, 2, 12 and 3: with one edge and one move there is no 4.
    assert!(answers.rarest(5) >= 50, "{answers:?}");
    for record in RECORDS {
        for rules in [255, 256, 257] {
            let case = coded(&case_a_with_rules(rules), &record);
            let expected = if rules < 257 { (0, 3, 3) } else { (1, 0, 0) };
            assert_eq!(both.saturate(&case), expected);
        }
    }
    let printed = proved::listing(&CASE_A_CODED, &START_A);
    assert_eq!(printed, proved::listing(&CASE_A, &START_A));
}

/// The longest file that is sound: 256 rules that give no result, 64 edges, 1,024
/// moves and a record.
#[test]
fn the_longest_file() {
    let case = Case {
        rules: vec![rule(0, 0, 1, 0, 0); 256],
        edges: (0..64).map(|n| edge(8 + n / 8, n % 8, 0)).collect(),
        moves: (0..1024)
            .map(|n| a_move((n / 64) as u8, (n / 2 % 32) as u8, 0, 0, n % 2))
            .collect(),
        ..Case::without_records(8, 8, 16, 32)
    };
    let file = coded(&encode_case(&case), &RECORDS[3]);
    assert_eq!(file.len(), 21_055);
    let mut both = Both::new(Lent::as_listing());
    assert_eq!(both.saturate(&file), (0, 1024, 0));
    assert_eq!(both.judge(&file, &START_A), 0);
    assert_eq!(both.guide(&file, &START_A, 0), NoRun);
    let reply = both.replay(&file, &START_A, 0, &[255, 0]);
    assert_eq!(reply, Fails { step: 1 });
    assert_eq!(both.brackets(&file, &START_A, 1), (0, 11));
    assert_eq!(both.saturate(&longer(&file, 1)), (1, 0, 0));
    assert_eq!(both.saturate(&file[..21_054]), (1, 0, 0));
}
