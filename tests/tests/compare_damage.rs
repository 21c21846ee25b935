//! The proved library against the second implementation on damaged files.

use std::collections::BTreeMap;

use second::coded::{RECORDS, also_coded, coded};
use second::compare::Both;
use second::damage::{changed, misplaced, values_near};
use second::damage_finals::{KINDS, changed_finals};
use second::generate::{Pair, pair};
use second::kinds::Kinds;
use second::lent::Lent;
use second::random::{Random, seeds};
use second::replay::ReplayReply::{Accepted, Fails, Refused};
use second::shapes::SHAPES;
use second::traces::{recorded, wander};

/// Small generated pairs, with and without a record of codes.
fn small_pairs(count: u64) -> Vec<Pair> {
    let seeds = seeds(count);
    let pairs = SHAPES
        .iter()
        .flat_map(|shape| seeds.clone().map(|seed| pair(seed, shape)));
    let small = pairs.filter(|pair| pair.case_file.len() < 500 && pair.start_file.len() < 250);
    also_coded(small).collect()
}

/// Both implementations on copies of files, with a trace for replay.
struct Calls {
    both: Both,
    trace: Vec<u8>,
    /// How often replay gave each answer: a refusal's number, 0 for accepted,
    /// 260 for fails.
    replayed: BTreeMap<u64, usize>,
    /// How often brackets gave each answer.
    printed: BTreeMap<u64, usize>,
    /// How often saturate gave each answer to copies of coded cases.
    coded: BTreeMap<u64, usize>,
}

impl Calls {
    fn new() -> Calls {
        let mut lent = Lent::new(200, 64, 64, 20);
        lent.text.resize(30, 0);
        Calls {
            both: Both::new(lent),
            trace: Vec::new(),
            replayed: BTreeMap::new(),
            printed: BTreeMap::new(),
            coded: BTreeMap::new(),
        }
    }

    /// Takes for replay a run of a few steps, if possible one into the target,
    /// from the first start of the sound files.
    fn take_trace(&mut self, pair: &Pair) {
        let run = wander(&mut Random::new(1), pair, 0, 6);
        let steps = run.arrivals.last().copied().unwrap_or(run.trace.len());
        self.trace = recorded(&run.trace[..steps]);
    }

    /// The services on a case file that may be damaged.
    fn on_case(&mut self, case: &[u8], start: &[u8]) {
        let (answer, ..) = self.both.saturate(case);
        if case.first() == Some(&5) {
            *self.coded.entry(answer).or_default() += 1;
        }
        self.both.judge(case, start);
        self.both.guide(case, start, 0);
        self.replay(case, start, 0);
        self.brackets(case, start, 0);
    }

    /// The same on a start file.
    fn on_start(&mut self, case: &[u8], start: &[u8]) {
        self.both.judge(case, start);
        self.both.guide(case, start, 0);
        self.both.guide(case, start, 3);
        self.replay(case, start, 0);
        self.replay(case, start, 3);
        self.brackets(case, start, 0);
        self.brackets(case, start, 3);
    }

    fn replay(&mut self, case: &[u8], start: &[u8], number: u64) {
        let answer = match self.both.replay(case, start, number, &self.trace) {
            Accepted => 0,
            Fails { .. } => 260,
            Refused(number) => number,
        };
        *self.replayed.entry(answer).or_default() += 1;
    }

    fn brackets(&mut self, case: &[u8], start: &[u8], number: u64) {
        let (answer, _) = self.both.brackets(case, start, number);
        *self.printed.entry(answer).or_default() += 1;
    }

    /// Each of these answers of brackets has occurred.
    fn assert_printed(&self, answers: &[u64]) {
        println!("answers of brackets: {:?}", self.printed);
        let often = |answer: &u64| self.printed.get(answer).is_some_and(|&n| n >= 5);
        assert!(answers.iter().all(often), "{answers:?}");
    }

    /// Each of these answers of replay has occurred.
    fn assert_replayed(&self, answers: &[u64]) {
        println!("answers of replay: {:?}", self.replayed);
        let often = |answer: &u64| self.replayed.get(answer).is_some_and(|&n| n >= 5);
        assert!(answers.iter().all(often), "{answers:?}");
    }

    /// Each of these answers of saturate to coded cases has occurred.
    fn assert_coded(&self, answers: &[u64]) {
        println!("answers to coded cases: {:?}", self.coded);
        let often = |answer: &u64| self.coded.get(answer).is_some_and(|&n| n >= 10);
        assert!(answers.iter().all(often), "{answers:?}");
    }
}

#[test]
fn cut_and_misplaced_files() {
    let mut calls = Calls::new();
    for pair in small_pairs(8) {
        calls.take_trace(&pair);
        for copy in misplaced(&pair.case_file) {
            calls.on_case(&copy, &pair.start_file);
        }
        for copy in misplaced(&pair.start_file) {
            calls.on_start(&pair.case_file, &copy);
        }
    }
    calls.assert_replayed(&[1, 5]);
    calls.assert_printed(&[1, 5]);
    calls.assert_coded(&[1]);
}

#[test]
fn every_byte_changed() {
    let mut calls = Calls::new();
    for pair in small_pairs(3) {
        calls.take_trace(&pair);
        for at in 0..pair.case_file.len() {
            for value in values_near(pair.case_file[at]) {
                let copy = changed(&pair.case_file, at, value);
                calls.on_case(&copy, &pair.start_file);
            }
        }
        for at in 0..pair.start_file.len() {
            for value in values_near(pair.start_file[at]) {
                let copy = changed(&pair.start_file, at, value);
                calls.on_start(&pair.case_file, &copy);
            }
        }
    }
    calls.assert_replayed(&[0, 1, 2, 3, 4, 5, 6, 7, 12, 260]);
    calls.assert_printed(&[0, 1, 2, 3, 4, 5, 6, 7, 12, 13]);
    calls.assert_coded(&[0, 1, 2, 12, 3, 4]);
}

/// Final sets, marks of entries, what sets name, and entries that stand twice
/// (document 02, §3).
#[test]
fn changed_finals_of_cases() {
    let mut calls = Calls::new();
    let mut kinds = Kinds::default();
    for (pair, record) in small_pairs(20).iter().zip(RECORDS.iter().cycle()) {
        calls.take_trace(pair);
        for (kind, copy) in changed_finals(&pair.case) {
            let is_coded = pair.case_file[0] == 5;
            let copy = if is_coded { coded(&copy, record) } else { copy };
            calls.on_case(&copy, &pair.start_file);
            kinds.count([kind]);
        }
    }
    println!("{kinds:?}");
    assert!(kinds.rarest(KINDS) >= 50, "{kinds:?}");
    calls.assert_replayed(&[0, 2, 3, 4, 260]);
    calls.assert_printed(&[0, 2, 3, 4, 13]);
    calls.assert_coded(&[0, 2, 3, 4]);
}

/// Several bytes changed at once, among them small values that stay in range.
#[test]
fn several_bytes_changed() {
    let mut calls = Calls::new();
    for pair in small_pairs(12) {
        calls.take_trace(&pair);
        let mut random = Random::new(pair.case_file.len() as u64);
        for _ in 0..60 {
            let mut case = pair.case_file.clone();
            let mut start = pair.start_file.clone();
            for _ in 0..random.between(1, 4) {
                scramble(&mut random, &mut case);
                scramble(&mut random, &mut start);
            }
            calls.on_case(&case, &pair.start_file);
            calls.on_start(&pair.case_file, &start);
        }
    }
    calls.assert_replayed(&[0, 2, 3, 4, 6, 7, 12, 260]);
    calls.assert_printed(&[0, 2, 3, 4, 6, 7, 12, 13]);
    calls.assert_coded(&[0, 2, 12, 3, 4]);
}

/// Changes a byte of the bodies, most often to a small value.
fn scramble(random: &mut Random, file: &mut [u8]) {
    let from = 1 + 8 * usize::from(file[0]);
    if file.len() > from {
        let at = random.between(from, file.len() - 1);
        let most = if random.chance(80) { 8 } else { 255 };
        file[at] = random.byte(0, most);
    }
}
