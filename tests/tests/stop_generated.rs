//! Stop after a number of rounds (document 02, §8) on generated files, in the second
//! implementation: judge's answers by the rounds of the whole table, runs, the search;
//! that generated calls reach every kind and tell every mistake.

use second::generate::Pair;
use second::kinds::Kinds;
use second::lent::{Lent, replayed};
use second::pairs::early_pairs;
use second::replay::ReplayReply::Accepted;
use second::saturation::{ALL_ROUNDS, Stopped, stop_after};
use second::search::{Bounds, Outcome, search};
use second::services::GuideReply::{self, Arrived, NoRun, Open};
use second::services::{LISTING_ENTRIES, LISTING_MOVES, LISTING_SIZE, Mark};
use second::stop_kinds::KINDS;
use second::stops::{Call, Judged, SEEDS, Stops, stopped_pairs};
use second::table::{Size, Table};
use second::ways::{Found, every_state, ways};

// ---- judge

/// Judge answers as the rounds of the whole table say: "yes means accepted after at most
/// n rounds", "9 concerns the rounds run", and the count is the lesser of n and the
/// rounds that add something.
#[test]
fn judged_by_the_whole_table() {
    let mut calls = 0;
    for (name, pair) in stopped_pairs(SEEDS) {
        let stops = Stops::new(&pair);
        let every_size = stops.calls_of_every_size();
        for call in stops.calls().iter().chain(&every_size) {
            let judged = Judged::of(&pair, call);
            assert_eq!(judged, stops.judged(call), "{name} {call:?}");
            calls += 1;
        }
    }
    println!("{calls} calls");
    assert!(calls >= 10_000);
}

/// "Raising n never changes a yes or a no while the table fits", for the tables that are
/// lent; and a table that does not fit fits with no more rounds.
#[test]
fn raising_the_number() {
    let mut raised = 0;
    for (name, pair) in stopped_pairs(SEEDS) {
        let stops = Stops::new(&pair);
        let numbers = [0, 1, 2, 3, 4, 5, 6, 7, 8, 1024, ALL_ROUNDS];
        let sizes = stops.whole.table.sizes().iter().copied();
        for lent in sizes.chain([LISTING_SIZE]) {
            let answers = numbers.map(|rounds| Judged::of(&pair, &Call { rounds, lent }));
            for two in answers.windows(2) {
                raised += check_raised(&two[0], &two[1], &name);
            }
        }
    }
    println!("{raised} marks by more rounds");
    assert!(raised >= 10_000);
}

/// How many yes and no are the same with more rounds: all of them, while the table fits.
fn check_raised(few: &Judged, more: &Judged, name: &str) -> usize {
    if more.code != 0 {
        assert_eq!(more.code, 9, "{name}");
        return 0;
    }
    assert_eq!(few.code, 0, "{name}: fits with more rounds alone");
    assert!(few.count <= more.count, "{name}");
    let pairs = few.marks.iter().zip(&more.marks);
    let marked = pairs.filter(|(few, _)| **few != Mark::Open);
    marked
        .inspect(|(few, more)| assert_eq!(few, more, "{name}"))
        .count()
}

// ---- the next round

/// The results that the next round would add, with all choices written out; nothing if
/// there are too many.
fn next_results(pair: &Pair, table: &Table) -> Option<Vec<Found>> {
    let mut found: Vec<Found> = Vec::new();
    for way in ways(&pair.case, table.whole(), every_state, 20_000)? {
        let (control, symbol, joined) = way.result;
        let held = table.moves().iter().any(|m| {
            let sets = (m.order, m.note, m.rest);
            let entry = table.entry_of(m.state);
            let named = entry.is_some_and(|e| (e.control, e.set) == (control, joined.set));
            named && m.symbol == symbol && sets == (joined.order, joined.note, joined.rest)
        });
        if !held && !found.contains(&way.result) {
            found.push(way.result);
        }
    }
    Some(found)
}

/// The size of the table with these results.
fn size_with(table: &Table, found: &[Found]) -> Size {
    let mut entries: Vec<(u8, u64)> = Vec::new();
    entries.extend(table.entries().iter().map(|e| (e.control, e.set)));
    entries.extend(
        found
            .iter()
            .map(|(control, _, joined)| (*control, joined.set)),
    );
    entries.sort();
    entries.dedup();
    Size {
        moves: table.moves().len() + found.len(),
        entries: entries.len(),
    }
}

/// After each round "round n + 1 would add a move" exactly if some way gives a result that
/// is not held, and the table of that round is refused exactly if it passes what is lent
/// or document 01's limits.
#[test]
fn the_next_round_written_out() {
    let (mut left_out, mut fitting, mut too_large) = (0, 0, 0);
    for (name, pair) in stopped_pairs(SEEDS) {
        let last = Stops::new(&pair).last();
        for rounds in 0..=last {
            let after = |rounds, lent| stop_after(&pair.case, lent, rounds);
            let Stopped { table, goes_on } = after(rounds, LISTING_SIZE).expect("rounds that fit");
            let Some(found) = next_results(&pair, &table) else {
                left_out += 1;
                continue;
            };
            assert_eq!(goes_on, !found.is_empty(), "{name} after {rounds} rounds");
            let size = size_with(&table, &found);
            let states = size.entries + usize::from(pair.case.inner_one);
            let fits = size.moves <= 1024 && states <= 64;
            let next = after(rounds + 1, size);
            assert_eq!(next.is_some(), fits, "{name} after {rounds} rounds and one");
            if let Some(next) = next {
                assert_eq!(next.table.whole().size(), size, "{name}");
                fitting += 1;
            } else {
                too_large += 1;
            }
        }
    }
    println!("{fitting} next rounds that fit, {too_large} too large, {left_out} left out");
    assert!(fitting >= 1000 && too_large >= 5 && 20 * left_out < fitting);
}

// ---- guide

/// Memory with these tables in which nearly every walk of a generated pair arrives.
fn ample(tables: Size) -> Lent {
    Lent::new(tables.moves, tables.entries, 256, 256)
}

/// What the guide answers for a start and writes; all else that is lent must be zero.
fn guided(pair: &Pair, number: usize, rounds: u64, mut lent: Lent) -> (GuideReply, Vec<u16>) {
    let (case, start) = (&pair.case_file, &pair.start_file);
    let reply = lent.guide_after(case, start, number as u64, rounds);
    assert!(lent.tables_are_zero() && lent.cells_are_zero());
    assert!(lent.trace_is_zero_from(reply.steps()));
    lent.trace.truncate(reply.steps());
    (reply, lent.trace)
}

/// Walks by few rounds.
#[derive(Debug, Default)]
struct Walks {
    arrived: usize,
    open: usize,
    no_run: usize,
    /// Those that arrive by other rules than with all rounds, and with fewer of them.
    other: usize,
    shorter: usize,
}

/// "Demand 3 holds for each yes of judge with the same n and tables": what the guide
/// writes is a run on nested stacks, into the target if it arrived, and then replay
/// accepts it. It is the same with tables that just fit. No run and open are judge's
/// marks, and answered without a cell.
#[test]
fn runs_after_few_rounds() {
    let mut walks = Walks::default();
    for (name, pair) in stopped_pairs(SEEDS) {
        let stops = Stops::new(&pair);
        let starts = 0..stops.won.len();
        let with_all = |number| guided(&pair, number, ALL_ROUNDS, ample(LISTING_SIZE));
        let with_all: Vec<_> = starts.map(with_all).collect();
        for rounds in 0..=stops.last() {
            let lent = stops.size(rounds).expect("rounds that fit");
            let call = Call { rounds, lent };
            for (number, mark) in Judged::of(&pair, &call).marks.into_iter().enumerate() {
                let name = format!("{name} start {number} after {rounds} rounds");
                let run = walks.check(&pair, number, &call, mark, &name);
                walks.compare(run, &with_all[number]);
            }
        }
    }
    println!("{walks:?}");
    assert!(walks.arrived >= 1000 && walks.open >= 1000 && walks.no_run >= 500);
    assert!(walks.other >= 50 && walks.shorter >= 50);
}

impl Walks {
    /// The run that the guide writes, if it arrives.
    fn check(
        &mut self,
        pair: &Pair,
        number: usize,
        call: &Call,
        mark: Mark,
        name: &str,
    ) -> Option<Vec<u16>> {
        let with = |lent: Lent| guided(pair, number, call.rounds, lent);
        let (reply, run) = with(ample(call.lent));
        let unmarked = match mark {
            Mark::Yes { .. } => None,
            Mark::No => Some(NoRun),
            Mark::Open => Some(Open),
        };
        if let Some(expected) = unmarked {
            assert_eq!(reply, expected, "{name}");
            let without = Lent::new(call.lent.moves, call.lent.entries, 0, 0);
            assert_eq!(with(without).0, expected, "{name}");
            self.open += usize::from(reply == Open);
            self.no_run += usize::from(reply == NoRun);
            return None;
        }
        let same = with(ample(LISTING_SIZE));
        assert_eq!(same, (reply, run.clone()), "{name}");
        pair.check_run(number, reply, &run, name);
        let Arrived { cells, .. } = reply else {
            return None;
        };
        let files = (&pair.case_file[..], &pair.start_file[..]);
        let replayed = replayed(files, number as u64, &run, cells as usize);
        assert_eq!(replayed, Accepted, "{name}");
        self.arrived += 1;
        Some(run)
    }

    /// Counts a run that is not the one with all rounds.
    fn compare(&mut self, run: Option<Vec<u16>>, with_all: &(GuideReply, Vec<u16>)) {
        let arrived = matches!(with_all.0, Arrived { .. });
        if let Some(run) = run.filter(|_| arrived) {
            self.other += usize::from(run != with_all.1);
            self.shorter += usize::from(run.len() < with_all.1.len());
        }
    }
}

/// The halts of walks after few rounds that are others with all rounds, for every small
/// number of cells and trace words.
#[test]
fn halts_of_other_walks() {
    let mut checked = 0;
    for (name, pair) in early_pairs(SEEDS) {
        let last = Stops::new(&pair).last();
        let mut lent = ample(LISTING_SIZE);
        for number in 0..pair.start.starts.len() {
            let Some(with_all) = pair.guided(&mut lent, number) else {
                continue;
            };
            for rounds in 0..last {
                let run = pair.guided_after(&mut lent, number, rounds);
                if let Some(run) = run.filter(|run| *run != with_all && run.len() < 9) {
                    check_halts(&pair, (number, rounds), &run, &name);
                    checked += 1;
                }
            }
        }
    }
    println!("{checked} walks");
    assert!(checked >= 50);
}

fn check_halts(pair: &Pair, (number, rounds): (usize, u64), run: &[u16], name: &str) {
    for c in 0..=pair.cells_after(run) + 1 {
        for t in 0..=run.len() + 1 {
            let lent = Lent::new(LISTING_MOVES, LISTING_ENTRIES, c, t);
            let (reply, trace) = guided(pair, number, rounds, lent);
            let named = format!("{name} start {number} cells {c} trace {t}");
            assert_eq!(reply, pair.expected_reply(run, c, t), "{named}");
            assert_eq!(trace, run[..reply.steps()], "{named}");
        }
    }
}

// ---- the search

/// What the search said of marked starts.
#[derive(Debug, Default)]
struct Searched {
    /// Starts marked yes that reach the target, by steps.
    yes: usize,
    /// Those marked no whose reachable configurations are all outside it.
    no: usize,
    /// Open starts of each kind.
    open_reached: usize,
    open_exhausted: usize,
}

/// "A run exists for each yes, none for each no, and open promises neither": there are
/// open starts that reach the target, and open starts that do not.
#[test]
fn marks_and_the_search() {
    let bounds = Bounds {
        depth: 12,
        size: 60,
        configurations: 300,
    };
    let mut searched = Searched::default();
    for (name, pair) in stopped_pairs(SEEDS) {
        let stops = Stops::new(&pair);
        let outcome = |number| search(&pair.case, pair.configuration(number), bounds);
        let outcomes: Vec<Outcome> = (0..stops.won.len()).map(outcome).collect();
        for rounds in 0..=stops.last() {
            let lent = LISTING_SIZE;
            let judged = Judged::of(&pair, &Call { rounds, lent });
            for (mark, outcome) in judged.marks.iter().zip(&outcomes) {
                searched.check(*mark, *outcome, &format!("{name} after {rounds} rounds"));
            }
        }
    }
    println!("{searched:?}");
    assert!(searched.yes >= 200 && searched.no >= 200);
    assert!(searched.open_reached >= 200 && searched.open_exhausted >= 200);
}

impl Searched {
    fn check(&mut self, mark: Mark, outcome: Outcome, name: &str) {
        let reached = matches!(outcome, Outcome::Reached { .. });
        let exhausted = outcome == Outcome::Exhausted;
        match mark {
            Mark::Yes { round } => {
                assert!(!exhausted, "{name}: a yes reaches no target");
                let by_steps = matches!(outcome, Outcome::Reached { steps: 1.., .. });
                assert!(!reached || by_steps == (round > 0), "{name}");
                self.yes += usize::from(by_steps);
            }
            Mark::No => {
                assert!(!reached, "{name}: a no reaches the target");
                self.no += usize::from(exhausted);
            }
            Mark::Open => {
                self.open_reached += usize::from(reached);
                self.open_exhausted += usize::from(exhausted);
            }
        }
    }
}

// ---- kinds

/// The calls on which the proved library is compared reach every kind of answer, and
/// each mistake is told.
#[test]
fn generated_calls_reach_every_kind() {
    let mut reached = Kinds::default();
    for (_, pair) in stopped_pairs(SEEDS) {
        reached.count(Stops::new(&pair).kinds());
    }
    println!("{reached:?}");
    assert!(reached.rarest(KINDS) >= 20, "{reached:?}");
}
