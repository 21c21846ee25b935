//! Generated pairs of files with what tests ask of them: runs replayed on
//! nested stacks, cells counted, the guide's answer by document 01's sentence,
//! replay's by document 02's.

use crate::early::early;
use crate::gather::gathered;
use crate::generate::{Pair, pair};
use crate::lent::Lent;
use crate::random::seeds;
use crate::replay::{ReplayReply, Run};
use crate::saturation::ALL_ROUNDS;
use crate::search::{Bounds, Outcome, search};
use crate::services::GuideReply::{self, Arrived, CellsShort, TraceFull};
use crate::services::MOST_CELLS;
use crate::shapes::{LATE, SHAPES, Shape};
use crate::sparse::sparse;
use crate::stack::{Configuration, Empty, after_rules, configuration, new_cells};
use crate::target::in_target;

/// The generated pairs of all shapes, with what names them in a failure.
pub fn pairs(count: u64) -> impl Iterator<Item = (String, Pair)> {
    let seeds = seeds(count);
    SHAPES.iter().flat_map(move |shape: &Shape| {
        let seeds = seeds.clone();
        seeds.map(move |seed| (format!("{} {seed}", shape.name), pair(seed, shape)))
    })
}

/// Generated pairs whose starts are won in many rounds, for many reasons.
pub fn late_pairs() -> impl Iterator<Item = (String, Pair)> {
    seeds(350).map(|seed| (format!("late {seed}"), pair(seed, &LATE)))
}

/// Generated pairs whose rounds read sets of several entries.
pub fn gathered_pairs(count: u64) -> impl Iterator<Item = (String, Pair)> {
    seeds(count).map(|seed| (format!("gathered {seed}"), gathered(seed)))
}

/// Generated pairs from which parts are left out.
pub fn sparse_pairs(count: u64) -> impl Iterator<Item = (String, Pair)> {
    seeds(count).map(|seed| (format!("sparse {seed}"), sparse(seed)))
}

/// Generated pairs whose guided walks differ with the number of rounds.
pub fn early_pairs(count: u64) -> impl Iterator<Item = (String, Pair)> {
    seeds(count).map(|seed| (format!("early {seed}"), early(seed)))
}

impl Pair {
    /// The configuration of a start.
    pub fn configuration(&self, number: usize) -> Configuration {
        configuration(&self.start, &self.start.starts[number])
    }

    /// The cells used after the rules of the trace.
    pub fn cells_after(&self, trace: &[u16]) -> usize {
        let new = |&rule: &u16| new_cells(self.case.rules[usize::from(rule)].code);
        self.start.cells.len() + trace.iter().map(new).sum::<usize>()
    }

    /// The end of the run that the trace is from the start, each rule applying.
    pub fn end_of_run(&self, number: usize, trace: &[u16], name: &str) -> Configuration {
        after_rules(&self.case.rules, self.configuration(number), trace)
            .unwrap_or_else(|| panic!("{name} start {number}: a rule does not apply"))
    }

    /// A walk's reply that is no refusal: the trace is a run on nested stacks, it
    /// ends in the target if it arrived, it has arrived where no rule applies, and
    /// the cells are those of its rules.
    pub fn check_run(&self, number: usize, reply: GuideReply, trace: &[u16], name: &str) {
        let (Arrived { cells, .. } | TraceFull { cells, .. } | CellsShort { cells, .. }) = reply
        else {
            panic!("{name} start {number}: {reply:?}");
        };
        let trace = &trace[..reply.steps()];
        let end = self.end_of_run(number, trace, name);
        if let Arrived { .. } = reply {
            let arrived = in_target(&self.case, &end);
            assert!(arrived, "{name} start {number} is no target");
        } else {
            let goes_on = end.stack.empty().is_none();
            assert!(goes_on, "{name} start {number} ends at an empty stack");
        }
        let used = self.cells_after(trace) as u64;
        assert_eq!(cells, used, "{name} start {number}");
    }

    /// What the guide must answer with `c` cells and `t` trace words for a start
    /// with this full run: "m being the least number where the run has arrived,
    /// m = t, or step m + 1 would bring the cells used above c, and it answers
    /// the first of these that holds, in that order".
    pub fn expected_reply(&self, run: &[u16], c: usize, t: usize) -> GuideReply {
        if c < self.start.cells.len() {
            return CellsShort { steps: 0, cells: 0 };
        }
        for m in 0.. {
            let steps = m as u64;
            let cells = self.cells_after(&run[..m]) as u64;
            if m == run.len() {
                return Arrived { steps, cells };
            }
            if m == t {
                return TraceFull { steps, cells };
            }
            if self.cells_after(&run[..m + 1]) > c {
                return CellsShort { steps, cells };
            }
        }
        unreachable!("the run is finite")
    }

    /// The run without steps from a start.
    pub fn run(&self, number: usize) -> Run {
        Run::new(&self.start, &self.start.starts[number])
    }

    /// What the guide writes for a start, if it arrives with the memory lent.
    pub fn guided(&self, lent: &mut Lent, number: usize) -> Option<Vec<u16>> {
        self.guided_after(lent, number, ALL_ROUNDS)
    }

    /// The same after at most so many rounds.
    pub fn guided_after(&self, lent: &mut Lent, number: usize, rounds: u64) -> Option<Vec<u16>> {
        let (case, start) = (&self.case_file, &self.start_file);
        let reply = lent.guide_after(case, start, number as u64, rounds);
        let arrived = matches!(reply, Arrived { .. });
        arrived.then(|| lent.trace[..reply.steps()].to_vec())
    }

    /// The steps of the longest run from a start that the trace begins with.
    pub fn longest_run(&self, number: usize, trace: &[u16]) -> usize {
        let rules = &self.case.rules;
        let is_run =
            |m: usize| after_rules(rules, self.configuration(number), &trace[..m]).is_some();
        let steps: Vec<usize> = (1..=trace.len()).collect();
        steps.partition_point(|&m| is_run(m))
    }

    /// What replay must answer with `c` cells: 11 if the longest run that the
    /// trace begins with takes more cells than count; otherwise that run's steps
    /// if it is not the whole trace or does not end in the target.
    pub fn expected_replay(&self, number: usize, trace: &[u16], c: usize) -> ReplayReply {
        let steps = self.longest_run(number, trace);
        let run = &trace[..steps];
        if self.cells_after(run) > c.min(MOST_CELLS) {
            return ReplayReply::Refused(11);
        }
        let end = self.end_of_run(number, run, "the longest run");
        if steps == trace.len() && in_target(&self.case, &end) {
            return ReplayReply::Accepted;
        }
        let step = steps as u64;
        ReplayReply::Fails { step }
    }
}

/// What the search said of starts, by its outcomes.
#[derive(Debug, Default)]
pub struct Searched {
    pub reached: usize,
    /// Those of the reached ones, by steps, where the order-2 stack is empty, and
    /// where the top order-1 stack is.
    pub at_empty_stack: usize,
    pub at_empty_top: usize,
    pub exhausted: usize,
    pub bounded: usize,
}

impl Searched {
    /// No start marked no reaches the target within the bounds, and no start
    /// marked yes is one whose reachable configurations are all outside it.
    /// Exactly the starts in the target are won in round 0.
    pub fn check(&mut self, name: &str, pair: &Pair, rounds: &[Option<usize>], bounds: Bounds) {
        for (number, &round) in rounds.iter().enumerate() {
            match search(&pair.case, pair.configuration(number), bounds) {
                Outcome::Reached { steps, empty } => {
                    assert!(round.is_some(), "{name} start {number} reaches the target");
                    assert_eq!(round == Some(0), steps == 0, "{name} start {number}");
                    self.reached += 1;
                    self.at_empty_stack += usize::from(steps > 0 && empty == Some(Empty::Stack));
                    self.at_empty_top += usize::from(steps > 0 && empty == Some(Empty::Top));
                }
                Outcome::Exhausted => {
                    assert_eq!(round, None, "{name} start {number} reaches no target");
                    self.exhausted += 1;
                }
                Outcome::Bounded => {
                    assert_ne!(round, Some(0), "{name} start {number} is no target");
                    self.bounded += 1;
                }
            }
        }
    }
}
