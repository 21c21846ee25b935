//! Replays of generated traces, and what the answers to them hang on.

use self::Kind::*;
use crate::generate::Pair;
use crate::kinds::{Kinds, of_these};
use crate::lent::Lent;
use crate::pairs::pairs;
use crate::random::Random;
use crate::replay::ReplayReply::{self, Accepted, Fails, Refused};
use crate::replay::Run;
use crate::services::{LISTING_ENTRIES, LISTING_MOVES, MOST_CELLS};
use crate::traces::{is_wrong_collapse, traces};

/// What an answer hangs on; one answer may be of several kinds.
#[derive(Clone, Copy, Debug, PartialEq, Eq, PartialOrd, Ord)]
pub enum Kind {
    /// Accepted: the guide's own trace.
    Guided,
    /// Accepted: a trace with steps that the guide did not write.
    Foreign,
    /// The same with many steps, through a collapse 1, and through a collapse 2.
    LongForeign,
    ForeignByCollapseOne,
    ForeignByCollapseTwo,
    /// The same into an empty stack or an empty top order-1 stack.
    ForeignToEmpty,
    /// Fails at step 0, at a later one, or at the end of a run with steps.
    FailsFirst,
    FailsBetween,
    FailsAtLength,
    /// Fails at its end and was in the target before.
    PastTarget,
    /// Fails at its end, which is empty or has an empty top order-1 stack.
    EmptyOutside,
    /// Fails at a rule that exists, at a stack of the target that is empty or has
    /// an empty top order-1 stack.
    PastEmpty,
    /// Fails at a number that no rule has.
    NoRule,
    /// Fails at a collapse 1, or 2, by the order of the annotation alone.
    WrongCollapseOne,
    WrongCollapseTwo,
    /// Fails at a rule whose new cells are more than are left.
    FailsWithoutRoom,
    /// 11 for the start file, and at a step.
    ShortForStart,
    ShortAtStep,
    /// 11 at a step before one that would fail.
    ShortBeforeFailure,
}

/// How many kinds there are.
const KINDS: usize = 19;

/// A long run has at least so many steps.
const LONG: usize = 15;

/// How many answers of each kind there were.
#[derive(Debug, Default)]
pub struct Answers(Kinds<Kind>);

/// A replay of rule numbers from a start, with so many cells.
pub struct Attempt<'a> {
    pub pair: &'a Pair,
    pub number: usize,
    /// What the guide writes for the start, if it arrives.
    pub guided: Option<&'a [u16]>,
    pub trace: &'a [u16],
    pub cells: usize,
}

impl Answers {
    /// Counts the kinds of an answer.
    pub fn count(&mut self, attempt: &Attempt, reply: ReplayReply) {
        self.0.count(attempt.kinds(reply));
    }

    /// How many answers the rarest kind has: none, if a kind did not occur.
    pub fn rarest(&self) -> usize {
        self.0.rarest(KINDS)
    }
}

impl Attempt<'_> {
    fn kinds(&self, reply: ReplayReply) -> Vec<Kind> {
        match reply {
            Accepted => self.accepted(),
            Fails { step } => self.fails(step as usize),
            Refused(_) => self.short(),
        }
    }

    fn accepted(&self) -> Vec<Kind> {
        if self.guided == Some(self.trace) {
            return vec![Guided];
        }
        let code = |&rule: &u16| self.pair.case.rules[usize::from(rule)].code;
        let by_code = |wanted: u8| self.trace.iter().any(|rule| code(rule) == wanted);
        let end = self.pair.end_of_run(self.number, self.trace, "accepted");
        of_these([
            (Foreign, !self.trace.is_empty()),
            (LongForeign, self.trace.len() >= LONG),
            (ForeignByCollapseOne, by_code(7)),
            (ForeignByCollapseTwo, by_code(8)),
            (
                ForeignToEmpty,
                !self.trace.is_empty() && end.stack.empty().is_some(),
            ),
        ])
    }

    fn fails(&self, step: usize) -> Vec<Kind> {
        let mut run = self.pair.run(self.number);
        let rules = &self.pair.case.rules;
        for &rule in &self.trace[..step] {
            assert!(run.step(&rules[usize::from(rule)]));
        }
        let Some(&number) = self.trace.get(step) else {
            return self.fails_at_length(&run);
        };
        let at = if step == 0 { FailsFirst } else { FailsBetween };
        let Some(rule) = rules.get(usize::from(number)) else {
            return vec![at, NoRule];
        };
        let wrong = is_wrong_collapse(run.last(), rule);
        let room = self.pair.cells_after(&self.trace[..=step]) <= self.cells;
        let is_empty = run.last().stack.empty().is_some();
        of_these([
            (at, true),
            (PastEmpty, is_empty && run.ends_in_target(&self.pair.case)),
            (WrongCollapseOne, wrong && rule.code == 7),
            (WrongCollapseTwo, wrong && rule.code == 8),
            (FailsWithoutRoom, !room),
        ])
    }

    fn fails_at_length(&self, run: &Run) -> Vec<Kind> {
        let in_target = run.in_target(&self.pair.case);
        of_these([
            (EmptyOutside, run.last().stack.empty().is_some()),
            (FailsAtLength, run.steps() > 0),
            (PastTarget, in_target.contains(&true)),
        ])
    }

    fn short(&self) -> Vec<Kind> {
        if self.cells < self.pair.start.cells.len() {
            return vec![ShortForStart];
        }
        let longest = self.pair.longest_run(self.number, self.trace);
        of_these([
            (ShortAtStep, true),
            (ShortBeforeFailure, longest < self.trace.len()),
        ])
    }
}

// ---- the attempts

/// Asks for the answers to traces of every kind from all starts of generated
/// pairs, with few and many cells, and counts them.
pub fn count_answers(
    random: &mut Random,
    count: u64,
    answer: impl Fn(&Attempt) -> ReplayReply,
) -> Answers {
    let mut answers = Answers::default();
    let mut lent = Lent::new(LISTING_MOVES, LISTING_ENTRIES, 1024, 1024);
    for (_, pair) in pairs(count) {
        for number in 0..pair.start.starts.len() {
            let guided = pair.guided(&mut lent, number);
            for trace in traces(random, &pair, number, guided.as_deref()) {
                for cells in cells_for(random, &pair, number, &trace) {
                    let attempt = Attempt {
                        pair: &pair,
                        number,
                        guided: guided.as_deref(),
                        trace: &trace,
                        cells,
                    };
                    answers.count(&attempt, answer(&attempt));
                }
            }
        }
    }
    answers
}

/// Numbers of cells for a trace: those that its longest run takes, one fewer,
/// those of the start file, one fewer, any up to the run's, and all that count.
fn cells_for(random: &mut Random, pair: &Pair, number: usize, trace: &[u16]) -> [usize; 6] {
    let used = pair.cells_after(&trace[..pair.longest_run(number, trace)]);
    let own = pair.start.cells.len();
    let any = random.between(0, used);
    [used, used - 1, own, own - 1, any, MOST_CELLS]
}
