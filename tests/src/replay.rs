//! Replay (document 02, §2): whether rules that a host recorded are a run into
//! the target, on nested stacks. Quoted sentences are from there.

use crate::automaton::StackReader;
use crate::file::{Case, Refusal, Rule, Start, StartFile};
use crate::services::{MOST_CELLS, with_start};
use crate::sets::has;
use crate::stack::{Configuration, configuration, new_cells};
use crate::table::Table;

/// Bytes of a lent cell, which has the form of start body 2.
pub const REPLAY_CELL_BYTES: usize = 6;

/// The answer of replay.
#[derive(Clone, Copy, Debug, PartialEq, Eq)]
pub enum ReplayReply {
    Refused(Refusal),
    Accepted,
    /// "The first step that fails, counted from 0, or the trace's length in rule
    /// numbers if only the arrival is missing."
    Fails {
        step: u64,
    },
}

/// Replays the trace from one start. "The lent cells are always zeroed"; nested
/// stacks need none of them, they only bound the run.
pub fn replay(
    case: &[u8],
    start: &[u8],
    number: u64,
    trace: &[u8],
    cells: &mut [u8],
) -> ReplayReply {
    cells.fill(0);
    let cells = (cells.len() / REPLAY_CELL_BYTES).min(MOST_CELLS);
    match answer(case, start, number, trace, cells) {
        Ok(reply) => reply,
        Err(refusal) => ReplayReply::Refused(refusal),
    }
}

/// The answer with so many cells, or the refusal: 1 to 7 and 12, then 10, 11.
fn answer(
    case: &[u8],
    start: &[u8],
    number: u64,
    trace: &[u8],
    cells: usize,
) -> Result<ReplayReply, Refusal> {
    let (case, file) = with_start(case, start, number)?;
    let trace = rule_numbers(trace).ok_or(10u64)?;
    if file.cells.len() > cells {
        return Err(11);
    }
    let mut used = file.cells.len();
    let mut run = Run::new(&file, &file.starts[number as usize]);
    for (step, number) in (0..).zip(trace) {
        let rule = case.rules.get(usize::from(number));
        let Some(rule) = rule.filter(|rule| run.step(rule)) else {
            return Ok(ReplayReply::Fails { step });
        };
        used += new_cells(rule.code);
        if used > cells {
            return Err(11);
        }
    }
    if run.ends_in_target(&case) {
        return Ok(ReplayReply::Accepted);
    }
    let step = run.steps() as u64;
    Ok(ReplayReply::Fails { step })
}

/// "Rule numbers of two bytes each", low byte first, if the bytes are even in
/// number.
fn rule_numbers(trace: &[u8]) -> Option<Vec<u16>> {
    let (numbers, odd) = trace.as_chunks::<2>();
    let numbers = numbers.iter().map(|&bytes| u16::from_le_bytes(bytes));
    odd.is_empty().then(|| numbers.collect())
}

/// A run: its configurations, the start's first.
///
/// A step puts a few new parts on those of the configuration before. Where all
/// configurations are held, read from the first on and given up from the last
/// on, a deep stack asks for no deep recursion.
pub struct Run(Vec<Configuration>);

impl Run {
    /// The run without steps.
    pub fn new(file: &StartFile, start: &Start) -> Run {
        Run(vec![configuration(file, start)])
    }

    /// The configuration that the run has come to.
    pub fn last(&self) -> &Configuration {
        self.0.last().expect("the start's configuration")
    }

    /// The number of steps.
    pub fn steps(&self) -> usize {
        self.0.len() - 1
    }

    /// Takes a step by the rule, if it applies, and says whether it does.
    pub fn step(&mut self, rule: &Rule) -> bool {
        let after = self.last().apply(rule);
        let applies = after.is_some();
        self.0.extend(after);
        applies
    }

    /// For each configuration whether it is in the target: "every configuration
    /// that the case's own automaton accepts from its control" (document 01), empty
    /// stacks included (§3).
    pub fn in_target(&self, case: &Case) -> Vec<bool> {
        let own = Table::new(case);
        let mut reader = StackReader::new(own.whole());
        let configurations = self.0.iter();
        configurations
            .map(|now| has(reader.two(&now.stack), now.control))
            .collect()
    }

    /// Whether the configuration that the run has come to is in the target.
    pub fn ends_in_target(&self, case: &Case) -> bool {
        self.in_target(case).pop() == Some(true)
    }
}

impl Drop for Run {
    fn drop(&mut self) {
        while self.0.pop().is_some() {}
    }
}
