//! Traces for replay, whoever made them: the guide's, runs by rules chosen at
//! random, and damaged copies of both.

use crate::file::{Case, Rule};
use crate::generate::Pair;
use crate::random::Random;
use crate::services::MOST_CELLS;
use crate::stack::{Configuration, Note, new_cells, top};

/// Rule numbers as a host records them: two bytes each, low byte first.
pub fn recorded(trace: &[u16]) -> Vec<u8> {
    trace.iter().flat_map(|rule| rule.to_le_bytes()).collect()
}

// ---- runs by rules chosen at random

/// A run by rules chosen at random.
pub struct Wandering {
    pub trace: Vec<u16>,
    /// The numbers of its steps after which it stands in the target.
    pub arrivals: Vec<usize>,
    /// For collapse 1 and collapse 2 a trace, if there is one, that ends with
    /// such a rule where control and symbol are right and the annotation's order
    /// is wrong, after steps of the run.
    pub wrong_collapses: [Option<Vec<u16>>; 2],
}

/// A run from a start of at most so many steps, and of no more once it has used
/// more cells than count.
pub fn wander(random: &mut Random, pair: &Pair, number: usize, steps: usize) -> Wandering {
    let mut run = pair.run(number);
    let mut trace = Vec::new();
    let mut used = pair.start.cells.len();
    let mut wrong_collapses = [None, None];
    while trace.len() < steps && used <= MOST_CELLS {
        for (code, wrong) in (7..).zip(&mut wrong_collapses) {
            let rule = wrong_collapse(&pair.case, run.last(), code);
            *wrong = rule.map(|rule| one_more(&trace, rule)).or(wrong.take());
        }
        let Some(number) = next_rule(random, &pair.case, run.last()) else {
            break;
        };
        let rule = &pair.case.rules[usize::from(number)];
        assert!(run.step(rule));
        used += new_cells(rule.code);
        trace.push(number);
    }
    let in_target = run.in_target(&pair.case);
    Wandering {
        arrivals: (0..=trace.len()).filter(|&m| in_target[m]).collect(),
        trace,
        wrong_collapses,
    }
}

/// A rule that applies, most often one after which another applies.
fn next_rule(random: &mut Random, case: &Case, now: &Configuration) -> Option<u16> {
    let after = |rule: &u16| now.apply(&case.rules[usize::from(*rule)]);
    let goes_on = |rule: &u16| {
        let after = after(rule).expect("a rule that applies");
        case.rules.iter().any(|rule| after.apply(rule).is_some())
    };
    let mut rules: Vec<u16> = (0..case.rules.len() as u16).collect();
    rules.retain(|rule| after(rule).is_some());
    if rules.iter().any(goes_on) && random.chance(95) {
        rules.retain(goes_on);
    }
    (!rules.is_empty()).then(|| random.pick(&rules))
}

/// A collapse of this code that would apply but for the annotation's order.
fn wrong_collapse(case: &Case, now: &Configuration, code: u8) -> Option<u16> {
    let is_wrong = |rule: &Rule| rule.code == code && is_wrong_collapse(now, rule);
    let number = case.rules.iter().position(is_wrong)?;
    Some(number as u16)
}

/// Whether the rule is a collapse that would apply but for the annotation's
/// order.
pub fn is_wrong_collapse(now: &Configuration, rule: &Rule) -> bool {
    let order = |note: &Note| match note {
        Note::One(_) => 1,
        Note::Two(_) => 2,
    };
    top(&now.stack).is_some_and(|top| {
        let asked = rule.code.checked_sub(6).filter(|&order| order > 0);
        let wrong = asked.is_some_and(|asked| asked != order(&top.u));
        now.control == rule.from && top.a == rule.symbol && wrong
    })
}

// ---- damaged copies

/// The trace with one more number.
fn one_more(trace: &[u16], rule: u16) -> Vec<u16> {
    [trace, &[rule]].concat()
}

/// Copies of the trace: a number changed, put in or left out, two exchanged.
/// Some of the numbers are of no rule, among them one whose low byte is.
pub fn damaged(random: &mut Random, trace: &[u16], rules: usize) -> Vec<Vec<u16>> {
    let mut copies = Vec::new();
    let other = random.below(rules.max(1)) as u16;
    for number in [other, rules as u16, 256 + other, 65535] {
        copies.push(one_more(trace, number));
        let at = random.between(0, trace.len());
        copies.push([&trace[..at], &[number], &trace[at..]].concat());
        if at < trace.len() {
            copies.push([&trace[..at], &[number], &trace[at + 1..]].concat());
        }
    }
    if let Some(last) = trace.len().checked_sub(1) {
        for at in [0, last, random.between(0, last)] {
            copies.push([&trace[..at], &trace[at + 1..]].concat());
        }
        let mut exchanged = trace.to_vec();
        exchanged.swap(last, last / 2);
        copies.push(exchanged);
    }
    copies
}

// ---- traces for a start

/// Traces for a start: what the guide wrote, if it arrived, runs that it did not
/// make, into the target and past it, damaged copies, and no step at all.
pub fn traces(
    random: &mut Random,
    pair: &Pair,
    number: usize,
    guided: Option<&[u16]>,
) -> Vec<Vec<u16>> {
    let rules = pair.case.rules.len();
    let mut traces = vec![Vec::new()];
    if let Some(guided) = guided {
        traces.push(guided.to_vec());
        traces.extend(damaged(random, guided, rules));
    }
    for steps in [4, 30] {
        let Wandering {
            trace,
            arrivals,
            wrong_collapses,
        } = wander(random, pair, number, steps);
        let past = |m: usize| (m + 1).min(trace.len());
        let ends = [arrivals.first(), arrivals.last()].into_iter().flatten();
        traces.extend(ends.flat_map(|&m| [trace[..m].to_vec(), trace[..past(m)].to_vec()]));
        traces.extend(wrong_collapses.into_iter().flatten());
        traces.extend(damaged(random, &trace, rules));
        traces.push(trace);
    }
    traces
}
