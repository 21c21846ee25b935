//! A bounded forward search on nested stacks: whether a configuration of the
//! target can be reached by the rules.

use std::collections::HashSet;

use crate::file::Case;
use crate::stack::{Configuration, Empty};
use crate::target::in_target;

/// Where the search stops.
#[derive(Clone, Copy, Debug)]
pub struct Bounds {
    /// The most steps from the start.
    pub depth: usize,
    /// The largest stack that is followed, see `Two::fits`.
    pub size: usize,
    /// The most configurations that are looked at.
    pub configurations: usize,
}

/// What the search found.
#[derive(Clone, Copy, Debug, PartialEq, Eq)]
pub enum Outcome {
    /// The target is reached by this number of steps, and there a part of the
    /// stack is empty or a symbol is at the top.
    Reached { steps: usize, empty: Option<Empty> },
    /// Every reachable configuration was looked at, none is in the target.
    Exhausted,
    /// None within the bounds is in the target.
    Bounded,
}

/// Searches breadth-first. If no configuration was left out, the number of steps
/// found is the least.
pub fn search(case: &Case, start: Configuration, bounds: Bounds) -> Outcome {
    let mut left_out = false;
    let mut seen = HashSet::from([start.clone()]);
    let mut level = vec![start];
    for steps in 0.. {
        if let Some(end) = level.iter().find(|now| in_target(case, now)) {
            let empty = end.stack.empty();
            return Outcome::Reached { steps, empty };
        }
        if level.is_empty() {
            break;
        }
        if steps == bounds.depth || seen.len() > bounds.configurations {
            left_out = true;
            break;
        }
        level = next_level(case, &level, bounds.size, &mut seen, &mut left_out);
    }
    if left_out {
        Outcome::Bounded
    } else {
        Outcome::Exhausted
    }
}

/// The configurations one step further that were not seen before. Stacks above
/// the size are left out, which is noted.
fn next_level(
    case: &Case,
    level: &[Configuration],
    size: usize,
    seen: &mut HashSet<Configuration>,
    left_out: &mut bool,
) -> Vec<Configuration> {
    let mut next = Vec::new();
    for configuration in level {
        for after in case
            .rules
            .iter()
            .filter_map(|rule| configuration.apply(rule))
        {
            if !after.stack.fits(size) {
                *left_out = true;
            } else if seen.insert(after.clone()) {
                next.push(after);
            }
        }
    }
    next
}
