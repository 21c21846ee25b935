//! Generated cases whose target holds a configuration that a start reaches.

use std::collections::HashSet;

use crate::automaton::StackReader;
use crate::file::{Case, FileEntry, Move, StartFile};
use crate::random::Random;
use crate::sets::only;
use crate::shapes::Shape;
use crate::stack::{Configuration, Top, configuration, top};
use crate::table::Table;

/// The most steps of the walk to the new target.
const STEPS: usize = 40;

/// Puts a configuration that the first start reaches into the target, in place
/// of the case's entries and final controls: one with a symbol at the top, or,
/// where the walk ends at an empty stack or an empty top order-1 stack, now and
/// then that end.
pub fn plant(random: &mut Random, shape: &Shape, case: &mut Case, start: &StartFile) {
    case.final_two &= case.inner_two_set();
    case.entries.clear();
    case.moves.retain(|m| m.state < case.inner_one);
    let walk = walk(random, case, configuration(start, &start.starts[0]));
    let end = walk.last().expect("the start's configuration");
    if end.stack.empty().is_some() && random.chance(shape.finished) {
        plant_empty(random, case, end);
    } else if let Some((control, top)) = last_new_top(&walk) {
        plant_top(random, case, control, &top);
    }
}

/// A final control for the empty stack, a final entry for an empty top order-1
/// stack, its set a part of the set of inner states that accept what is beneath.
fn plant_empty(random: &mut Random, case: &mut Case, end: &Configuration) {
    let Some(level) = &end.stack.0 else {
        case.final_two |= only(end.control);
        return;
    };
    let own = Table::new(case);
    let beneath = StackReader::new(own.whole()).two(&level.rest);
    let set = random.part_of(beneath, 50);
    case.entries.push(FileEntry::finished(end.control, set));
}

/// An entry with a move. Their sets are parts of the sets of inner states that
/// accept the configuration's stacks.
fn plant_top(random: &mut Random, case: &mut Case, control: u8, top: &Top) {
    let own = Table::new(case);
    let mut reader = StackReader::new(own.whole());
    let accepting_note = reader.note(&top.u);
    let note = random.part_of(accepting_note.states, 50);
    let set = random.part_of(reader.two(&top.t), 50);
    case.entries.push(FileEntry::plain(control, set));
    case.moves.push(Move {
        state: case.inner_one,
        symbol: top.a,
        order: if note == 0 { 0 } else { accepting_note.order },
        note,
        rest: random.part_of(reader.one(&top.s), 50),
    });
}

/// Walks by rules that apply, chosen at random.
fn walk(random: &mut Random, case: &Case, from: Configuration) -> Vec<Configuration> {
    let mut walk = vec![from];
    for _ in 0..STEPS {
        let now = walk.last().expect("the start's configuration");
        let mut next: Vec<Configuration> = case.rules.iter().filter_map(|r| now.apply(r)).collect();
        if next.is_empty() {
            break;
        }
        walk.push(next.swap_remove(random.below(next.len())));
    }
    walk
}

/// The last control and top whose control and top symbol did not occur before on
/// the walk.
fn last_new_top(walk: &[Configuration]) -> Option<(u8, Top)> {
    let mut seen = HashSet::new();
    let tops = walk.iter().filter_map(|now| {
        let top = top(&now.stack)?;
        seen.insert((now.control, top.a))
            .then_some((now.control, top))
    });
    tops.last()
}
