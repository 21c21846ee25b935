//! Generated pairs of files from which parts are left out: entries, moves of entries
//! or of inner states, and rules that need no move to give a result. So there are
//! tables whose entries have no moves, whose moves are of inner states only, and
//! tables without entries.

use crate::encode::{encode_case, encode_start};
use crate::file::Case;
use crate::generate::{Pair, case, start};
use crate::random::Random;
use crate::sets::{Set, has, only};
use crate::shapes::SPARSE;

/// The pair of files of a seed.
pub fn sparse(seed: u64) -> Pair {
    let random = &mut Random::new(seed);
    let mut case = case(random, &SPARSE);
    leave_out(random, &mut case);
    let start = start(random, &SPARSE, &case);
    Pair {
        case_file: encode_case(&case),
        start_file: encode_start(&start),
        case,
        start,
    }
}

fn leave_out(random: &mut Random, case: &mut Case) {
    let entries: Set = case
        .numbered_entries()
        .fold(0, |set, (one, _)| set | only(one));
    let without_entries = random.chance(25);
    let bare = if without_entries {
        entries
    } else {
        let percent = random.pick(&[0, 0, 50, 100]);
        random.part_of(entries, percent)
    };
    let inner = if random.chance(20) {
        case.inner_one_set()
    } else {
        0
    };
    case.moves.retain(|m| !has(bare | inner, m.state));
    if without_entries {
        case.entries.clear();
    }
    if random.chance(60) {
        case.rules.retain(|rule| rule.code <= 4);
    }
}
