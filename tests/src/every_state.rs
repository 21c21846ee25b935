//! Cases with 64 order-1 states, all of them entries: the one-bit word of each
//! state's number n, "0 to 63", and each state as a member (document 02, §4).

use crate::callers::{Judge, Saturate};
use crate::encode::{encode_case, encode_start};
use crate::file::{Case, Cell, FileEntry, StartFile};
use crate::saturation::ALL_ROUNDS;
use crate::services::{ENTRY_WORDS, MOVE_WORDS};
use crate::sets::{Set, is_part};
use crate::sound::{pair, rule, start};

/// Entry n of 64: eight for each of eight controls, one for each set of the inner
/// order-2 states 8, 9 and 10.
pub fn entry(n: u8) -> FileEntry {
    FileEntry::plain(n / 8, inner_set(n % 8))
}

/// The sets of the inner order-2 states 8, 9 and 10, numbered 0 to 7 as words.
fn inner_set(number: u8) -> Set {
    Set::from(number) << 8
}

/// The case whose order-1 states are the 64 entries.
fn all_entries() -> Case {
    let mut case = Case::without_records(8, 3, 0, 1);
    case.entries = (0..64).map(entry).collect();
    case
}

/// "Proved to give 2 to the power n": a pop 1 and a collapse 1 from each control
/// to itself give entry n two moves, whose rest set and whose annotation set is
/// the entry alone. Its third word is their number (§7).
pub fn check_words(saturate: Saturate) {
    let mut case = all_entries();
    let rules = |p| [rule(p, 0, 5, 0, p), rule(p, 0, 7, 0, p)];
    case.rules = (0..8).flat_map(rules).collect();
    let mut moves = vec![u64::MAX; 128 * MOVE_WORDS];
    let mut entries = vec![u64::MAX; 64 * ENTRY_WORDS];
    let reply = saturate(&encode_case(&case), &mut moves, &mut entries);
    assert_eq!(reply, (0, 128, 64));
    for (n, found) in (0..64).zip(moves.chunks(2 * MOVE_WORDS)) {
        let power = 2_u64.pow(n);
        let n = u64::from(n);
        assert_eq!(found, [n, 0, 0, 0, power, n, 0, 1, power, 0]);
    }
    for (n, words) in (0..64).zip(entries.chunks(ENTRY_WORDS)) {
        let named = entry(n).entry;
        assert_eq!(words, [named.control.into(), named.set, 2]);
    }
}

/// Entry n alone is final. So [[]] lies in the target from the entry's control, if
/// all states of its set are final, and from no other control.
pub fn check_members(judge: Judge) {
    let starts = encode_start(&StartFile {
        starts: (0..8).map(|control| start(control, 2)).collect(),
        cells: vec![Cell::EmptyOne, Cell::EmptyTwo, pair(0, 1)],
    });
    for n in 0..64 {
        for finals in (0..8).map(inner_set) {
            let mut case = all_entries();
            case.entries[usize::from(n)].is_final = true;
            case.final_two = finals;
            let named = entry(n).entry;
            let word = |p| u16::from(p == named.control && is_part(named.set, finals));
            let expected: Vec<u16> = (0..8).map(word).collect();
            assert_eq!(judged(judge, &encode_case(&case), &starts), expected);
        }
    }
}

/// Judge's words for eight starts of a case without moves.
fn judged(judge: Judge, case: &[u8], starts: &[u8]) -> Vec<u16> {
    let mut entries = vec![u64::MAX; 64 * ENTRY_WORDS];
    let mut answers = vec![u16::MAX; 8];
    let reply = judge(
        case,
        starts,
        ALL_ROUNDS,
        &mut [],
        &mut entries,
        &mut answers,
    );
    assert_eq!(reply, (0, 0));
    answers
}
