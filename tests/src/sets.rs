//! Sets of states as unsigned words, bit n for state n.
//!
//! Sets of order-1 states use up to 64 bits, sets of order-2 states up to 16.

/// A set of states of one order.
pub type Set = u64;

/// The set that holds state `n` alone.
pub fn only(n: u8) -> Set {
    1 << n
}

/// The set of all states from `low` up to, but not including, `high` (at most 64).
pub fn range(low: u8, high: u8) -> Set {
    (low..high).fold(0, |set, n| set | only(n))
}

/// Whether `set` holds state `n`.
pub fn has(set: Set, n: u8) -> bool {
    set & only(n) != 0
}

/// Whether every member of `part` is a member of `whole`.
pub fn is_part(part: Set, whole: Set) -> bool {
    part & !whole == 0
}

/// The least member of `set`, if there is one.
pub fn least(set: Set) -> Option<u8> {
    (set != 0).then(|| set.trailing_zeros() as u8)
}

/// The members of `set`, rising.
pub fn members(set: Set) -> impl Iterator<Item = u8> {
    (0..64).filter(move |&n| has(set, n))
}
