//! The codes of operations in a case's rules (document 02, §5).

use crate::file::Rule;

/// How many operations there are.
pub const OPERATIONS: usize = 8;

/// A record of body 5: "the record's nth byte, from 1, is the tool's code for our
/// operation n".
pub type Record = [u8; OPERATIONS];

/// "Without it our table of codes holds."
pub const OURS: Record = [1, 2, 3, 4, 5, 6, 7, 8];

/// A code that is no operation's.
const NO_OPERATION: u8 = 0;

/// The codes that a case's rules are written in.
pub struct Codes(Record);

impl Codes {
    /// Our codes.
    pub fn ours() -> Codes {
        Codes(OURS)
    }

    /// The codes of a body 5, if refusal 12 does not apply: "the eight bytes are
    /// not all different, or one is zero".
    pub fn read(body: &[u8]) -> Option<Codes> {
        let record: Record = body.try_into().expect("one record of 8 bytes");
        let different = (1..OPERATIONS).all(|n| !record[..n].contains(&record[n]));
        (different && !record.contains(&0)).then_some(Codes(record))
    }

    /// The rule with our code. "A code not in the record is refusal 3": it becomes
    /// one that no operation has.
    pub fn in_ours(&self, rule: Rule) -> Rule {
        let named = (1..).zip(self.0).find(|&(_, code)| code == rule.code);
        let code = named.map_or(NO_OPERATION, |(operation, _)| operation);
        Rule { code, ..rule }
    }
}
