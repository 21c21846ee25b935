//! The table of contents and the bodies of files (document 01, "Files"; document
//! 02, §5).

/// What a contents table may say of one body.
#[derive(Clone, Copy)]
pub struct BodyRule {
    pub record: usize,
    pub least: usize,
    pub most: usize,
}

const fn body(record: usize, least: usize, most: usize) -> BodyRule {
    BodyRule {
        record,
        least,
        most,
    }
}

const FIELDS: BodyRule = body(14, 1, 1);
const RULES: BodyRule = body(5, 0, 256);
const EDGES: BodyRule = body(4, 0, 64);
const MOVES: BodyRule = body(19, 0, 1024);

/// "Kind 5, one record of 8 bytes."
const CODES: BodyRule = body(8, 1, 1);

/// The bodies of a case file, kinds 1 to 4.
pub const CASE_BODIES: [BodyRule; 4] = [FIELDS, RULES, EDGES, MOVES];

/// The bodies of a case file with a supplier's codes, kinds 1 to 5.
pub const CODED_CASE_BODIES: [BodyRule; 5] = [FIELDS, RULES, EDGES, MOVES, CODES];

/// The bodies of a start file, kinds 1 and 2.
pub const START_BODIES: [BodyRule; 2] = [body(3, 1, 64), body(6, 1, 256)];

/// "Numbers in files are unsigned, low byte first."
pub fn number(bytes: &[u8]) -> u64 {
    bytes
        .iter()
        .rev()
        .fold(0, |value, &byte| value * 256 + u64::from(byte))
}

/// The bodies of a file, if its first byte, contents table, counts and length
/// are right. "Each body begins where the one before it ends, and the last ends
/// at the file's end."
pub fn bodies<'a>(file: &'a [u8], kinds: &[BodyRule]) -> Option<Vec<&'a [u8]>> {
    if usize::from(*file.first()?) != kinds.len() {
        return None;
    }
    let mut at = 1 + 8 * kinds.len();
    let contents = file.get(1..at)?;
    let mut parts = Vec::new();
    for ((kind, line), rule) in (1..).zip(contents.chunks(8)).zip(kinds) {
        let count = number(&line[2..4]) as usize;
        let sound = number(&line[..2]) == kind
            && (rule.least..=rule.most).contains(&count)
            && number(&line[4..]) == at as u64;
        if !sound {
            return None;
        }
        let end = at + count * rule.record;
        parts.push(file.get(at..end)?);
        at = end;
    }
    (at == file.len()).then_some(parts)
}

/// The bodies of a case file: five if its first byte is 5, the last of them the
/// codes, otherwise four.
pub fn case_bodies(file: &[u8]) -> Option<Vec<&[u8]>> {
    bodies(file, &CODED_CASE_BODIES).or_else(|| bodies(file, &CASE_BODIES))
}
