//! Cases in suppliers' codes (document 02, §5), by their bytes: a case given a
//! record, a coded case rewritten to our codes, and records to give. Nothing here
//! reads a case as `src/file.rs` does.

use crate::codes::{OPERATIONS, OURS, Record};
use crate::generate::Pair;
use crate::random::Random;

/// Where the bodies of a plain case begin, and those of a coded one.
const PLAIN: usize = 33;
const CODED: usize = 41;

/// The bytes of body 1, which is one record, of a rule, and before a rule's code.
const FIELDS: usize = 14;
const RULE: usize = 5;
const BEFORE_CODE: usize = 2;

/// The case of first byte 4 as one of first byte 5: its bodies, with the record's
/// codes in the rules, and the record behind them. A code that is not ours becomes
/// one that is not in the record. The contents table and the length must be right.
pub fn coded(plain: &[u8], record: &Record) -> Vec<u8> {
    let mut file = plain[..PLAIN].to_vec();
    file[0] = 5;
    shift_offsets(&mut file, |offset| offset + 8);
    file.extend([5, 0, 1, 0]);
    file.extend((plain.len() as u32 + 8).to_le_bytes());
    file.extend(&plain[PLAIN..]);
    for at in rule_codes(&file) {
        file[at] = tools_code(record, file[at]);
    }
    file.extend(record);
    file
}

/// "The case rewritten to our codes": first byte 4 and four lines, the same bodies
/// 1 to 4, with our codes in the rules. A code that is not in the record becomes 0.
/// The contents table and the length must be right.
pub fn rewritten(coded: &[u8]) -> Vec<u8> {
    let (before, record) = coded.split_at(coded.len() - OPERATIONS);
    let mut file = before[..PLAIN].to_vec();
    file[0] = 4;
    shift_offsets(&mut file, |offset| offset - 8);
    file.extend(&before[CODED..]);
    for at in rule_codes(&file) {
        let operation = record.iter().position(|&code| code == file[at]);
        file[at] = operation.map_or(0, |before| before as u8 + 1);
    }
    file
}

/// The same of a file that is refused with neither 1 nor 12; a plain case is its
/// own rewriting.
pub fn in_our_codes(file: &[u8]) -> Vec<u8> {
    if file[0] == 5 {
        rewritten(file)
    } else {
        file.to_vec()
    }
}

/// Changes the offsets of the first four lines of contents.
fn shift_offsets(file: &mut [u8], shift: impl Fn(u32) -> u32) {
    for line in 0..4 {
        let at = 1 + 8 * line + 4;
        let bytes = file[at..at + 4].try_into().expect("four bytes");
        let offset = shift(u32::from_le_bytes(bytes));
        file[at..at + 4].copy_from_slice(&offset.to_le_bytes());
    }
}

/// Where the codes of a case's rules stand.
pub fn rule_codes(file: &[u8]) -> Vec<usize> {
    let first = if file[0] == 5 { CODED } else { PLAIN } + FIELDS + BEFORE_CODE;
    let rules = u16::from_le_bytes([file[11], file[12]]);
    (0..usize::from(rules))
        .map(|number| first + RULE * number)
        .collect()
}

/// What a tool with this record writes for our code.
fn tools_code(record: &Record, ours: u8) -> u8 {
    match ours {
        1..=8 => record[usize::from(ours) - 1],
        _ => missing_code(record, ours),
    }
}

/// A code that is not in the record, if possible the given one.
pub fn missing_code(record: &Record, wanted: u8) -> u8 {
    let mut codes = [wanted].into_iter().chain(0..=255);
    let missing = codes.find(|code| !record.contains(code));
    missing.expect("a code that is not in the record")
}

// ---- records

/// Records by hand: our codes; each our code for the operation before; all turned
/// round; codes that are all others; the ends of the range.
pub const RECORDS: [Record; 5] = [
    OURS,
    [8, 1, 2, 3, 4, 5, 6, 7],
    [8, 7, 6, 5, 4, 3, 2, 1],
    [20, 10, 30, 40, 50, 60, 70, 80],
    [255, 1, 254, 2, 128, 127, 253, 9],
];

/// A sound record: our codes in another order, some of ours among others nearby,
/// or any codes.
pub fn record(random: &mut Random) -> Record {
    let most = random.pick(&[8, 12, 255]);
    let mut codes: Vec<u8> = (1..=most).collect();
    random.shuffle(&mut codes);
    codes[..OPERATIONS].try_into().expect("eight codes")
}

impl Pair {
    /// The pair with its case in the codes of a record.
    pub fn with_codes(&self, record: &Record) -> Pair {
        Pair {
            case_file: coded(&self.case_file, record),
            ..self.clone()
        }
    }
}

/// The pairs, each with a record.
pub fn coded_pairs(
    pairs: impl Iterator<Item = (String, Pair)>,
) -> impl Iterator<Item = (String, Pair)> {
    let mut random = Random::new(5);
    pairs.map(move |(name, pair)| {
        let record = record(&mut random);
        let name = format!("{name} in {record:?}");
        (name, pair.with_codes(&record))
    })
}

/// Each pair, and then the same with a record.
pub fn also_coded(pairs: impl Iterator<Item = Pair>) -> impl Iterator<Item = Pair> {
    let mut random = Random::new(6);
    pairs.flat_map(move |pair| {
        let with_codes = pair.with_codes(&record(&mut random));
        [pair, with_codes]
    })
}
