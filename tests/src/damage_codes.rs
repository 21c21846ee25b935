//! Copies of a coded case with one change to its record, to the place of its
//! record or to what the codes of its rules stand for, alone or beside another,
//! and the refusal that is due (document 02, §5).

use self::Kind::*;
use crate::coded::{coded, missing_code, rule_codes};
use crate::codes::{OPERATIONS, OURS, Record};
use crate::damage::{changed, longer};
use crate::encode::encode_case;
use crate::file::{Case, Refusal};

/// What is changed.
#[derive(Clone, Copy, Debug, PartialEq, Eq, PartialOrd, Ord)]
pub enum Kind {
    /// The fifth line counts no record, with a body 5 and without, or two.
    NoRecord,
    TwoRecords,
    /// The record has seven bytes, or nine.
    ShortRecord,
    LongRecord,
    /// The first byte is 4, with five lines and bodies.
    FirstByteOfFour,
    /// The first byte is 5, with four lines, and four bodies or five.
    FourLines,
    /// The offsets are those of bodies from byte 33 on.
    EarlyOffsets,
    /// Line and body of kind 5 are not the last.
    OtherPlace,
    /// A field of body 1 is out of range, also beside a record that is not sound.
    Fields,
    FieldsAndRecord,
    /// Two bytes of the record are equal, or one is zero.
    EqualCodes,
    ZeroCode,
    /// The same beside a code that is not in the record, and beside moves in a
    /// wrong order.
    RecordAndRule,
    RecordAndOrder,
    /// A rule's code is not in the record, and the same with one of our codes.
    MissingCode,
    OurCode,
    /// A rule's b is not a symbol, or not 0, where our operation asks for that.
    NoSymbol,
    NotZero,
    /// A code that is not in the record, beside moves in a wrong order.
    RuleAndOrder,
    /// Moves are in a wrong order.
    Order,
    /// A rule's b is the last symbol, where our operation puts one.
    LastSymbol,
}

/// How many kinds there are.
pub const KINDS: usize = 21;

impl Kind {
    /// The refusal that is due, if there is one.
    pub fn refusal(self) -> Option<Refusal> {
        match self {
            NoRecord | TwoRecords | ShortRecord | LongRecord => Some(1),
            FirstByteOfFour | FourLines | EarlyOffsets | OtherPlace => Some(1),
            Fields | FieldsAndRecord => Some(2),
            EqualCodes | ZeroCode | RecordAndRule | RecordAndOrder => Some(12),
            MissingCode | OurCode | NoSymbol | NotZero | RuleAndOrder => Some(3),
            Order => Some(4),
            LastSymbol => None,
        }
    }
}

/// The changed files of a case in the codes of a record.
pub fn changed_codes(case: &Case, record: &Record) -> Vec<(Kind, Vec<u8>)> {
    let plain = encode_case(case);
    let mut copies = Copies {
        case,
        record,
        file: coded(&plain, record),
        plain,
        files: Vec::new(),
    };
    copies.records_of_other_lengths();
    copies.other_places();
    copies.wrong_records();
    copies.wrong_rules();
    copies.others();
    copies.files
}

/// The first byte of line 5 of the contents, and that of its count.
const FIFTH_LINE: usize = 33;
const FIFTH_COUNT: usize = FIFTH_LINE + 2;

/// The copies made so far.
struct Copies<'a> {
    case: &'a Case,
    record: &'a Record,
    plain: Vec<u8>,
    file: Vec<u8>,
    files: Vec<(Kind, Vec<u8>)>,
}

impl Copies<'_> {
    fn keep(&mut self, kind: Kind, file: Vec<u8>) {
        self.files.push((kind, file));
    }

    /// Keeps the case with one change, in the codes of a record.
    fn keep_case(&mut self, kind: Kind, record: &Record, change: impl FnOnce(&mut Case)) {
        let mut copy = self.case.clone();
        change(&mut copy);
        self.keep(kind, coded(&encode_case(&copy), record));
    }

    fn without_record(&self) -> &[u8] {
        &self.file[..self.file.len() - OPERATIONS]
    }

    fn records_of_other_lengths(&mut self) {
        self.keep(NoRecord, changed(&self.file, FIFTH_COUNT, 0));
        self.keep(NoRecord, changed(self.without_record(), FIFTH_COUNT, 0));
        let twice = [&self.file[..], self.record].concat();
        self.keep(TwoRecords, changed(&twice, FIFTH_COUNT, 2));
        self.keep(TwoRecords, changed(&self.file, FIFTH_COUNT, 2));
        let shorter = self.file[..self.file.len() - 1].to_vec();
        self.keep(ShortRecord, shorter);
        let ninth = missing_code(self.record, 9);
        self.keep(LongRecord, longer(&self.file, ninth));
    }

    fn other_places(&mut self) {
        self.keep(FirstByteOfFour, changed(&self.file, 0, 4));
        let early = changed(&self.plain, 0, 5);
        self.keep(FourLines, [&early[..], self.record].concat());
        self.keep(FourLines, early);
        self.keep(EarlyOffsets, self.early_offsets());
        for before in 0..4 {
            self.keep(OtherPlace, self.record_before(before));
        }
    }

    /// All five offsets are eight lower.
    fn early_offsets(&self) -> Vec<u8> {
        let mut file = self.file.clone();
        for line in 0..5 {
            set_offset(&mut file, line, self.offset(line) - 8);
        }
        file
    }

    fn offset(&self, line: usize) -> usize {
        let at = 1 + 8 * line + 4;
        u32::from_le_bytes(self.file[at..at + 4].try_into().expect("four bytes")) as usize
    }

    /// Line and body of kind 5 stand before another line and body, and the offsets
    /// fit.
    fn record_before(&self, before: usize) -> Vec<u8> {
        let line = 1 + 8 * before;
        let body = self.offset(before);
        let mut file = [
            &self.file[..line],
            &self.file[FIFTH_LINE..FIFTH_LINE + 8],
            &self.file[line..FIFTH_LINE],
            &self.file[FIFTH_LINE + 8..body],
            self.record,
            &self.without_record()[body..],
        ]
        .concat();
        set_offset(&mut file, before, body);
        for line in before..4 {
            set_offset(&mut file, line + 1, self.offset(line) + OPERATIONS);
        }
        file
    }

    /// Records that are not sound: every two bytes equal, every byte zero.
    fn wrong_records(&mut self) {
        let first = self.file.len() - OPERATIONS;
        for high in 0..OPERATIONS {
            for low in 0..high {
                let copy = changed(&self.file, first + high, self.record[low]);
                self.keep(EqualCodes, copy);
            }
            self.keep(ZeroCode, changed(&self.file, first + high, 0));
        }
    }

    /// Codes that are not in the record, and b where our operation decides.
    fn wrong_rules(&mut self) {
        let ours = OURS.into_iter().filter(|code| !self.record.contains(code));
        let ours: Vec<u8> = ours.collect();
        for at in rule_codes(&self.file) {
            for wanted in [0, self.file[at].wrapping_add(1), 255] {
                let missing = missing_code(self.record, wanted);
                self.keep(MissingCode, changed(&self.file, at, missing));
            }
            for &code in &ours {
                self.keep(OurCode, changed(&self.file, at, code));
            }
        }
        for number in 0..self.case.rules.len() {
            self.wrong_symbols(number);
        }
    }

    fn wrong_symbols(&mut self, number: usize) {
        let (record, symbols) = (self.record, self.case.symbols);
        for code in OURS {
            let with = |put: u8| {
                move |case: &mut Case| {
                    case.rules[number].code = code;
                    case.rules[number].put = put;
                }
            };
            if code < 4 {
                self.keep_case(LastSymbol, record, with(symbols - 1));
                self.keep_case(NoSymbol, record, with(symbols));
            } else {
                self.keep_case(NotZero, record, with(1));
                self.keep_case(NotZero, record, with(symbols));
            }
        }
    }

    /// Fields, rules and moves, each also beside a record that is not sound.
    fn others(&mut self) {
        let record = *self.record;
        let (mut equal, mut zero) = (record, record);
        equal[7] = equal[0];
        zero[3] = 0;
        self.keep_case(Fields, &record, |case| case.controls = 0);
        for wrong in [equal, zero] {
            self.keep_case(FieldsAndRecord, &wrong, |case| case.controls = 9);
            if !self.case.rules.is_empty() {
                self.keep_case(RecordAndRule, &wrong, |case| case.rules[0].code = 9);
            }
            if !self.case.moves.is_empty() {
                self.keep_case(RecordAndOrder, &wrong, move_twice);
            }
        }
        if !self.case.moves.is_empty() {
            self.keep_case(Order, &record, move_twice);
            if !self.case.rules.is_empty() {
                self.keep_case(RuleAndOrder, &record, |case| {
                    case.rules[0].code = 9;
                    move_twice(case);
                });
            }
        }
    }
}

/// "Strictly increasing" no more.
fn move_twice(case: &mut Case) {
    case.moves.insert(0, case.moves[0]);
}

fn set_offset(file: &mut [u8], line: usize, offset: usize) {
    let at = 1 + 8 * line + 4;
    file[at..at + 4].copy_from_slice(&(offset as u32).to_le_bytes());
}
