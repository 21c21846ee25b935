//! Copies of a sound case with one change to its final sets, to the marks of its
//! entries or to what its sets name, and the refusal that is due (document 02, §3).

use self::Kind::*;
use crate::damage::changed;
use crate::encode::encode_case;
use crate::file::{Case, ENTRY_MARK, FINAL_ENTRY_MARK, FileEntry, ORDER_ONE_STATES, Refusal};
use crate::sets::{has, only};

/// What is changed.
#[derive(Clone, Copy, Debug, PartialEq, Eq, PartialOrd, Ord)]
pub enum Kind {
    /// A control more is final.
    FinalControl,
    /// An entry is written with the other of 254 and 255.
    OtherMark,
    /// The final order-2 set names a state that does not exist.
    MissingFinal,
    /// The final order-1 set names an entry.
    FinalSetNamesEntry,
    /// The second byte of a control's edge is neither 254 nor 255.
    ControlsSecondByte,
    /// That of an inner state's edge is 254 or 255.
    InnerSecondByte,
    /// The set of an entry, or of an inner state's edge, names a control.
    SetNamesControl,
    /// A set of a move names an entry or a control.
    MoveNamesEntry,
    MoveNamesControl,
    /// An entry stands twice, with 254 or 255 each time.
    Doubled,
}

/// How many kinds there are.
pub const KINDS: usize = 10;

impl Kind {
    /// The refusal that is due, if there is one.
    pub fn refusal(self) -> Option<Refusal> {
        match self {
            FinalControl | OtherMark => None,
            MissingFinal | FinalSetNamesEntry => Some(2),
            ControlsSecondByte | InnerSecondByte => Some(3),
            SetNamesControl | MoveNamesEntry | MoveNamesControl => Some(3),
            Doubled => Some(4),
        }
    }
}

/// The changed files of a case.
pub fn changed_finals(case: &Case) -> Vec<(Kind, Vec<u8>)> {
    let mut copies = Copies {
        case,
        files: Vec::new(),
    };
    copies.final_sets();
    copies.marks();
    copies.named();
    copies.doubled();
    copies.files
}

/// The copies made so far.
struct Copies<'a> {
    case: &'a Case,
    files: Vec<(Kind, Vec<u8>)>,
}

impl Copies<'_> {
    /// Keeps the case with one change.
    fn keep(&mut self, kind: Kind, change: impl FnOnce(&mut Case)) {
        let mut copy = self.case.clone();
        change(&mut copy);
        self.files.push((kind, encode_case(&copy)));
    }

    /// The order-1 states of the file's entries.
    fn entry_states(&self) -> Vec<u8> {
        self.case.numbered_entries().map(|(one, _)| one).collect()
    }

    fn final_sets(&mut self) {
        let states = self.case.order_two_states();
        for control in 0..self.case.controls {
            if !has(self.case.final_two, control) {
                self.keep(FinalControl, |case| case.final_two |= only(control));
            }
        }
        for missing in states..16 {
            self.keep(MissingFinal, |case| case.final_two |= only(missing));
        }
        for one in self.entry_states() {
            self.keep(FinalSetNamesEntry, |case| case.final_one |= only(one));
        }
    }

    /// The second bytes of edges. The edges stand behind 33 bytes of contents, body
    /// 1 and the rules.
    fn marks(&mut self) {
        for number in 0..self.case.entries.len() {
            self.keep(OtherMark, |case| case.entries[number].is_final ^= true);
            let at = 33 + 14 + 5 * self.case.rules.len() + 4 * number + 1;
            for second in [0, 1, self.case.inner_one, 127, 252, 253] {
                let copy = changed(&encode_case(self.case), at, second);
                self.files.push((ControlsSecondByte, copy));
            }
        }
        for number in 0..self.case.edges.len() {
            for second in [FINAL_ENTRY_MARK, ENTRY_MARK] {
                self.keep(InnerSecondByte, |case| case.edges[number].one = second);
            }
        }
    }

    /// Sets that name a control or an entry, whether or not it is final.
    fn named(&mut self) {
        for control in 0..self.case.controls {
            if !self.case.entries.is_empty() {
                let name = |case: &mut Case| case.entries[0].entry.set |= only(control);
                self.keep(SetNamesControl, name);
            }
            if !self.case.edges.is_empty() {
                self.keep(SetNamesControl, |case| case.edges[0].set |= only(control));
            }
            let by_control = self.case.moves.iter().position(|m| m.order == 2);
            if let Some(number) = by_control {
                let name = |case: &mut Case| case.moves[number].note |= only(control);
                self.keep(MoveNamesControl, name);
            }
        }
        for one in self.entry_states() {
            for number in 0..self.case.moves.len() {
                self.keep(MoveNamesEntry, |case| case.moves[number].rest |= only(one));
                if self.case.moves[number].order == 1 {
                    self.keep(MoveNamesEntry, |case| case.moves[number].note |= only(one));
                }
            }
        }
    }

    /// Each entry twice, where there is room for one more.
    fn doubled(&mut self) {
        let Case { entries, edges, .. } = self.case;
        let states = usize::from(self.case.inner_one) + entries.len();
        if states >= ORDER_ONE_STATES || entries.len() + edges.len() >= 64 {
            return;
        }
        for (number, &written) in entries.iter().enumerate() {
            for marks in [[false, false], [false, true], [true, false], [true, true]] {
                let both = marks.map(|is_final| FileEntry {
                    is_final,
                    ..written
                });
                self.keep(Doubled, |case| {
                    case.entries.splice(number..=number, both);
                });
            }
        }
    }
}
