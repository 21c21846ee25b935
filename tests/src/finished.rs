//! Finished scripts as a target (document 02, §3): what the answers to generated
//! files hang on.

use self::Kind::*;
use self::Mistake::*;
use crate::automaton::{ReadSymbol, accepting, accepting_with, least_edge, least_move};
use crate::file::{Case, Cell, Edge, Entry, FileEntry, Start};
use crate::generate::Pair;
use crate::kinds::{Kinds, of_these};
use crate::sets::{Set, has, only};
use crate::stack::Empty;
use crate::table::{Finals, Table};

/// What a generated case, a start of it or a run has to do with empty stacks; each
/// may be of several kinds.
#[derive(Clone, Copy, Debug, PartialEq, Eq, PartialOrd, Ord)]
pub enum Kind {
    /// A control is final.
    FinalControl,
    /// An entry is final, and no other entry of the file is of its control; and
    /// one beside an entry of the same control that is not.
    FinalAlone,
    FinalBesidePlain,
    /// Saturation gives moves to a final entry of the file; to one that is not
    /// final.
    FinalGainsMoves,
    PlainGainsMoves,
    /// Saturation finds an entry of a control that has a final entry.
    FoundBesideFinal,
    /// A start that is the empty stack, marked yes and no.
    EmptyStackYes,
    EmptyStackNo,
    /// A start whose top order-1 stack is empty, marked yes and no.
    EmptyTopYes,
    EmptyTopNo,
    /// The guide's run ends at the empty stack, by this operation.
    StackByPopTwo,
    StackByCollapseTwo,
    /// It ends at an empty top order-1 stack, by this operation.
    TopByPopOne,
    TopByPopTwo,
    TopByCollapseOne,
    TopByCollapseTwo,
    /// An entry in the rest set of a start's chosen move accepts the empty rest; in
    /// its annotation set the empty annotation of order 1.
    RestByEntry,
    NoteByEntry,
    /// A control in the annotation set accepts the empty annotation of order 2; in
    /// the set of the chosen edge the empty stack beneath.
    NoteByControl,
    BelowByControl,
    /// A start's chosen edge is a final entry, and its move is saturation's.
    ByMoveOfFinal,
    /// A start has another mark by one of the mistakes.
    Tells(Mistake),
}

/// How many kinds there are.
pub const KINDS: usize = 21 + MISTAKES.len();

/// Another reading of which states are final.
#[derive(Clone, Copy, Debug, PartialEq, Eq, PartialOrd, Ord)]
pub enum Mistake {
    /// A final entry's mark spreads to the others of its control in the file; to
    /// those of its control that saturation finds.
    SpreadInFile,
    SpreadToFound,
    /// Every entry that saturation finds is final; each that has the set of a final
    /// one.
    Found,
    Inherited,
    /// A final entry to which saturation gives moves is no longer final; one that
    /// is not final becomes so.
    Lost,
    Gained,
    /// No entry is final; no control.
    NoEntries,
    NoControls,
}

const MISTAKES: [Mistake; 8] = [
    SpreadInFile,
    SpreadToFound,
    Found,
    Inherited,
    Lost,
    Gained,
    NoEntries,
    NoControls,
];

/// A pair of files with its saturated table.
pub struct Reading<'a> {
    pub pair: &'a Pair,
    pub table: &'a Table,
}

/// The least choices at a start: its edge, the number of its move, and the cells
/// of the top symbol's annotation, of its rest, and of the stack beneath.
struct Choice {
    edge: Edge,
    number: usize,
    note: Cell,
    rest: Cell,
    below: Cell,
}

impl Reading<'_> {
    /// Counts the kinds of the case and of its starts. The runs are the guide's,
    /// by number of their start, where it arrived.
    pub fn count(&self, counts: &mut Kinds<Kind>, runs: &[Option<Vec<u16>>]) {
        counts.count(self.kinds_of_case());
        for (number, start) in self.pair.start.starts.iter().enumerate() {
            counts.count(self.kinds_of_start(start));
            if let Some(choice) = self.choice(start) {
                counts.count(self.kinds_of_choice(&choice));
            }
            if let Some(run) = &runs[number] {
                counts.count(self.end_of_run(number, run));
            }
        }
    }

    fn case(&self) -> &Case {
        &self.pair.case
    }

    fn cell(&self, number: u16) -> Cell {
        self.pair.start.cells[usize::from(number)]
    }

    // ---- cases

    fn kinds_of_case(&self) -> Vec<Kind> {
        let final_controls = self.case().final_two & self.case().control_set();
        let found = self.found() & self.of_final_controls();
        let alone = self.finals().any(|x| self.others(x).is_empty());
        let beside = self.finals().any(|x| self.others(x).contains(&false));
        of_these([
            (FinalControl, final_controls != 0),
            (FinalAlone, alone),
            (FinalBesidePlain, beside),
            (FinalGainsMoves, self.gaining(true) != 0),
            (PlainGainsMoves, self.gaining(false) != 0),
            (FoundBesideFinal, found != 0),
        ])
    }

    /// The file's final entries.
    fn finals(&self) -> impl Iterator<Item = Entry> {
        let finals = self.case().entries.iter().filter(|x| x.is_final);
        finals.map(|x| x.entry)
    }

    /// For each other entry of the same control in the file whether it is final.
    fn others(&self, entry: Entry) -> Vec<bool> {
        let entries = self.case().entries.iter();
        let others = entries.filter(|x| x.entry.control == entry.control && x.entry != entry);
        others.map(|x| x.is_final).collect()
    }

    /// The file's entries, final or not, to which saturation gives moves.
    fn gaining(&self, is_final: bool) -> Set {
        let own = self.table.sizes()[0].moves;
        let moves = self.table.moves()[own..].iter();
        let gaining = moves.fold(0, |set, m| set | only(m.state));
        gaining & self.entries_that(|_, written| written.is_some_and(|x| x.is_final == is_final))
    }

    /// The entries that saturation found.
    fn found(&self) -> Set {
        self.entries_that(|_, written| written.is_none())
    }

    /// The entries whose control has a final one.
    fn of_final_controls(&self) -> Set {
        self.entries_that(|entry, _| self.finals().any(|x| x.control == entry.control))
    }

    /// The entries whose set is that of a final one.
    fn of_final_sets(&self) -> Set {
        self.entries_that(|entry, _| self.finals().any(|x| x.set == entry.set))
    }

    /// The order-1 states of the entries with a property, which may ask what the
    /// file holds of them.
    fn entries_that(&self, property: impl Fn(Entry, Option<&FileEntry>) -> bool) -> Set {
        let written = |at: usize| self.case().entries.get(at);
        let entries = self.table.entries().iter().enumerate();
        let having = entries.filter(|(at, entry)| property(**entry, written(*at)));
        let numbers = having.map(|(at, _)| self.case().inner_one + at as u8);
        numbers.fold(0, |set, one| set | only(one))
    }

    // ---- starts

    fn is_marked(&self, start: &Start, finals: Finals) -> bool {
        let cells = &self.pair.start.cells;
        let by_cell = accepting_with(self.table.whole(), finals, cells);
        has(by_cell[usize::from(start.root)].states, start.control)
    }

    fn kinds_of_start(&self, start: &Start) -> Vec<Kind> {
        let yes = self.is_marked(start, self.table.finals());
        let (stack, top) = match self.cell(start.root) {
            Cell::Pair { top, .. } => (false, self.cell(top) == Cell::EmptyOne),
            _ => (true, false),
        };
        let mut kinds = of_these([
            (EmptyStackYes, stack && yes),
            (EmptyStackNo, stack && !yes),
            (EmptyTopYes, top && yes),
            (EmptyTopNo, top && !yes),
        ]);
        let told = |mistake: &Mistake| self.is_marked(start, self.mistaken(*mistake)) != yes;
        kinds.extend(MISTAKES.into_iter().filter(told).map(Tells));
        kinds
    }

    /// The final states by a mistake.
    fn mistaken(&self, mistake: Mistake) -> Finals {
        let mut finals = self.table.finals();
        match mistake {
            SpreadInFile => finals.one |= self.of_final_controls() & !self.found(),
            SpreadToFound => finals.one |= self.of_final_controls() & self.found(),
            Found => finals.one |= self.found(),
            Inherited => finals.one |= self.of_final_sets() & self.found(),
            Lost => finals.one &= !self.gaining(true),
            Gained => finals.one |= self.gaining(false),
            NoEntries => finals.one &= self.case().inner_one_set(),
            NoControls => finals.two &= !self.case().control_set(),
        }
        finals
    }

    /// The choices of a start that is marked yes and has a symbol at the top.
    fn choice(&self, start: &Start) -> Option<Choice> {
        let view = self.table.whole();
        let by_cell = accepting(view, &self.pair.start.cells);
        let at = |cell: u16| by_cell[usize::from(cell)];
        let Cell::Pair { top, rest: below } = self.cell(start.root) else {
            return None;
        };
        let Cell::Symbol { name, note, rest } = self.cell(top) else {
            return None;
        };
        let edge = least_edge(view, start.control, at(top).states, at(below).states)?;
        let read = ReadSymbol {
            name,
            note: at(note),
            rest: at(rest).states,
        };
        Some(Choice {
            edge,
            number: least_move(view, edge.one, &read)?,
            note: self.cell(note),
            rest: self.cell(rest),
            below: self.cell(below),
        })
    }

    fn kinds_of_choice(&self, choice: &Choice) -> Vec<Kind> {
        let Choice {
            edge,
            number,
            note,
            rest,
            below,
        } = *choice;
        let m = self.table.moves()[number];
        let entry = |set: Set| set & !self.case().inner_one_set() != 0;
        let control = |set: Set| set & self.case().control_set() != 0;
        let note_one = m.order == 1 && note == Cell::EmptyOne;
        let note_two = m.order == 2 && note == Cell::EmptyTwo;
        let of_final = has(self.table.finals().one, edge.one);
        let later = self.table.round_of_move(number) > 0;
        of_these([
            (RestByEntry, rest == Cell::EmptyOne && entry(m.rest)),
            (NoteByEntry, note_one && entry(m.note)),
            (NoteByControl, note_two && control(m.note)),
            (BelowByControl, below == Cell::EmptyTwo && control(edge.set)),
            (ByMoveOfFinal, of_final && later),
        ])
    }

    // ---- runs

    /// Where a run ends and by which operation it came there.
    fn end_of_run(&self, number: usize, run: &[u16]) -> Option<Kind> {
        let end = self.pair.end_of_run(number, run, "the guide's run");
        let last = run.last()?;
        let code = self.case().rules[usize::from(*last)].code;
        match (end.stack.empty()?, code) {
            (Empty::Stack, 6) => Some(StackByPopTwo),
            (Empty::Stack, 8) => Some(StackByCollapseTwo),
            (Empty::Top, 5) => Some(TopByPopOne),
            (Empty::Top, 6) => Some(TopByPopTwo),
            (Empty::Top, 7) => Some(TopByCollapseOne),
            (Empty::Top, 8) => Some(TopByCollapseTwo),
            other => panic!("an empty stack after {other:?}"),
        }
    }
}
