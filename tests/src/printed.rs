//! What the texts of starts hang on (document 02, §6).

use self::Kind::*;
use crate::file::{Cell, StartFile};
use crate::kinds::of_these;
use crate::stack::{Note, One, Symbol, Two, configuration};

/// What is in a text; one text may be of several kinds.
#[derive(Clone, Copy, Debug, PartialEq, Eq, PartialOrd, Ord)]
pub enum Kind {
    /// The root is empty.
    EmptyRoot,
    /// The root holds an empty order-1 stack, or several order-1 stacks.
    EmptyStack,
    SeveralStacks,
    /// An order-1 stack of the root holds several symbols.
    SeveralSymbols,
    /// A symbol's number has one digit, or two.
    OneDigit,
    TwoDigits,
    /// An annotation of order 1 is empty, holds a symbol, or several.
    EmptyNoteOne,
    NoteOne,
    SeveralInNoteOne,
    /// An annotation of order 2 is empty, holds an order-1 stack, several, or an
    /// empty one.
    EmptyNoteTwo,
    NoteTwo,
    SeveralInNoteTwo,
    EmptyInNoteTwo,
    /// A symbol stands within annotations of both orders, or within four.
    Mixed,
    Deep,
    /// A cell that is no empty stack is written twice.
    Shared,
}

/// How many kinds there are.
pub const KINDS: usize = 16;

/// The kinds of a start's text, which must not be long.
pub fn kinds(file: &StartFile, number: usize) -> Vec<Kind> {
    let start = &file.starts[number];
    let root = configuration(file, start).stack;
    let mut found = Found::default();
    found.in_two(&root, Within::default());
    let Found {
        symbols,
        ones,
        twos,
    } = found;
    let named = |some: fn(u8) -> bool| symbols.iter().any(|(symbol, _)| some(symbol.name));
    let in_ones = |some: fn(usize) -> bool| ones.iter().any(|note| some(note.symbols().count()));
    let in_twos = |some: fn(usize) -> bool| twos.iter().any(|note| some(note.stacks().count()));
    let has_empty = |stack: &Two| stack.stacks().any(|one| one.0.is_none());
    let is_deep = |within: &Within| within.ones + within.twos >= 4;
    let is_mixed = |within: &Within| within.ones > 0 && within.twos > 0;
    of_these([
        (EmptyRoot, root.0.is_none()),
        (EmptyStack, has_empty(&root)),
        (SeveralStacks, root.stacks().count() > 1),
        (
            SeveralSymbols,
            root.stacks().any(|one| one.symbols().count() > 1),
        ),
        (OneDigit, named(|name| name < 10)),
        (TwoDigits, named(|name| name >= 10)),
        (EmptyNoteOne, in_ones(|symbols| symbols == 0)),
        (NoteOne, in_ones(|symbols| symbols == 1)),
        (SeveralInNoteOne, in_ones(|symbols| symbols > 1)),
        (EmptyNoteTwo, in_twos(|stacks| stacks == 0)),
        (NoteTwo, in_twos(|stacks| stacks == 1)),
        (SeveralInNoteTwo, in_twos(|stacks| stacks > 1)),
        (EmptyInNoteTwo, twos.iter().any(|note| has_empty(note))),
        (Mixed, symbols.iter().any(|(_, within)| is_mixed(within))),
        (Deep, symbols.iter().any(|(_, within)| is_deep(within))),
        (Shared, is_shared(&file.cells, start.root)),
    ])
}

/// How many annotations of each order stand around a part of a text.
#[derive(Clone, Copy, Default)]
struct Within {
    ones: usize,
    twos: usize,
}

/// All that is written for a stack: its symbols, those of annotations too, and the
/// annotations by their order.
#[derive(Default)]
struct Found<'a> {
    symbols: Vec<(&'a Symbol, Within)>,
    ones: Vec<&'a One>,
    twos: Vec<&'a Two>,
}

impl<'a> Found<'a> {
    fn in_two(&mut self, stack: &'a Two, within: Within) {
        stack.stacks().for_each(|one| self.in_one(one, within));
    }

    fn in_one(&mut self, stack: &'a One, within: Within) {
        let Within { ones, twos } = within;
        for symbol in stack.symbols() {
            self.symbols.push((symbol, within));
            match &symbol.note {
                Note::One(note) => {
                    self.ones.push(note);
                    let ones = ones + 1;
                    self.in_one(note, Within { ones, twos });
                }
                Note::Two(note) => {
                    self.twos.push(note);
                    let twos = twos + 1;
                    self.in_two(note, Within { ones, twos });
                }
            }
        }
    }
}

/// Whether two references from cells that belong to the root name the same cell,
/// which is no empty stack.
fn is_shared(cells: &[Cell], root: u16) -> bool {
    let mut named = vec![0; cells.len()];
    named[usize::from(root)] = 1;
    for (number, &cell) in cells.iter().enumerate().rev() {
        if named[number] > 0 {
            references(cell).for_each(|lower| named[usize::from(lower)] += 1);
        }
    }
    named
        .iter()
        .zip(cells)
        .any(|(&times, &cell)| times > 1 && references(cell).next().is_some())
}

/// The cells that a cell names.
fn references(cell: Cell) -> impl Iterator<Item = u16> {
    let both = match cell {
        Cell::EmptyOne | Cell::EmptyTwo => None,
        Cell::Symbol { note, rest, .. } => Some([note, rest]),
        Cell::Pair { top, rest } => Some([top, rest]),
    };
    both.into_iter().flatten()
}
