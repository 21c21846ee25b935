//! Nested stacks and the eight operations (document 01, "Stacks and
//! operations").

use std::iter::successors;
use std::rc::Rc;

use crate::file::{Cell, Rule, Start, StartFile};

/// An order-1 stack: "a list of symbols, top first".
#[derive(Clone, Debug, Default, PartialEq, Eq, Hash)]
pub struct One(pub Option<Rc<Symbol>>);

/// A symbol with its annotation and the stack beneath it.
#[derive(Clone, Debug, PartialEq, Eq, Hash)]
pub struct Symbol {
    pub name: u8,
    pub note: Note,
    pub rest: One,
}

/// An order-2 stack: "a list of order-1 stacks, top first".
#[derive(Clone, Debug, Default, PartialEq, Eq, Hash)]
pub struct Two(pub Option<Rc<Level>>);

/// An order-1 stack with the order-2 stack beneath it.
#[derive(Clone, Debug, PartialEq, Eq, Hash)]
pub struct Level {
    pub top: One,
    pub rest: Two,
}

/// An annotation: "one stack of order 1 or 2".
#[derive(Clone, Debug, PartialEq, Eq, Hash)]
pub enum Note {
    One(One),
    Two(Two),
}

impl One {
    /// The symbols, top first.
    pub fn symbols(&self) -> impl Iterator<Item = &Symbol> {
        successors(self.0.as_deref(), |symbol| symbol.rest.0.as_deref())
    }

    /// This stack with one more symbol on top.
    pub fn under(self, name: u8, note: Note) -> One {
        let rest = self;
        One(Some(Rc::new(Symbol { name, note, rest })))
    }

    /// Counts the symbols of the stack and of its annotations, and stops with
    /// nothing where they are more than `left`. Answers what is left.
    fn count(&self, left: usize) -> Option<usize> {
        let Some(symbol) = &self.0 else {
            return Some(left);
        };
        let left = left.checked_sub(1)?;
        let left = match &symbol.note {
            Note::One(one) => one.count(left)?,
            Note::Two(two) => two.count(left)?,
        };
        symbol.rest.count(left)
    }
}

impl Two {
    /// The order-1 stacks, top first.
    pub fn stacks(&self) -> impl Iterator<Item = &One> {
        let levels = successors(self.0.as_deref(), |level| level.rest.0.as_deref());
        levels.map(|level| &level.top)
    }

    /// This stack with one more order-1 stack on top.
    pub fn under(self, top: One) -> Two {
        let rest = self;
        Two(Some(Rc::new(Level { top, rest })))
    }

    /// As for order 1; each order-1 stack counts as one more.
    fn count(&self, left: usize) -> Option<usize> {
        let Some(level) = &self.0 else {
            return Some(left);
        };
        let left = level.top.count(left.checked_sub(1)?)?;
        level.rest.count(left)
    }

    /// Whether the stack, written out without sharing, has at most `size`
    /// symbols and order-1 stacks.
    pub fn fits(&self, size: usize) -> bool {
        self.count(size).is_some()
    }
}

/// What is empty of a stack without a top symbol.
#[derive(Clone, Copy, Debug, PartialEq, Eq)]
pub enum Empty {
    /// The order-2 stack.
    Stack,
    /// The top order-1 stack.
    Top,
}

impl Two {
    /// "No rule applies to an empty stack or an empty top order-1 stack": which of
    /// the two this is, if it is one of them.
    pub fn empty(&self) -> Option<Empty> {
        match &self.0 {
            None => Some(Empty::Stack),
            Some(level) => level.top.0.is_none().then_some(Empty::Top),
        }
    }
}

/// A nonempty stack "as symbol a annotated u, then s, then t".
pub struct Top {
    /// The whole top order-1 stack.
    pub whole: One,
    pub a: u8,
    pub u: Note,
    pub s: One,
    pub t: Two,
}

/// The top of a stack. "No rule applies to an empty stack or an empty top
/// order-1 stack."
pub fn top(stack: &Two) -> Option<Top> {
    let level = stack.0.as_ref()?;
    let symbol = level.top.0.as_ref()?;
    Some(Top {
        whole: level.top.clone(),
        a: symbol.name,
        u: symbol.note.clone(),
        s: symbol.rest.clone(),
        t: level.rest.clone(),
    })
}

/// Code 1: "b annotated u, s, t".
pub fn rewrite(stack: &Two, b: u8) -> Option<Two> {
    let Top { u, s, t, .. } = top(stack)?;
    Some(t.under(s.under(b, u)))
}

/// Code 2: "b annotated s, then a annotated u, s, t".
pub fn push_order_one(stack: &Two, b: u8) -> Option<Two> {
    let Top { whole, s, t, .. } = top(stack)?;
    Some(t.under(whole.under(b, Note::One(s))))
}

/// Code 3: "b annotated t, then a annotated u, s, t".
pub fn push_order_two(stack: &Two, b: u8) -> Option<Two> {
    let Top { whole, t, .. } = top(stack)?;
    let note = Note::Two(t.clone());
    Some(t.under(whole.under(b, note)))
}

/// Code 4: "top order-1 stack twice, t".
pub fn copy(stack: &Two) -> Option<Two> {
    let Top { whole, .. } = top(stack)?;
    Some(stack.clone().under(whole))
}

/// Code 5: "s, t".
pub fn pop_one(stack: &Two) -> Option<Two> {
    let Top { s, t, .. } = top(stack)?;
    Some(t.under(s))
}

/// Code 6: "t".
pub fn pop_two(stack: &Two) -> Option<Two> {
    Some(top(stack)?.t)
}

/// Code 7: "u as top order-1 stack, t; u must have order 1".
pub fn collapse_one(stack: &Two) -> Option<Two> {
    let Top { u, t, .. } = top(stack)?;
    match u {
        Note::One(u) => Some(t.under(u)),
        Note::Two(_) => None,
    }
}

/// Code 8: "u; u must have order 2".
pub fn collapse_two(stack: &Two) -> Option<Two> {
    match top(stack)?.u {
        Note::One(_) => None,
        Note::Two(u) => Some(u),
    }
}

/// The "new cells" column of the operation table, for codes 1 to 8.
pub fn new_cells(code: u8) -> usize {
    [2, 3, 3, 4, 1, 0, 1, 0][usize::from(code) - 1]
}

/// "A configuration is a control p and an order-2 stack."
#[derive(Clone, Debug, PartialEq, Eq, Hash)]
pub struct Configuration {
    pub control: u8,
    pub stack: Two,
}

impl Configuration {
    /// The configuration after the rule. "A rule (p, a, operation, b, p')
    /// applies when the control is p and the top symbol a."
    pub fn apply(&self, rule: &Rule) -> Option<Configuration> {
        if self.control != rule.from || top(&self.stack)?.a != rule.symbol {
            return None;
        }
        let stack = match rule.code {
            1 => rewrite(&self.stack, rule.put),
            2 => push_order_one(&self.stack, rule.put),
            3 => push_order_two(&self.stack, rule.put),
            4 => copy(&self.stack),
            5 => pop_one(&self.stack),
            6 => pop_two(&self.stack),
            7 => collapse_one(&self.stack),
            8 => collapse_two(&self.stack),
            _ => None,
        }?;
        Some(Configuration {
            control: rule.to,
            stack,
        })
    }
}

/// The configuration after the rules of these numbers, if each one applies.
pub fn after_rules(rules: &[Rule], first: Configuration, trace: &[u16]) -> Option<Configuration> {
    let mut now = first;
    for &number in trace {
        now = now.apply(rules.get(usize::from(number))?)?;
    }
    Some(now)
}

/// The stacks that the cells stand for, in the order of the cells.
fn stacks(cells: &[Cell]) -> Vec<Note> {
    let mut built: Vec<Note> = Vec::new();
    for &cell in cells {
        let stack = match cell {
            Cell::EmptyOne => Note::One(One::default()),
            Cell::EmptyTwo => Note::Two(Two::default()),
            Cell::Symbol { name, note, rest } => {
                let note = built[usize::from(note)].clone();
                Note::One(one_at(&built, rest).under(name, note))
            }
            Cell::Pair { top, rest } => Note::Two(two_at(&built, rest).under(one_at(&built, top))),
        };
        built.push(stack);
    }
    built
}

fn one_at(built: &[Note], cell: u16) -> One {
    match &built[usize::from(cell)] {
        Note::One(one) => one.clone(),
        Note::Two(_) => unreachable!("a cell of the wrong order is refused with 6"),
    }
}

fn two_at(built: &[Note], cell: u16) -> Two {
    match &built[usize::from(cell)] {
        Note::Two(two) => two.clone(),
        Note::One(_) => unreachable!("a cell of the wrong order is refused with 6"),
    }
}

/// "A start's configuration is its control with the stack that its root cell
/// stands for."
pub fn configuration(file: &StartFile, start: &Start) -> Configuration {
    let built = stacks(&file.cells);
    Configuration {
        control: start.control,
        stack: two_at(&built, start.root),
    }
}
