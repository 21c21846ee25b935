//! Case files, and the types of start files (document 01, "Files"; document 02,
//! §3 and §5).
//!
//! Decoding answers the refusal number of the table under "Three services and
//! their halts". "The lowest number that applies is returned": the tests of a
//! file are grouped by number, and all tests of one number come before any of
//! the next. 12 comes "after 2" (document 02, §5).

use crate::codes::Codes;
use crate::contents::{case_bodies, number};
use crate::sets::{Set, is_part, range};

/// A refusal number of document 01 or 02.
pub type Refusal = u64;

/// "At most 64 order-1 states": the inner ones and the entries together.
pub const ORDER_ONE_STATES: usize = 64;

/// A rule (p, a, operation, b, p'), the operation by our code.
#[derive(Clone, Copy, Debug, PartialEq, Eq, Hash)]
pub struct Rule {
    pub from: u8,
    pub symbol: u8,
    pub code: u8,
    pub put: u8,
    pub to: u8,
}

/// An edge (r, S) of an order-2 state.
#[derive(Clone, Copy, Debug, PartialEq, Eq, PartialOrd, Ord)]
pub struct Edge {
    pub state: u8,
    pub one: u8,
    pub set: Set,
}

/// An entry [p, S].
#[derive(Clone, Copy, Debug, PartialEq, Eq, PartialOrd, Ord)]
pub struct Entry {
    pub control: u8,
    pub set: Set,
}

/// An entry that a case's file holds, as it is written there.
#[derive(Clone, Copy, Debug, PartialEq, Eq)]
pub struct FileEntry {
    pub entry: Entry,
    /// "An entry written with second byte 254 instead of 255 is final: it accepts
    /// the empty top order-1 stack" (document 02, §3).
    pub is_final: bool,
}

impl FileEntry {
    /// The entry [p, S] written with the second byte 255.
    pub fn plain(control: u8, set: Set) -> FileEntry {
        let entry = Entry { control, set };
        let is_final = false;
        FileEntry { entry, is_final }
    }

    /// The entry [p, S] written with the second byte 254.
    pub fn finished(control: u8, set: Set) -> FileEntry {
        FileEntry {
            is_final: true,
            ..FileEntry::plain(control, set)
        }
    }
}

/// A move (order-1 state, symbol, annotation order, annotation set, rest set).
/// The derived order compares by that list.
#[derive(Clone, Copy, Debug, PartialEq, Eq, PartialOrd, Ord, Hash)]
pub struct Move {
    pub state: u8,
    pub symbol: u8,
    pub order: u8,
    pub note: Set,
    pub rest: Set,
}

/// A sound case file.
#[derive(Clone, Debug, PartialEq, Eq)]
pub struct Case {
    /// P
    pub controls: u8,
    /// I
    pub inner_two: u8,
    /// J
    pub inner_one: u8,
    /// A
    pub symbols: u8,
    pub final_two: Set,
    pub final_one: Set,
    pub rules: Vec<Rule>,
    /// The entries of the file, numbered from J in file order.
    pub entries: Vec<FileEntry>,
    /// The edges of inner states, in file order.
    pub edges: Vec<Edge>,
    pub moves: Vec<Move>,
}

/// A cell of a start file; references are cell numbers.
#[derive(Clone, Copy, Debug, PartialEq, Eq)]
pub enum Cell {
    EmptyOne,
    Symbol { name: u8, note: u16, rest: u16 },
    EmptyTwo,
    Pair { top: u16, rest: u16 },
}

impl Cell {
    /// The order of the stack that the cell stands for.
    pub fn order(self) -> u8 {
        match self {
            Cell::EmptyOne | Cell::Symbol { .. } => 1,
            Cell::EmptyTwo | Cell::Pair { .. } => 2,
        }
    }
}

/// A start: a control and a root cell.
#[derive(Clone, Copy, Debug, PartialEq, Eq)]
pub struct Start {
    pub control: u8,
    pub root: u16,
}

/// A sound start file.
#[derive(Clone, Debug, PartialEq, Eq)]
pub struct StartFile {
    pub starts: Vec<Start>,
    pub cells: Vec<Cell>,
}

/// The second byte of an edge that is an entry, and of one that is a final entry.
pub const ENTRY_MARK: u8 = 255;
pub const FINAL_ENTRY_MARK: u8 = 254;

/// An edge as written, with its second byte.
#[derive(Clone, Copy)]
struct WrittenEdge {
    state: u8,
    second: u8,
    set: Set,
}

fn read_rule(record: &[u8]) -> Rule {
    Rule {
        from: record[0],
        symbol: record[1],
        code: record[2],
        put: record[3],
        to: record[4],
    }
}

fn read_edge(record: &[u8]) -> WrittenEdge {
    WrittenEdge {
        state: record[0],
        second: record[1],
        set: number(&record[2..4]),
    }
}

fn read_move(record: &[u8]) -> Move {
    Move {
        state: record[0],
        symbol: record[1],
        order: record[2],
        note: number(&record[3..11]),
        rest: number(&record[11..19]),
    }
}

/// Body 1 of a case, without its lists.
fn read_fields(record: &[u8]) -> Case {
    Case {
        controls: record[0],
        inner_two: record[1],
        inner_one: record[2],
        symbols: record[3],
        final_two: number(&record[4..6]),
        final_one: number(&record[6..14]),
        rules: Vec::new(),
        entries: Vec::new(),
        edges: Vec::new(),
        moves: Vec::new(),
    }
}

impl Case {
    /// A case of so many controls, inner states and symbols, with no final
    /// states, rules, edges or moves.
    pub fn without_records(controls: u8, inner_two: u8, inner_one: u8, symbols: u8) -> Case {
        Case {
            controls,
            inner_two,
            inner_one,
            symbols,
            final_two: 0,
            final_one: 0,
            rules: Vec::new(),
            entries: Vec::new(),
            edges: Vec::new(),
            moves: Vec::new(),
        }
    }

    /// The number of order-2 states, P + I.
    pub fn order_two_states(&self) -> u8 {
        self.controls + self.inner_two
    }

    /// The inner order-2 states.
    pub fn inner_two_set(&self) -> Set {
        range(self.controls, self.order_two_states())
    }

    /// The controls.
    pub fn control_set(&self) -> Set {
        range(0, self.controls)
    }

    /// The inner order-1 states.
    pub fn inner_one_set(&self) -> Set {
        range(0, self.inner_one)
    }

    /// The file's entries with their order-1 states, "numbered from J in file
    /// order".
    pub fn numbered_entries(&self) -> impl Iterator<Item = (u8, FileEntry)> {
        (self.inner_one..).zip(self.entries.iter().copied())
    }

    /// Refusal 2: "a field of case body 1 is out of range". A final set that
    /// names a state that does not exist is such a field. "The final order-2 set
    /// may name controls" (document 02, §3); the final order-1 set names inner
    /// states only.
    fn fields_in_range(&self) -> bool {
        (1..=8).contains(&self.controls)
            && self.inner_two <= 8
            && self.inner_one <= 16
            && (1..=32).contains(&self.symbols)
            && is_part(self.final_two, self.control_set() | self.inner_two_set())
            && is_part(self.final_one, self.inner_one_set())
    }

    /// "From code 4 on b is 0", by our code.
    fn rule_in_range(&self, rule: &Rule) -> bool {
        let put = match rule.code {
            1..=3 => rule.put < self.symbols,
            4..=8 => rule.put == 0,
            _ => false,
        };
        put && rule.from < self.controls && rule.symbol < self.symbols && rule.to < self.controls
    }

    /// "For an inner state the second byte is an inner order-1 state. For a
    /// control it is 255", or 254 for a final entry (document 02, §3).
    fn edge_in_range(&self, edge: &WrittenEdge) -> bool {
        let second = if edge.state < self.controls {
            matches!(edge.second, ENTRY_MARK | FINAL_ENTRY_MARK)
        } else {
            edge.state < self.order_two_states() && edge.second < self.inner_one
        };
        second && is_part(edge.set, self.inner_two_set())
    }

    /// "B is empty exactly at order 0"; sets "name inner states only".
    fn move_in_range(&self, m: &Move) -> bool {
        let note = match m.order {
            0 => m.note == 0,
            1 => m.note != 0 && is_part(m.note, self.inner_one_set()),
            2 => m.note != 0 && is_part(m.note, self.inner_two_set()),
            _ => false,
        };
        let states = usize::from(self.inner_one) + self.entries.len();
        note && usize::from(m.state) < states
            && m.symbol < self.symbols
            && is_part(m.rest, self.inner_one_set())
    }

    /// Keeps the written edges as entries and inner edges, in file order.
    fn take_edges(&mut self, written: &[WrittenEdge]) {
        for edge in written {
            if edge.state < self.controls {
                self.entries.push(FileEntry {
                    is_final: edge.second == FINAL_ENTRY_MARK,
                    ..FileEntry::plain(edge.state, edge.set)
                });
            } else {
                self.edges.push(Edge {
                    state: edge.state,
                    one: edge.second,
                    set: edge.set,
                });
            }
        }
    }

    /// "Strictly increasing by (state, S, second byte)." A control's edges are
    /// compared by (state, S) alone: "A second entry for the same state and S is
    /// refusal 4" (document 02, §3).
    fn edge_key(&self, edge: &WrittenEdge) -> (u8, Set, u8) {
        let is_entry = edge.state < self.controls;
        let second = if is_entry { 0 } else { edge.second };
        (edge.state, edge.set, second)
    }
}

/// The case that the file holds, or the refusal 1, 2, 12, 3 or 4. Its rules have
/// our codes, whichever the file has.
pub fn decode_case(file: &[u8]) -> Result<Case, Refusal> {
    let parts = case_bodies(file).ok_or(1u64)?;
    let mut case = read_fields(parts[0]);
    if !case.fields_in_range() {
        return Err(2);
    }
    let codes = match parts.get(4) {
        Some(body) => Codes::read(body).ok_or(12u64)?,
        None => Codes::ours(),
    };
    let rules = parts[1].chunks(5).map(read_rule);
    case.rules = rules.map(|rule| codes.in_ours(rule)).collect();
    let written: Vec<WrittenEdge> = parts[2].chunks(4).map(read_edge).collect();
    case.moves = parts[3].chunks(19).map(read_move).collect();
    case.take_edges(&written);
    let in_range = case.rules.iter().all(|rule| case.rule_in_range(rule))
        && written.iter().all(|edge| case.edge_in_range(edge))
        && usize::from(case.inner_one) + case.entries.len() <= ORDER_ONE_STATES
        && case.moves.iter().all(|m| case.move_in_range(m));
    if !in_range {
        return Err(3);
    }
    let edges_rise = written.is_sorted_by(|x, y| case.edge_key(x) < case.edge_key(y));
    let moves_rise = case.moves.is_sorted_by(|x, y| x < y);
    if !(edges_rise && moves_rise) {
        return Err(4);
    }
    Ok(case)
}
