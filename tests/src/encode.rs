//! Writing of case and start files (document 01, "Files"): the inverse of the
//! decoding, for the generators.

use crate::contents::{CASE_BODIES, START_BODIES};
use crate::file::{Case, Cell, ENTRY_MARK, FINAL_ENTRY_MARK, FileEntry, StartFile};
use crate::sets::Set;

/// The low `length` bytes of `value`, low byte first.
fn low_bytes(value: u64, length: usize) -> Vec<u8> {
    value.to_le_bytes()[..length].to_vec()
}

/// A file of the given bodies, each with the length of its records.
fn file(bodies: &[(usize, Vec<u8>)]) -> Vec<u8> {
    let mut file = vec![bodies.len() as u8];
    let mut at = 1 + 8 * bodies.len();
    for (kind, (record, body)) in (1..).zip(bodies) {
        file.extend(low_bytes(kind, 2));
        file.extend(low_bytes((body.len() / record) as u64, 2));
        file.extend(low_bytes(at as u64, 4));
        at += body.len();
    }
    for (_, body) in bodies {
        file.extend(body);
    }
    file
}

/// Body 1 of a case.
fn fields(case: &Case) -> Vec<u8> {
    let mut body = vec![case.controls, case.inner_two, case.inner_one, case.symbols];
    body.extend(low_bytes(case.final_two, 2));
    body.extend(low_bytes(case.final_one, 8));
    body
}

fn edge(state: u8, second: u8, set: Set) -> Vec<u8> {
    let mut record = vec![state, second];
    record.extend(low_bytes(set, 2));
    record
}

/// The edge of a control: its second byte says whether the entry is final
/// (document 02, §3).
fn entry(written: &FileEntry) -> Vec<u8> {
    let second = if written.is_final {
        FINAL_ENTRY_MARK
    } else {
        ENTRY_MARK
    };
    edge(written.entry.control, second, written.entry.set)
}

/// The case file. Controls are numbered below the inner states, so the entries
/// stand before the other edges.
pub fn encode_case(case: &Case) -> Vec<u8> {
    let rules = case
        .rules
        .iter()
        .flat_map(|rule| [rule.from, rule.symbol, rule.code, rule.put, rule.to])
        .collect();
    let entries = case.entries.iter().flat_map(entry);
    let inner = case.edges.iter().flat_map(|e| edge(e.state, e.one, e.set));
    let mut moves = Vec::new();
    for m in &case.moves {
        moves.extend([m.state, m.symbol, m.order]);
        moves.extend(low_bytes(m.note, 8));
        moves.extend(low_bytes(m.rest, 8));
    }
    let bodies = [fields(case), rules, entries.chain(inner).collect(), moves];
    let records = CASE_BODIES.iter().map(|body| body.record);
    file(&records.zip(bodies).collect::<Vec<_>>())
}

/// The start file.
pub fn encode_start(start: &StartFile) -> Vec<u8> {
    let mut starts = Vec::new();
    for s in &start.starts {
        starts.push(s.control);
        starts.extend(low_bytes(s.root.into(), 2));
    }
    let mut cells = Vec::new();
    for &cell in &start.cells {
        let (kind, name, first, second) = match cell {
            Cell::EmptyOne => (1, 0, 0, 0),
            Cell::Symbol { name, note, rest } => (2, name, note, rest),
            Cell::EmptyTwo => (3, 0, 0, 0),
            Cell::Pair { top, rest } => (4, 0, top, rest),
        };
        cells.extend([kind, name]);
        cells.extend(low_bytes(first.into(), 2));
        cells.extend(low_bytes(second.into(), 2));
    }
    let records = START_BODIES.iter().map(|body| body.record);
    file(&records.zip([starts, cells]).collect::<Vec<_>>())
}
