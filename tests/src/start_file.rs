//! Start files (document 01, "Files").

use crate::contents::{START_BODIES, bodies, number};
use crate::file::{Case, Cell, Refusal, Start, StartFile};

/// The start file that the file holds, or the refusal 5 or 6.
pub fn decode_start(file: &[u8], case: &Case) -> Result<StartFile, Refusal> {
    let parts = bodies(file, &START_BODIES).ok_or(5u64)?;
    let mut cells = Vec::new();
    for record in parts[1].chunks(6) {
        let cell = read_cell(record, &cells, case).ok_or(6u64)?;
        cells.push(cell);
    }
    let mut starts = Vec::new();
    for record in parts[0].chunks(3) {
        let root = number(&record[1..3]) as u16;
        if record[0] >= case.controls || order_of(&cells, root) != Some(2) {
            return Err(6);
        }
        starts.push(Start {
            control: record[0],
            root,
        });
    }
    Ok(StartFile { starts, cells })
}

/// The order of the cell numbered `at`, if it is among `cells`.
fn order_of(cells: &[Cell], at: u16) -> Option<u8> {
    cells.get(usize::from(at)).map(|cell| cell.order())
}

/// One cell, if it is in range. "References are to lower cell numbers; unused
/// fields are 0."
fn read_cell(record: &[u8], lower: &[Cell], case: &Case) -> Option<Cell> {
    let name = record[1];
    let first = number(&record[2..4]) as u16;
    let second = number(&record[4..6]) as u16;
    let unused = name == 0 && first == 0 && second == 0;
    match record[0] {
        1 if unused => Some(Cell::EmptyOne),
        2 => {
            let note = order_of(lower, first).is_some();
            let rest = order_of(lower, second) == Some(1);
            (name < case.symbols && note && rest).then_some(Cell::Symbol {
                name,
                note: first,
                rest: second,
            })
        }
        3 if unused => Some(Cell::EmptyTwo),
        4 => {
            let top = order_of(lower, first) == Some(1);
            let rest = order_of(lower, second) == Some(2);
            (name == 0 && top && rest).then_some(Cell::Pair {
                top: first,
                rest: second,
            })
        }
        _ => None,
    }
}
