//! Files for brackets (document 02, §6): generated start files whose stacks have
//! annotations of both orders, shared cells, empty stacks and symbols up to 31, and
//! start files whose texts are as long or as nested as cells allow.

use crate::encode::{encode_case, encode_start};
use crate::file::{Case, Cell, StartFile};
use crate::generate::{Pair, case};
use crate::pairs::{gathered_pairs, late_pairs, pairs};
use crate::random::{Random, seeds};
use crate::shapes::RICH;
use crate::sound::{pair, start, symbol};

/// A text of more bytes than this counts as long.
const LONG: usize = 2000;

// ---- generated pairs

/// Generated pairs with stacks to print, most of them rich, with what names them in
/// a failure.
pub fn pairs_to_print(count: u64) -> impl Iterator<Item = (String, Pair)> {
    let late = late_pairs().step_by(10);
    let others = pairs(count).chain(gathered_pairs(count)).chain(late);
    rich_pairs(8 * count).chain(others)
}

/// Generated pairs with rich start files.
pub fn rich_pairs(count: u64) -> impl Iterator<Item = (String, Pair)> {
    seeds(count).map(|seed| (format!("rich {seed}"), rich_pair(seed)))
}

fn rich_pair(seed: u64) -> Pair {
    let mut random = Random::new(seed);
    let case = case(&mut random, &RICH);
    let start = rich_start(&mut random, &case);
    Pair {
        case_file: encode_case(&case),
        start_file: encode_start(&start),
        case,
        start,
    }
}

fn rich_start(random: &mut Random, case: &Case) -> StartFile {
    let cells = rich_cells(random, case.symbols);
    let (roots, lengths) = (numbers_of(&cells, 2), lengths(&cells));
    let starts = (0..random.between(1, RICH.starts)).map(|_| {
        let control = random.byte(0, case.controls - 1);
        start(control, root(random, &roots, &lengths))
    });
    let starts = starts.collect();
    StartFile { starts, cells }
}

/// Most often a root whose text is not long, the longer of two.
fn root(random: &mut Random, roots: &[u16], lengths: &[usize]) -> u16 {
    let length = |root: &u16| lengths[usize::from(*root)];
    let (long, short): (Vec<u16>, Vec<u16>) = roots.iter().partition(|root| length(root) > LONG);
    if !long.is_empty() && random.chance(10) {
        return random.pick(&long);
    }
    let two = [0; 2].map(|_| random.pick(&short));
    two.into_iter().max_by_key(length).expect("a root")
}

/// Three cells or more. A cell names others among the last two or five of their
/// order, so that texts grow fast, or among all of them.
fn rich_cells(random: &mut Random, symbols: u8) -> Vec<Cell> {
    let most = random.pick(&[6, 20, 60, RICH.cells]);
    let count = random.between(3, most);
    let reach = random.pick(&[2, 5, RICH.cells]);
    let mut cells = vec![Cell::EmptyOne, Cell::EmptyTwo];
    random.shuffle(&mut cells);
    while cells.len() < count {
        let mut lower = |order: u8| {
            let numbers = numbers_of(&cells, order);
            random.pick(&numbers[numbers.len().saturating_sub(reach)..])
        };
        let (one, other, two) = (lower(1), lower(1), lower(2));
        let cell = match random.below(20) {
            0 => Cell::EmptyOne,
            1 => Cell::EmptyTwo,
            2..=6 => symbol(random.byte(0, symbols - 1), one, other),
            7..=12 => symbol(random.byte(0, symbols - 1), two, one),
            _ => pair(one, two),
        };
        cells.push(cell);
    }
    cells
}

/// The numbers of the cells of an order.
fn numbers_of(cells: &[Cell], order: u8) -> Vec<u16> {
    let numbered = (0..).zip(cells).filter(|(_, cell)| cell.order() == order);
    numbered.map(|(number, _)| number).collect()
}

// ---- lengths

/// The length of each cell's text, from those of lower cells; or the largest
/// number, if that is passed.
pub fn lengths(cells: &[Cell]) -> Vec<usize> {
    let mut lengths: Vec<usize> = Vec::new();
    for &cell in cells {
        let of = |cell: u16| lengths[usize::from(cell)];
        let length = match cell {
            Cell::EmptyOne | Cell::EmptyTwo => 2,
            Cell::Symbol { name, note, rest } => {
                // The number, a space, the order and two braces; a space before others.
                let own = if name < 10 { 5 } else { 6 };
                let space = usize::from(of(rest) > 2);
                let more = of(note).saturating_add(own + space);
                of(rest).saturating_add(more)
            }
            Cell::Pair { top, rest } => of(top).saturating_add(of(rest)),
        };
        lengths.push(length);
    }
    lengths
}

impl Pair {
    /// The length of the text of each start.
    pub fn text_lengths(&self) -> Vec<usize> {
        let lengths = lengths(&self.start.cells);
        let starts = self.start.starts.iter();
        starts.map(|s| lengths[usize::from(s.root)]).collect()
    }
}

/// Bytes to lend for a text of this length: none, some, one too few, just enough,
/// more, and many.
pub fn rooms(random: &mut Random, length: usize) -> Vec<usize> {
    let most = length.min(200);
    let mut rooms = vec![0, random.between(0, most)];
    if length < 65_536 {
        let more = random.between(2, 40);
        rooms.extend([length - 1, length, length + 1, length + more]);
    }
    if length > LONG || random.chance(20) {
        rooms.push(65_536);
    }
    rooms
}

// ---- by hand

/// The bytes of a case of 32 symbols, for the start files below.
pub fn plain_case() -> Vec<u8> {
    encode_case(&Case::without_records(1, 0, 0, 32))
}

/// The bytes of a start file whose only root is the last of these cells.
pub fn last_cell(cells: &[Cell]) -> Vec<u8> {
    encode_start(&StartFile {
        starts: vec![start(0, cells.len() as u16 - 1)],
        cells: cells.to_vec(),
    })
}

/// Two empty stacks, then so many symbols, each on the one before, annotated by the
/// stack beneath it, then the root. The text has 15 * 2^(symbols - 1) - 4 bytes.
pub fn doubled(symbols: u16) -> Vec<Cell> {
    let mut cells = vec![Cell::EmptyOne, Cell::EmptyTwo];
    cells.extend((0..symbols).map(|n| match n {
        0 => symbol(1, 0, 0),
        _ => symbol(1, n + 1, n + 1),
    }));
    cells.push(pair(symbols + 1, 1));
    cells
}

/// The most cells of a start file.
const MOST_CELLS: u16 = 256;

/// As many cells as a file may have: symbols annotated by the order-2 stack that
/// the symbol before tops, so that texts grow by annotations of order 2.
pub fn doubled_by_two() -> Vec<Cell> {
    let mut cells = vec![Cell::EmptyOne, Cell::EmptyTwo];
    while cells.len() < usize::from(MOST_CELLS) {
        let two = cells.len() as u16 - 1;
        let one = two - 1;
        cells.push(symbol(31, two, one));
        cells.push(pair(two + 1, two));
    }
    cells
}

/// As many cells as a file may have: one order-1 stack of symbols; empty order-1
/// stacks; symbols that each annotate the next with their order-1 stack; and those
/// that do so with an order-2 stack.
pub fn chains() -> [Vec<Cell>; 4] {
    let last = MOST_CELLS - 1;
    let with = |next: &dyn Fn(u16) -> Cell| {
        let cells = (2..MOST_CELLS).map(next);
        let empty = [Cell::EmptyOne, Cell::EmptyTwo].into_iter();
        empty.chain(cells).collect()
    };
    let one_below = |n: u16| if n == 2 { 0 } else { n - 1 };
    let or_root = |n: u16, cell: Cell| if n == last { pair(n - 1, 1) } else { cell };
    [
        with(&|n| or_root(n, symbol(31, 0, one_below(n)))),
        with(&|n| pair(0, n - 1)),
        with(&|n| or_root(n, symbol(8, one_below(n), 0))),
        with(&|n| match n % 2 {
            0 => symbol(9, n - 1, 0),
            _ => pair(n - 1, 1),
        }),
    ]
}
