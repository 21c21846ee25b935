//! Brackets (document 02, §6) by hand: the document's example, texts worked out
//! from its sentences, refusals in their order, and texts as long as cells allow,
//! the longest of them also in the proved library.

use second::callers::{PROVED, SECOND};
use second::coded::coded;
use second::damage::changed;
use second::data::{bytes, hex};
use second::file::{Cell, Refusal};
use second::in_time::in_time;
use second::lent::printed;
use second::models::{
    CASE_A, CASE_A_CODED, CASE_B, CASE_C, START_A, START_B, START_C_ONE, START_C_TWO,
    start_a_with_starts,
};
use second::rich::{chains, doubled, doubled_by_two, last_cell, lengths, plain_case};
use second::sound::{pair, symbol};

const A: (&[u8], &[u8]) = (&CASE_A, &START_A);

/// The text of a start with more bytes than it takes, which must be the same with
/// as many, and 13 with one fewer and with none.
fn text(files: (&[u8], &[u8]), number: u64) -> String {
    let text = printed(files, number, 5000).expect("a text");
    let length = text.len();
    assert_eq!(printed(files, number, length + 1).as_ref(), Ok(&text));
    assert_eq!(printed(files, number, length).as_ref(), Ok(&text));
    assert_eq!(printed(files, number, length - 1), Err(13));
    assert_eq!(printed(files, number, 0), Err(13));
    text
}

/// The text of the last of these cells.
fn text_of(cells: &[Cell]) -> String {
    text((&plain_case(), &last_cell(cells)), 0)
}

// ---- texts

/// "Cell 3 of model A prints as `[[1 1{[]}]]`." Cell 5 is symbol 0 on it.
#[test]
fn model_a() {
    assert_eq!(text(A, 0), "[[0 1{[]}][1 1{[]}]]");
    assert_eq!(text(A, 1), "[[1 1{[]}]]");
    assert_eq!(text(A, 2), "[[1 1{[]}]]");
    assert_eq!(text((&CASE_A_CODED, &START_A), 1), "[[1 1{[]}]]");
}

/// "Symbol 0 above 1", "symbol 0 alone", [[0]] and [[0],[0]].
#[test]
fn models_b_and_c() {
    let b = (&CASE_B[..], &START_B[..]);
    assert_eq!(text(b, 0), "[[0 1{[]} 1 1{[]}]]");
    assert_eq!(text(b, 1), "[[0 1{[]}]]");
    assert_eq!(text((&CASE_C, &START_C_ONE), 0), "[[0 1{[]}]]");
    assert_eq!(text((&CASE_C, &START_C_TWO), 0), "[[0 1{[]}][0 1{[]}]]");
}

/// The empty order-2 stack, and order-2 stacks of empty order-1 stacks.
#[test]
fn empty_stacks() {
    let (one, two) = (Cell::EmptyOne, Cell::EmptyTwo);
    assert_eq!(text_of(&[two]), "[]");
    assert_eq!(text_of(&[one, two, pair(0, 1)]), "[[]]");
    assert_eq!(text_of(&[two, one, pair(1, 0), pair(1, 2)]), "[[][]]");
    assert_eq!(
        text_of(&[one, two, symbol(7, 0, 0), pair(2, 1), pair(0, 3)]),
        "[[][7 1{[]}]]"
    );
    assert_eq!(
        text_of(&[one, two, symbol(7, 0, 0), pair(0, 1), pair(2, 3)]),
        "[[7 1{[]}][]]"
    );
}

/// "Each symbol as its number": all 32, of one digit and of two.
#[test]
fn every_symbol() {
    let of = |name| {
        let cells = [
            Cell::EmptyOne,
            Cell::EmptyTwo,
            symbol(name, 1, 0),
            pair(2, 1),
        ];
        text_of(&cells)
    };
    assert_eq!(of(0), "[[0 2{[]}]]");
    assert_eq!(of(9), "[[9 2{[]}]]");
    assert_eq!(of(10), "[[10 2{[]}]]");
    assert_eq!(of(31), "[[31 2{[]}]]");
    let digits = ["", "1", "2", "3"].map(|tens| (0..10).map(move |ones| format!("{tens}{ones}")));
    for (name, digits) in (0..32).zip(digits.into_iter().flatten()) {
        assert_eq!(of(name), format!("[[{digits} 2{{[]}}]]"));
    }
}

/// "Top first", "a space between symbols, nothing between stacks".
#[test]
fn several_symbols_and_stacks() {
    let cells = [
        Cell::EmptyOne,
        Cell::EmptyTwo,
        symbol(1, 0, 0),
        symbol(12, 1, 2),
        symbol(3, 0, 3),
        pair(2, 1),
        pair(4, 5),
        pair(3, 6),
    ];
    assert_eq!(text_of(&cells[..6]), "[[1 1{[]}]]");
    assert_eq!(
        text_of(&cells[..7]),
        "[[3 1{[]} 12 2{[]} 1 1{[]}][1 1{[]}]]"
    );
    assert_eq!(
        text_of(&cells),
        "[[12 2{[]} 1 1{[]}][3 1{[]} 12 2{[]} 1 1{[]}][1 1{[]}]]"
    );
}

/// "A symbol's annotation may hold either": annotations of both orders within each
/// other, of several symbols and of several stacks, one of them empty.
#[test]
fn nested_annotations() {
    let cells = [
        Cell::EmptyOne,
        Cell::EmptyTwo,
        symbol(4, 0, 0),
        symbol(5, 1, 2),
        pair(2, 1),
        pair(3, 4),
        pair(0, 5),
        symbol(12, 6, 3),
        symbol(0, 7, 0),
        pair(8, 1),
        pair(7, 9),
    ];
    assert_eq!(text_of(&cells[..7]), "[[][5 2{[]} 4 1{[]}][4 1{[]}]]");
    let seventh = "[12 2{[[][5 2{[]} 4 1{[]}][4 1{[]}]]} 5 2{[]} 4 1{[]}]";
    let tenth = "[[0 1{[12 2{[[][5 2{[]} 4 1{[]}][4 1{[]}]]} 5 2{[]} 4 1{[]}]}]]";
    assert_eq!(text_of(&cells[..10]), tenth);
    assert_eq!(text_of(&cells), format!("[{seventh}{}", &tenth[1..]));
}

/// An annotation of order 2 that holds one order-1 stack, and one of order 1 with
/// the same symbol.
#[test]
fn annotations_of_either_order() {
    let with_note = |note| {
        let empty = [Cell::EmptyOne, Cell::EmptyTwo];
        let inner = [symbol(2, 0, 0), pair(2, 1), pair(0, 1)];
        text_of(&[&empty[..], &inner, &[symbol(1, note, 0), pair(5, 1)]].concat())
    };
    assert_eq!(with_note(0), "[[1 1{[]}]]");
    assert_eq!(with_note(1), "[[1 2{[]}]]");
    assert_eq!(with_note(2), "[[1 1{[2 1{[]}]}]]");
    assert_eq!(with_note(3), "[[1 2{[[2 1{[]}]]}]]");
    assert_eq!(with_note(4), "[[1 2{[[]]}]]");
}

/// "Shared cells are written out each time."
#[test]
fn shared_cells() {
    assert_eq!(text_of(&doubled(1)), "[[1 1{[]}]]");
    assert_eq!(text_of(&doubled(2)), "[[1 1{[1 1{[]}]} 1 1{[]}]]");
    let three = "[[1 1{[1 1{[1 1{[]}]} 1 1{[]}]} 1 1{[1 1{[]}]} 1 1{[]}]]";
    assert_eq!(text_of(&doubled(3)), three);
    let by_two = doubled_by_two();
    assert_eq!(text_of(&by_two[..4]), "[[31 2{[]}]]");
    let six = "[[31 2{[[31 2{[]}]]} 31 2{[]}][31 2{[]}]]";
    assert_eq!(text_of(&by_two[..6]), six);
}

// ---- refusals

/// Cases refused with 1, 2, 12, 3 and 4, each also with the faults of those after
/// it: model A in a supplier's codes with its move twice, a code that is not in the
/// record, a record with a zero, no control, and a byte cut off.
fn refused_cases() -> [(Refusal, Vec<u8>); 5] {
    let mut twice = CASE_A.to_vec();
    twice.extend_from_within(61..80);
    twice[27] = 2;
    let order = coded(&twice, &[20, 10, 30, 40, 50, 60, 70, 80]);
    let rule = changed(&order, 57, 3);
    let record = changed(&rule, rule.len() - 1, 0);
    let field = changed(&record, 41, 0);
    let length = field[..field.len() - 1].to_vec();
    [(1, length), (2, field), (12, record), (3, rule), (4, order)]
}

/// "1 to 7 and 12 hold here too. 13: .., after 7": each number where all that come
/// later apply too.
#[test]
fn refusals_in_their_order() {
    let wrong_cell = changed(&START_A, 26, 5);
    let short_start = &wrong_cell[..61];
    for bytes in [0, 1, 10, 5000] {
        for (refusal, case) in refused_cases() {
            assert_eq!(printed((&case, short_start), 3, bytes), Err(refusal));
        }
        for case in [&CASE_A[..], &CASE_A_CODED] {
            assert_eq!(printed((case, short_start), 3, bytes), Err(5));
            assert_eq!(printed((case, &wrong_cell), 3, bytes), Err(6));
            for number in [3, 64, 256, 1 << 32, u64::MAX] {
                assert_eq!(printed((case, &START_A), number, bytes), Err(7));
            }
        }
    }
    for bytes in 0..11 {
        assert_eq!(printed(A, 2, bytes), Err(13));
    }
    assert!(printed(A, 2, 11).is_ok());
}

#[test]
fn empty_files() {
    assert_eq!(printed((&[], &[]), 0, 9), Err(1));
    assert_eq!(printed((&CASE_A, &[]), 0, 9), Err(5));
    assert_eq!(printed((&[], &START_A), 0, 0), Err(1));
}

/// The last of 64 starts, and the one after it; 65 give 5.
#[test]
fn starts_at_their_limit() {
    let start = start_a_with_starts(64);
    assert_eq!(text((&CASE_A, &start), 63), "[[0 1{[]}][1 1{[]}]]");
    assert_eq!(printed((&CASE_A, &start), 64, 99), Err(7));
    let start = start_a_with_starts(65);
    assert_eq!(printed((&CASE_A, &start), 0, 99), Err(5));
}

// ---- as many cells as there may be

/// 253 symbols in one order-1 stack; 254 empty order-1 stacks; annotations 253 deep
/// of order 1, and 127 deep of order 2.
#[test]
fn long_chains() {
    let chains = chains();
    assert!(chains.iter().all(|cells| cells.len() == 256));
    let [wide, high, deep_one, deep_two] = chains.map(|cells| text_of(&cells));
    assert_eq!(wide, format!("[[{}31 1{{[]}}]]", "31 1{[]} ".repeat(252)));
    assert_eq!(high, format!("[{}]", "[]".repeat(254)));
    let (open, close) = ("[8 1{".repeat(253), "}]".repeat(253));
    assert_eq!(deep_one, format!("[{open}[]{close}]"));
    let (open, close) = ("[[9 2{".repeat(127), "}]]".repeat(127));
    assert_eq!(deep_two, format!("{open}[]{close}"));
}

/// The lengths that `doubled` promises, with exactly that room and one byte less.
#[test]
fn doubled_texts() {
    for symbols in 1..=18 {
        let cells = doubled(symbols);
        let length = 15 * (1 << (symbols - 1)) - 4;
        assert_eq!(lengths(&cells).last(), Some(&length));
        let start = last_cell(&cells);
        let case = plain_case();
        let printed = |bytes| printed((&case, &start), 0, bytes).map(|text| text.len());
        assert_eq!(printed(length), Ok(length));
        assert_eq!(printed(length - 1), Err(13));
        assert_eq!(printed(length + 9), Ok(length));
    }
}

/// "13: the text is longer than the bytes lent": 2^243 bytes, as in the examples
/// that came with document 02, and as many as 256 cells can stand for. Both printers
/// end as soon as the bytes lent are passed, and leave zeros.
#[test]
fn texts_that_cannot_be_written() {
    let vectors = String::from_utf8(bytes("vectors02/06.txt")).expect("text");
    let same = format!("start={} ", hex(&last_cell(&doubled(240))));
    assert!(vectors.contains(&same));
    for cells in [doubled(240), doubled(253), doubled_by_two()] {
        assert_eq!(lengths(&cells).last(), Some(&usize::MAX));
        for bytes in (0..20).chain([300, 65_536, 3_000_000]) {
            for brackets in [SECOND.brackets, PROVED.brackets] {
                let start = last_cell(&cells);
                let mut text = vec![u8::MAX; bytes];
                let call = move || (brackets(&plain_case(), &start, 0, &mut text), text);
                assert_eq!(in_time(call), ((13, 0), vec![0; bytes]));
            }
        }
    }
}
