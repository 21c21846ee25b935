//! The proved library's brackets against the second implementation: replies and
//! every lent byte, on generated and damaged files, plain and coded, from all
//! starts, with bytes of every kind of length, and on texts as long and as nested as
//! cells allow. `compare_files.rs` has the files of the documents.

use second::coded::{also_coded, record};
use second::compare::Both;
use second::damage::{changed, misplaced, values_near};
use second::damage_codes::changed_codes;
use second::file::Cell;
use second::generate::Pair;
use second::in_time::in_time;
use second::kinds::Kinds;
use second::lent::Lent;
use second::printed::{KINDS, kinds};
use second::random::Random;
use second::rich::{
    chains, doubled, doubled_by_two, last_cell, lengths, pairs_to_print, plain_case, rich_pairs,
    rooms,
};

fn both() -> Both {
    Both::new(Lent::new(0, 0, 0, 0))
}

/// The reply of both with so many bytes lent.
fn reply(
    both: &mut Both,
    (case, start): (&[u8], &[u8]),
    number: u64,
    bytes: usize,
) -> (u64, usize) {
    both.lent.text.resize(bytes, 0);
    both.brackets(case, start, number)
}

/// A text of this length is written if there is room for it.
fn expected(length: usize, bytes: usize) -> (u64, usize) {
    if length <= bytes {
        (0, length)
    } else {
        (13, 0)
    }
}

// ---- generated files

/// Every start of generated pairs, plain and coded, with no, too few, enough and
/// many bytes lent. Each kind of text occurs.
#[test]
fn generated_texts() {
    let (mut both, mut random) = (both(), Random::new(63));
    let mut met = Kinds::default();
    let mut refused = 0;
    for (name, plain) in pairs_to_print(25) {
        for pair in [plain.with_codes(&record(&mut random)), plain] {
            let files = (&pair.case_file[..], &pair.start_file[..]);
            for (number, length) in pair.text_lengths().into_iter().enumerate() {
                for bytes in rooms(&mut random, length) {
                    let reply = reply(&mut both, files, number as u64, bytes);
                    assert_eq!(reply, expected(length, bytes), "{name} {number} {bytes}");
                    if bytes == length {
                        met.count(kinds(&pair.start, number));
                    }
                    refused += usize::from(reply == (13, 0));
                }
            }
            let after = pair.start.starts.len() as u64;
            assert_eq!(reply(&mut both, files, after, 99), (7, 0), "{name}");
        }
    }
    println!("{refused} refused, {met:?}");
    assert!(met.rarest(KINDS) >= 200, "{met:?}");
    assert!(refused >= 10_000);
}

/// Every length of lent bytes, up to a few more than the text has.
#[test]
fn every_small_length() {
    let mut both = both();
    let mut texts = 0;
    for (_, pair) in rich_pairs(40) {
        let files = (&pair.case_file[..], &pair.start_file[..]);
        let lengths = pair.text_lengths();
        let small = (0..).zip(lengths).filter(|&(_, length)| length <= 300);
        for (number, length) in small.take(4) {
            for bytes in 0..length + 5 {
                let reply = reply(&mut both, files, number, bytes);
                assert_eq!(reply, expected(length, bytes));
            }
            texts += 1;
        }
    }
    assert!(texts >= 100, "{texts}");
}

/// Numbers and lengths that have nothing to do with the files.
#[test]
fn any_numbers_and_lengths() {
    let (mut both, mut random) = (both(), Random::new(64));
    let mut replies = Kinds::default();
    for (_, pair) in rich_pairs(100) {
        let files = (&pair.case_file[..], &pair.start_file[..]);
        for _ in 0..20 {
            let number = match random.below(4) {
                0 => random.word(),
                _ => random.between(0, 30) as u64,
            };
            let most = random.pick(&[20, 300, 5000]);
            let bytes = random.between(0, most);
            replies.count([reply(&mut both, files, number, bytes).0]);
        }
    }
    println!("{replies:?}");
    // 0, 7 and 13.
    assert!(replies.rarest(3) >= 100, "{replies:?}");
}

// ---- damaged files

/// Copies with a wrong length, contents table, order of bodies, or byte.
fn damaged(file: &[u8]) -> Vec<Vec<u8>> {
    let mut copies = misplaced(file);
    for at in 0..file.len() {
        let others = values_near(file[at]).into_iter();
        copies.extend(others.map(|value| changed(file, at, value)));
    }
    copies
}

/// Small rich pairs, with and without a record of codes.
fn small_pairs(count: u64) -> impl Iterator<Item = Pair> {
    let pairs = rich_pairs(count).map(|(_, pair)| pair);
    also_coded(pairs.filter(|pair| pair.case_file.len() < 400 && pair.start_file.len() < 150))
}

/// Each file damaged, from each of the first starts and one that no file has, with
/// bytes that are enough for some texts. Each refusal occurs.
#[test]
fn damaged_files() {
    let (mut both, mut random) = (both(), Random::new(65));
    let mut replies = Kinds::default();
    for pair in small_pairs(60) {
        let (case, start) = (&pair.case_file[..], &pair.start_file[..]);
        let mut ask = |files: (&[u8], &[u8]), number: u64| {
            let bytes = random.between(0, 60);
            replies.count([reply(&mut both, files, number, bytes).0]);
        };
        for copy in damaged(case) {
            ask((&copy, start), 0);
            ask((&copy, &start[1..]), 64);
        }
        for copy in damaged(start) {
            for number in [0, 1, 2, 64] {
                ask((case, &copy), number);
            }
        }
        for (_, copy) in changed_codes(&pair.case, &[1, 3, 2, 9, 8, 255, 7, 4]) {
            ask((&copy, start), 0);
        }
    }
    println!("{replies:?}");
    // 0, 1 to 7, 12 and 13.
    assert!(replies.rarest(10) >= 100, "{replies:?}");
}

// ---- as many cells as there may be

/// The reply of both in time.
fn reply_in_time(cells: &[Cell], bytes: usize) -> (u64, usize) {
    let start = last_cell(cells);
    in_time(move || reply(&mut both(), (&plain_case(), &start), 0, bytes))
}

/// Long and deep stacks, with just enough bytes, fewer and more.
#[test]
fn long_chains() {
    for cells in chains() {
        let length = *lengths(&cells).last().expect("the root's");
        for bytes in [0, 1, length / 2, length - 1, length, length + 1, 65_536] {
            assert_eq!(reply_in_time(&cells, bytes), expected(length, bytes));
        }
    }
}

/// Texts of up to a few million bytes.
#[test]
fn doubled_texts() {
    for symbols in 1..=19 {
        let length = 15 * (1 << (symbols - 1)) - 4;
        for bytes in [length - 1, length, length + 9] {
            let reply = reply_in_time(&doubled(symbols), bytes);
            assert_eq!(reply, expected(length, bytes));
        }
    }
}

/// Texts of up to 2^256 bytes: the printer ends as soon as the bytes lent are
/// passed.
#[test]
fn texts_that_cannot_be_written() {
    for cells in [doubled(40), doubled(240), doubled(253), doubled_by_two()] {
        for bytes in (0..100).chain([4096, 65_535, 65_536, 65_537, 3_000_000]) {
            assert_eq!(reply_in_time(&cells, bytes), (13, 0));
        }
    }
}
