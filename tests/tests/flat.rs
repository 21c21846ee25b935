//! The family of the file `bench/flat`: the file itself, the sizes of the tables,
//! and small members in both implementations.

use second::compare::Both;
use second::data::bytes;
use second::encode::{encode_case, encode_start};
use second::file::{Case, Cell, StartFile};
use second::flat::{FLAT, Flat, link};
use second::lent::Lent;
use second::lines::first_choices;
use second::proved;
use second::saturation::saturate;
use second::services::{LISTING_SIZE, listing};
use second::sets::only;
use second::sound::{pair, start, symbol};
use second::table::Table;

#[test]
fn the_file() {
    assert_eq!(encode_case(&FLAT.case()), bytes("bench/flat/case.bin"));
}

fn table(case: &Case) -> Table {
    let lent = LISTING_SIZE;
    saturate(case, lent).expect("a table that fits")
}

/// Members with few and with many of each number.
fn members() -> Vec<Flat> {
    let mut members = Vec::new();
    for repeats in [0, 1, 3] {
        for chain in [1, 2, 5, 31, 32, 40] {
            for turns in 1..4 {
                for wide in [0, 1, 2] {
                    members.push(Flat {
                        repeats,
                        chain,
                        turns,
                        wide,
                    });
                }
            }
        }
    }
    members
}

/// Each round adds one move, and none to the wide entry. Every first choice of a
/// rule gives a result, but for the last push, which has nothing to read.
#[test]
fn sizes() {
    let large = [
        FLAT,
        Flat {
            repeats: 54,
            ..FLAT
        },
        Flat { chain: 10, ..FLAT },
        Flat { wide: 120, ..FLAT },
    ];
    for flat in members().into_iter().chain(large) {
        let case = flat.case();
        let table = table(&case);
        assert_eq!(table.rounds(), flat.rounds(), "{flat:?}");
        let added = table.moves().len() - case.moves.len();
        assert_eq!(added, flat.rounds(), "{flat:?}");
        assert_eq!(table.move_counts()[1], flat.wide, "{flat:?}");
        let choices = |rule| first_choices(rule, table.whole()).len();
        let looked_at: usize = case.rules.iter().map(choices).sum();
        assert_eq!(looked_at, flat.results() + 1, "{flat:?}");
    }
}

/// Starts from the links of the chain, above as many symbols 0 as there are turns
/// and above fewer, with the round in which each is won. If the last inner state is
/// the only final one, the rest set {r} accepts as many symbols 0 as lead from r to
/// that state.
fn starts(flat: &Flat) -> (StartFile, Vec<Option<usize>>) {
    let (mut starts, mut cells) = (Vec::new(), vec![Cell::EmptyOne, Cell::EmptyTwo]);
    let mut rounds = Vec::new();
    let mut below = 0;
    for depth in 0..=usize::from(flat.turns) {
        let turn = usize::from(flat.turns).checked_sub(depth + 1);
        for number in (0..flat.chain).step_by(flat.chain.div_ceil(5)) {
            let (control, name) = link(number);
            let top = cells.len() as u16;
            cells.extend([symbol(name, 0, below), pair(top, 1)]);
            starts.push(start(control, top + 1));
            rounds.push(turn.map(|turn| turn * flat.chain + number));
        }
        cells.push(symbol(0, 0, below));
        below = cells.len() as u16 - 1;
    }
    (StartFile { starts, cells }, rounds)
}

#[test]
fn small_members_in_both() {
    let mut both = Both::new(Lent::as_listing());
    for flat in members() {
        let mut case = flat.case();
        case.final_one = only(flat.turns - 1);
        let (start, rounds) = starts(&flat);
        let (case, start) = (encode_case(&case), encode_start(&start));
        assert_eq!(both.saturate(&case).0, 0, "{flat:?}");
        assert_eq!(both.judge(&case, &start), 0, "{flat:?}");
        assert_eq!(both.lent.rounds(rounds.len()), rounds, "{flat:?}");
        for number in 0..rounds.len() as u64 {
            both.guide(&case, &start, number);
        }
        assert_eq!(proved::listing(&case, &start), listing(&case, &start));
    }
}
