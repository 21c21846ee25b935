//! In which round a start was won (document 02, §1): an example worked out by
//! hand, rounds read in other ways, and what generated starts reach.

use second::automaton::accepts;
use second::encode::{encode_case, encode_start};
use second::file::Case;
use second::lent::Lent;
use second::pairs::{late_pairs, pairs};
use second::saturation::saturate;
use second::services::{LISTING_ENTRIES, LISTING_MOVES, listing};
use second::table::{Size, Table};
use second::won::{Choices, EXAMPLE_WORDS, Reached, example_case, example_start, latest};

/// The saturated table, if it fits.
fn table(case: &Case) -> Option<Table> {
    let lent = Size {
        moves: LISTING_MOVES,
        entries: LISTING_ENTRIES,
    };
    saturate(case, lent)
}

#[test]
fn the_example() {
    let mut lent = Lent::as_listing();
    let case = encode_case(&example_case());
    let start = encode_start(&example_start());
    assert_eq!(lent.judge(&case, &start), 0);
    let words = EXAMPLE_WORDS.as_flattened();
    assert_eq!(lent.answers[..words.len()], *words);
    assert!(lent.answers[words.len()..].iter().all(|&word| word == 0));
}

/// The lines of [[3]] from control 1, of 8 on 3 and of 9 on 3 above [0]. Each
/// walk takes the least choices: the last two pop first, one more cell, and then
/// rewrite 3 by three steps of two cells each. The rounds are not those of the
/// walks. Most moves has [0,empty]: one each on 4, 6, 7 and 9, and two on 8.
#[test]
fn the_example_in_the_listing() {
    let printed = listing(
        &encode_case(&example_case()),
        &encode_start(&example_start()),
    );
    let lines: Vec<&str> = printed.lines().collect();
    assert_eq!(lines[0], "moves 12 entries 3");
    assert_eq!(lines[1], "most 6");
    assert_eq!(lines[2 + 3], "start 3 yes 3 3 64");
    assert_eq!(lines[2 + 23], "start 23 yes 2 4 65");
    assert_eq!(lines[2 + 24], "start 24 yes 1 4 65");
}

/// What the rounds of the example hang on, by its rows. The rest matters for 4
/// and 8 on 2 or 3, and for 9 above 2 or 3, the stack beneath for 5 and 9 above
/// 2 or 3. By the least move, the pop, 8 on 3 waits for round 3; so does, by the
/// least edge, each 9, and it need not above 0, 1 or 2.
#[test]
fn kinds_of_the_example() {
    let mut reached = Reached::default();
    let table = table(&example_case()).expect("a table that fits");
    reached.count(&table, &example_start());
    let expected = Reached {
        rounds: [1, 13, 8, 6, 0],
        by_note: [2, 2],
        by_rest: 6,
        by_below: 4,
        not_least_move: 1,
        not_least_edge: 3,
    };
    assert_eq!(reached, expected);
}

/// The round is the least whose table accepts the start as a nested stack, and
/// every later table accepts it too. It is also the least, over all choices of
/// edges and moves in the saturated table, of the latest round of a chosen move.
#[test]
fn rounds_read_in_other_ways() {
    let mut lent = Lent::as_listing();
    let mut won = 0;
    for (name, pair) in pairs(100).chain(late_pairs()) {
        let Some(table) = table(&pair.case) else {
            continue;
        };
        assert_eq!(lent.judge(&pair.case_file, &pair.start_file), 0, "{name}");
        let rounds = lent.rounds(pair.start.starts.len());
        let by_choices = latest(&table, &pair.start.cells, Choices::All);
        for (number, start) in pair.start.starts.iter().enumerate() {
            let named = format!("{name} start {number}");
            let round = rounds[number];
            let stack = pair.configuration(number);
            let accepted: Vec<bool> = (0..=table.rounds())
                .map(|round| accepts(table.after_round(round), &stack))
                .collect();
            assert_eq!(round, accepted.iter().position(|&yes| yes), "{named}");
            assert!(accepted.is_sorted(), "{named}");
            let by_choice = by_choices[usize::from(start.root)].get(&start.control);
            assert_eq!(round.as_ref(), by_choice, "{named}");
            won += usize::from(round.is_some());
        }
    }
    println!("{won} starts marked yes");
    assert!(won >= 1000);
}

/// Generated starts on which the proved library is compared are won early and
/// late, and reach each kind of what a round hangs on.
#[test]
fn generated_starts_reach_every_kind() {
    let mut reached = Reached::default();
    for (_, pair) in late_pairs() {
        if let Some(table) = table(&pair.case) {
            reached.count(&table, &pair.start);
        }
    }
    println!("{reached:?}");
    assert!(reached.rounds.iter().all(|&starts| starts >= 20));
    let kinds = [
        reached.by_note[0],
        reached.by_note[1],
        reached.by_rest,
        reached.by_below,
        reached.not_least_move,
        reached.not_least_edge,
    ];
    assert!(kinds.iter().all(|&starts| starts >= 20), "{kinds:?}");
}
