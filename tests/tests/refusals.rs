//! Each refusal of document 01, by one change to a sound pair of files. Refusal 8
//! counts the words of document 02, §1.

use second::callers::{Answers, SECOND};
use second::encode::{encode_case, encode_start};
use second::every_state::entry;
use second::file::{Case, Cell, FileEntry, Rule, StartFile};
use second::lent::Lent;
use second::replay::ReplayReply;
use second::services::GuideReply::{CellsShort, NoRun, Refused};
use second::sets::{has, only};
use second::sound::{a_move, edge, pair, sound_case, sound_start, symbol};

/// All that the services answer, replay to an empty trace.
fn answers(case: &[u8], start: &[u8]) -> Answers {
    SECOND.answers(&Lent::as_listing(), (case, start), 0, &[vec![]])
}

/// All services answer the refusal, and all lent memory is zero.
fn assert_case_bytes(case: &[u8], refusal: u64) {
    let answers = answers(case, &encode_start(&sound_start()));
    assert!(answers.are_refusal(refusal), "{}", answers.in_short());
}

/// The same of the services that read both files.
fn assert_pair_bytes(case: &[u8], start: &[u8], refusal: u64) {
    let answers = answers(case, start);
    let refused = answers.are_refusal_of_pair(refusal);
    assert!(refused, "{}", answers.in_short());
}

/// The sound case with one change is refused.
fn assert_case(refusal: u64, change: impl Fn(&mut Case)) {
    let mut case = sound_case();
    change(&mut case);
    assert_case_bytes(&encode_case(&case), refusal);
}

/// The sound start file with one change is refused.
fn assert_start(refusal: u64, change: impl Fn(&mut StartFile)) {
    let mut start = sound_start();
    change(&mut start);
    let case = encode_case(&sound_case());
    assert_pair_bytes(&case, &encode_start(&start), refusal);
}

/// The sound start file with one byte changed is refused with 6.
fn assert_start_byte(at: usize, value: u8) {
    let mut start = encode_start(&sound_start());
    start[at] = value;
    assert_pair_bytes(&encode_case(&sound_case()), &start, 6);
}

#[test]
fn the_sound_pair_is_not_refused() {
    let mut lent = Lent::as_listing();
    let case = encode_case(&sound_case());
    assert_eq!(lent.saturate(&case).0, 0);
    assert_eq!(lent.judge(&case, &encode_start(&sound_start())), 0);
}

#[test]
fn counts_of_the_case() {
    assert_case(1, |case| case.rules = vec![case.rules[0]; 257]);
    assert_case(1, |case| case.edges = vec![case.edges[0]; 63]);
    assert_case(1, |case| case.moves = vec![case.moves[0]; 1025]);
    // Body 1 not at all, and twice, each with offsets and a length that fit.
    let sound = encode_case(&sound_case());
    let (contents, fields, rest) = (&sound[..33], &sound[33..47], &sound[47..]);
    for times in [0, 2] {
        let mut file = contents.to_vec();
        file[3] = times;
        for line in 1..4 {
            file[5 + 8 * line] = contents[5 + 8 * line] - 14 + 14 * times;
        }
        file.extend(fields.repeat(times.into()));
        file.extend(rest);
        assert_case_bytes(&file, 1);
    }
}

#[test]
fn fields_of_the_case() {
    assert_case(2, |case| case.controls = 0);
    assert_case(2, |case| case.controls = 9);
    assert_case(2, |case| case.inner_two = 9);
    assert_case(2, |case| case.inner_one = 17);
    assert_case(2, |case| case.symbols = 0);
    assert_case(2, |case| case.symbols = 33);
    // Order-2 states that do not exist, alone and beside one that does; entries.
    assert_case(2, |case| case.final_two = 0b10000);
    assert_case(2, |case| case.final_two = 0b10001);
    assert_case(2, |case| case.final_two = only(15));
    assert_case(2, |case| case.final_one = 0b100);
    assert_case(2, |case| case.final_one = 0b1010);
    assert_case(2, |case| {
        case.entries[0].is_final = true;
        case.final_one = 0b100;
    });
}

/// "The final order-2 set may name controls, and an entry written with second byte
/// 254 instead of 255 is final" (document 02, §3). Start 1 of the sound pair is
/// the empty stack from control 0, and in the target if that is final.
#[test]
fn final_controls_and_entries_are_not_refused() {
    let mut lent = Lent::as_listing();
    let start = encode_start(&sound_start());
    for final_two in 0..16 {
        for marks in 0..4 {
            let mut case = sound_case();
            case.final_two = final_two;
            case.entries[0].is_final = has(marks, 0);
            case.entries[1].is_final = has(marks, 1);
            assert_eq!(lent.judge(&encode_case(&case), &start), 0);
            assert_eq!(lent.answers[1], u16::from(has(final_two, 0)));
        }
    }
}

#[test]
fn rules_of_the_case() {
    assert_case(3, |case| case.rules[0].from = 2);
    assert_case(3, |case| case.rules[0].symbol = 2);
    assert_case(3, |case| case.rules[0].code = 0);
    assert_case(3, |case| case.rules[2].code = 9);
    assert_case(3, |case| case.rules[0].put = 2);
    assert_case(3, |case| case.rules[0].to = 2);
    // "From code 4 on b is 0."
    for code in 4..=8 {
        assert_case(3, |case| case.rules[0].code = code);
    }
}

#[test]
fn edges_of_the_case() {
    assert_case(3, |case| case.entries[0].entry.set = 0b1);
    assert_case(3, |case| case.entries[0].entry.set = 0b10000);
    assert_case(3, |case| case.edges[2].state = 4);
    for second in [2, 3, 253, 254, 255] {
        assert_case(3, |case| case.edges[2].one = second);
    }
    assert_case(3, |case| case.edges[2].set = 0b10);
    // The second byte of the first entry, after three rules.
    let mut file = encode_case(&sound_case());
    assert_eq!(file[62..66], [0, 255, 0b100, 0]);
    for second in 0..254 {
        file[63] = second;
        assert_case_bytes(&file, 3);
    }
}

/// The sets of bodies 3 and 4 name inner states only, whatever is final.
#[test]
fn sets_name_inner_states_only() {
    let assert_all_final = |change: fn(&mut Case)| {
        assert_case(3, |case| {
            case.final_two = 0b1111;
            case.entries = vec![FileEntry::finished(0, 0b100), FileEntry::finished(1, 0)];
            change(case);
        });
    };
    assert_all_final(|case| case.entries[0].entry.set = 0b1);
    assert_all_final(|case| case.edges[2].set = 0b10);
    assert_all_final(|case| case.moves[0].rest = 0b100);
    assert_all_final(|case| case.moves[1].note = 0b1000);
    assert_all_final(|case| case.moves[2].note = 0b10);
}

#[test]
fn moves_of_the_case() {
    assert_case(3, |case| case.moves[2].state = 4);
    assert_case(3, |case| case.moves[0].symbol = 2);
    assert_case(3, |case| case.moves[1].order = 3);
    assert_case(3, |case| case.moves[0].rest = 0b100);
    // "B is empty exactly at order 0."
    assert_case(3, |case| case.moves[1].order = 0);
    assert_case(3, |case| case.moves[1].note = 0);
    assert_case(3, |case| case.moves[2].note = 0);
    // An entry, and a control.
    assert_case(3, |case| case.moves[1].note = 0b100);
    assert_case(3, |case| case.moves[2].note = 0b10);
}

/// "J and the file's entries together are at most 64."
#[test]
fn entries_of_the_case() {
    let with_entries = |case: &mut Case, count: u8| {
        *case = Case {
            controls: 8,
            inner_two: 3,
            inner_one: 16,
            final_two: 0,
            rules: Vec::new(),
            edges: Vec::new(),
            moves: Vec::new(),
            ..sound_case()
        };
        case.entries = (0..count).map(entry).collect();
    };
    assert_case(3, |case| with_entries(case, 49));
    let mut case = sound_case();
    with_entries(&mut case, 48);
    let mut lent = Lent::as_listing();
    assert_eq!(lent.saturate(&encode_case(&case)), (0, 0, 48));
}

/// "Strictly increasing."
#[test]
fn order_of_edges_and_moves() {
    assert_case(4, |case| case.entries.swap(0, 1));
    assert_case(4, |case| case.entries[1] = case.entries[0]);
    assert_case(4, |case| case.edges.swap(0, 1));
    assert_case(4, |case| case.edges[1] = case.edges[0]);
    // By (state, S, second byte): the second byte comes last.
    assert_case(4, |case| case.edges[1] = edge(2, 0, 0));
    assert_case(4, |case| case.moves.swap(0, 1));
    assert_case(4, |case| case.moves[1] = case.moves[0]);
}

/// "A second entry for the same state and S is refusal 4" (document 02, §3),
/// whichever of 254 and 255 stand there; also where (state, S, second byte) rises.
#[test]
fn second_entries() {
    let (plain, finished) = (FileEntry::plain, FileEntry::finished);
    for first in [plain, finished] {
        for second in [plain, finished] {
            let twice = |control, set| vec![first(control, set), second(control, set)];
            assert_case(4, |case| case.entries = twice(0, 0b100));
            assert_case(4, |case| {
                case.entries.truncate(1);
                case.entries.extend(twice(1, 0));
            });
            // A set that names a control comes first.
            assert_case(3, |case| case.entries = twice(0, 0b1));
        }
    }
    // The same set at two controls, and two sets at one control.
    let mut lent = Lent::as_listing();
    for (control, set) in [(1, 0b100), (0, 0b1000)] {
        let mut case = sound_case();
        case.entries = vec![finished(0, 0b100), plain(control, set)];
        assert_eq!(lent.saturate(&encode_case(&case)).0, 0);
    }
}

/// "The lowest number that applies is returned."
#[test]
fn the_lowest_number() {
    assert_case(2, |case| {
        case.final_one = 0b100;
        case.moves[0].rest = 0b100;
    });
    assert_case(3, |case| {
        case.edges.swap(0, 1);
        case.moves[2].state = 4;
    });
    let mut start = sound_start();
    start.starts[0].control = 2;
    let start = encode_start(&start);
    let mut case = sound_case();
    case.moves.swap(0, 1);
    assert_pair_bytes(&encode_case(&case), &start, 4);
    assert_pair_bytes(&encode_case(&sound_case()), &start[..20], 5);
}

#[test]
fn counts_of_the_start_file() {
    assert_start(5, |start| start.starts.clear());
    assert_start(5, |start| start.starts = vec![start.starts[0]; 65]);
    assert_start(5, |start| start.cells.clear());
    assert_start(5, |start| start.cells.resize(257, Cell::EmptyOne));
}

#[test]
fn fields_of_the_start_file() {
    assert_start(6, |file| file.starts[0].control = 2);
    assert_start(6, |file| file.starts[0].root = 4);
    assert_start(6, |file| file.starts[0].root = 2);
    assert_start(6, |file| file.cells[2] = symbol(2, 1, 0));
    // References to the cell itself, to a higher one, to the wrong order.
    assert_start(6, |file| file.cells[2] = symbol(1, 2, 0));
    assert_start(6, |file| file.cells[2] = symbol(1, 3, 0));
    assert_start(6, |file| file.cells[2] = symbol(1, 1, 2));
    assert_start(6, |file| file.cells[2] = symbol(1, 1, 1));
    assert_start(6, |file| file.cells[3] = pair(1, 1));
    assert_start(6, |file| file.cells[3] = pair(2, 2));
    assert_start(6, |file| file.cells[3] = pair(2, 3));
    assert_start(6, |file| file.cells[3] = pair(2, 65535));
}

/// Kinds that do not exist, and "unused fields are 0". The cells start at byte
/// 23.
#[test]
fn kinds_and_unused_fields_of_the_start_file() {
    assert_start_byte(23, 0);
    assert_start_byte(23 + 18, 5);
    for unused in 1..6 {
        assert_start_byte(23 + unused, 1);
        assert_start_byte(29 + unused, 1);
    }
    assert_start_byte(23 + 18 + 1, 1);
}

/// "Guide: the start named is not in the file", before 9, for replay before 10 and
/// 11, and for brackets before 13.
#[test]
fn the_start_named() {
    let case = encode_case(&sound_case());
    let start = encode_start(&sound_start());
    for number in [2, 64, u64::MAX] {
        for mut lent in [Lent::as_listing(), Lent::new(0, 0, 0, 9)] {
            assert_eq!(lent.guide(&case, &start, number), Refused(7));
            assert!(lent.tables_are_zero() && lent.cells_are_zero());
            assert!(lent.trace_is_zero_from(0));
            let replay = lent.replay(&case, &start, number, &[1]);
            assert_eq!(replay, ReplayReply::Refused(7));
            assert!(lent.replay_cells_are_zero());
            lent.text.truncate(1);
            assert_eq!(lent.brackets(&case, &start, number), (7, 0));
            assert!(lent.text_is_zero_from(0));
        }
    }
}

/// Judge: fewer answer words than starts, before 9. One word for two starts is
/// too few, although it has two bytes.
#[test]
fn the_answers_lent() {
    let case = encode_case(&sound_case());
    let start = encode_start(&sound_start());
    for mut lent in [Lent::as_listing(), Lent::new(0, 0, 0, 0)] {
        lent.answers.truncate(1);
        assert_eq!(lent.judge(&case, &start), 8);
        assert!(lent.tables_are_zero() && lent.answers_are_zero());
    }
    let mut lent = Lent::new(0, 0, 0, 0);
    lent.answers.truncate(2);
    assert_eq!(lent.judge(&case, &start), 9);
}

/// "More than 64 order-1 states", although more entries are lent: the rules pop
/// from every one of eight controls to every one.
#[test]
fn order_one_states_of_the_table() {
    let mut case = Case::without_records(8, 0, 0, 1);
    for from in 0..8 {
        case.rules.extend((0..8).map(|to| Rule {
            from,
            symbol: 0,
            code: 6,
            put: 0,
            to,
        }));
    }
    let mut lent = Lent::new(1024, 100, 0, 0);
    assert_eq!(lent.saturate(&encode_case(&case)), (0, 64, 64));
    case.inner_one = 1;
    assert_eq!(lent.saturate(&encode_case(&case)), (9, 0, 0));
}

/// "More moves than lent or than 1,024": 1,024 moves in the file, and one by a
/// rule.
#[test]
fn moves_of_the_table() {
    let mut case = sound_case();
    case.inner_one = 5;
    case.symbols = 32;
    case.rules.clear();
    let moves = (0..32).flat_map(|symbol| (0..32).map(move |rest| a_move(0, symbol, 0, 0, rest)));
    case.moves = moves.collect();
    let mut lent = Lent::new(2000, 64, 0, 0);
    assert_eq!(lent.saturate(&encode_case(&case)), (0, 1024, 2));
    case.rules.push(Rule {
        from: 0,
        symbol: 0,
        code: 6,
        put: 0,
        to: 0,
    });
    assert_eq!(lent.saturate(&encode_case(&case)), (9, 0, 0));
}

/// Start 1 is the empty stack, and no control is final; start 0 is in the target
/// only by its annotation, the empty order-2 stack, which state 3 accepts and
/// state 2 does not.
#[test]
fn no_run_and_cells_short() {
    let mut case = sound_case();
    let start = encode_start(&sound_start());
    let mut lent = Lent::new(1024, 64, 3, 9);
    assert_eq!(lent.guide(&encode_case(&case), &start, 1), NoRun);
    assert_eq!(lent.guide(&encode_case(&case), &start, 0), NoRun);
    case.moves[2].note = 0b1000;
    let short = CellsShort { steps: 0, cells: 0 };
    assert_eq!(lent.guide(&encode_case(&case), &start, 0), short);
    assert!(lent.tables_are_zero() && lent.cells_are_zero());
    assert!(lent.trace_is_zero_from(0));
}
