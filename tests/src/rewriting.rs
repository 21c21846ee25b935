//! "A case with such a body has the marks, trace and refusals from 3 on of the case
//! rewritten to our codes" (document 02, §5): what one of the two implementations
//! answers to coded cases beside what it answers to their rewritings.

use self::Met::*;
use crate::callers::{Answers, Services};
use crate::coded::{RECORDS, coded, coded_pairs, record, rewritten, rule_codes};
use crate::codes::{OURS, Record};
use crate::contents::case_bodies;
use crate::damage::changed;
use crate::damage_codes::{KINDS, changed_codes};
use crate::data::{hex, vectors};
use crate::encode::{encode_case, encode_start};
use crate::file::{Case, Cell, FileEntry, StartFile};
use crate::generate::Pair;
use crate::kinds::Kinds;
use crate::lent::Lent;
use crate::pairs::{gathered_pairs, pairs};
use crate::random::Random;
use crate::replay::ReplayReply;
use crate::services::GuideReply;
use crate::sound::{a_move, pair, rule, start, symbol};
use crate::traces::{recorded, traces};

/// Memory that is enough for most generated pairs.
fn memory() -> Lent {
    Lent::new(200, 64, 64, 20)
}

/// The answers to a coded case, which must be those to its rewriting.
fn same_answers(
    services: Services,
    files: (&[u8], &[u8]),
    number: u64,
    traces: &[Vec<u8>],
    name: &str,
) -> Answers {
    let lent = memory();
    let own = services.answers(&lent, files, number, traces);
    let plain = rewritten(files.0);
    let other = services.answers(&lent, (&plain, files.1), number, traces);
    assert!(
        own == other,
        "{name} start {number}\ncoded {}\nrewritten {}\ncase {}\nstart {}",
        own.in_short(),
        other.in_short(),
        hex(files.0),
        hex(files.1)
    );
    own
}

// ---- generated pairs

/// What was answered.
#[derive(Clone, Copy, Debug, PartialEq, Eq, PartialOrd, Ord)]
enum Met {
    TooLarge,
    NoStart,
    NoRun,
    Walked,
    Accepted,
    Fails,
    Short,
    Printed,
    TooLong,
}

/// How many of these there are.
const ALL_MET: usize = 9;

/// Generated pairs, each with a record, from all starts and the number after them.
pub fn check_pairs(services: Services) {
    let mut random = Random::new(51);
    let mut met = Kinds::default();
    for (name, pair) in coded_pairs(pairs(25).chain(gathered_pairs(25))) {
        let files = (&pair.case_file[..], &pair.start_file[..]);
        for number in 0..pair.start.starts.len() {
            let traces = some_traces(&mut random, &pair, number);
            let answers = same_answers(services, files, number as u64, &traces, &name);
            met.count(met_in(&answers));
        }
        let after = pair.start.starts.len() as u64;
        met.count(met_in(&same_answers(services, files, after, &[], &name)));
    }
    println!("{met:?}");
    assert!(met.rarest(ALL_MET) >= 50, "{met:?}");
}

/// A few of the traces for a start, the guide's among them.
fn some_traces(random: &mut Random, pair: &Pair, number: usize) -> Vec<Vec<u8>> {
    let guided = pair.guided(&mut memory(), number);
    let all = traces(random, pair, number, guided.as_deref());
    let first = all.iter().take(2);
    let some = first.chain(all.iter().skip(2).step_by(9));
    some.map(|trace| recorded(trace)).collect()
}

fn met_in(answers: &Answers) -> Vec<Met> {
    let guided = match answers.guide.0 {
        GuideReply::Refused(9) => Some(TooLarge),
        GuideReply::Refused(7) => Some(NoStart),
        GuideReply::Refused(_) => None,
        GuideReply::NoRun => Some(NoRun),
        reply => (reply.steps() > 0).then_some(Walked),
    };
    let replayed = answers.replays.iter().map(|replay| match replay.0 {
        ReplayReply::Accepted => Accepted,
        ReplayReply::Fails { .. } => Fails,
        ReplayReply::Refused(_) => Short,
    });
    let printed = match answers.brackets.0 {
        (0, _) => Some(Printed),
        (13, _) => Some(TooLong),
        _ => None,
    };
    guided.into_iter().chain(replayed).chain(printed).collect()
}

// ---- the files that came with document 01

/// The vectors, given records, are listed as without; so are those that are
/// refused, but for wrong contents.
pub fn check_vectors(services: Services) {
    let mut listed = 0;
    let mut random = Random::new(52);
    for vector in vectors() {
        if case_bodies(&vector.case).is_none() {
            continue;
        }
        let plain = (services.listing)(&vector.case, &vector.start);
        for record in [random.pick(&RECORDS), record(&mut random)] {
            let case = coded(&vector.case, &record);
            let printed = (services.listing)(&case, &vector.start);
            assert_eq!(printed, plain, "{} in {record:?}", vector.name);
        }
        listed += 1;
    }
    assert!(listed >= 200, "{listed} vectors");
}

// ---- every code

/// A case with one rule, of this operation, that puts symbol 1 or none. No two
/// operations give the same table.
fn one_rule(operation: u8) -> Case {
    let put = u8::from(operation < 4);
    Case {
        rules: vec![rule(0, 0, operation, put, 1)],
        entries: vec![FileEntry::plain(1, 0)],
        moves: vec![
            a_move(1, 0, 0, 0, 0),
            a_move(1, 1, 1, 0b1, 0),
            a_move(1, 1, 2, 0b100, 0),
        ],
        ..Case::without_records(2, 1, 1, 2)
    }
}

/// Starts from which the rule applies: each collapse from one of them.
fn two_starts() -> Vec<u8> {
    let empty = [Cell::EmptyOne, Cell::EmptyTwo];
    let stacks = [symbol(0, 0, 0), pair(2, 1), symbol(0, 1, 0), pair(4, 1)];
    encode_start(&StartFile {
        starts: vec![start(0, 3), start(0, 5)],
        cells: [&empty[..], &stacks].concat(),
    })
}

/// A record with this code for our operation.
fn record_with(operation: u8, code: u8) -> Record {
    let mut others = (1..).filter(|&other| other != code);
    let mut record = OURS.map(|_| others.next().expect("another code"));
    record[usize::from(operation) - 1] = code;
    record
}

/// Every code for every operation.
pub fn check_every_code(services: Services) {
    let start = two_starts();
    let mut tables = Vec::new();
    for operation in OURS {
        let plain = encode_case(&one_rule(operation));
        let table = services
            .answers(&memory(), (&plain, &start), 0, &[])
            .saturate;
        assert!(!tables.contains(&table), "the table of {operation}");
        tables.push(table);
        for code in 1..=255 {
            let case = coded(&plain, &record_with(operation, code));
            let name = format!("operation {operation} as {code}");
            for number in 0..2 {
                let files = (&case[..], &start[..]);
                let answers = same_answers(services, files, number, &[vec![0, 0]], &name);
                assert_eq!(answers.saturate.0.0, 0, "{name}");
            }
        }
    }
}

/// Every byte as a rule's code: refused with 3 exactly if it is not in the record.
pub fn check_every_byte(services: Services) {
    let start = two_starts();
    let traces = [vec![0, 0]];
    for record in RECORDS {
        let sound = coded(&encode_case(&one_rule(4)), &record);
        let at = rule_codes(&sound)[0];
        for code in 0..=255 {
            let case = changed(&sound, at, code);
            let name = format!("{code} with {record:?}");
            let answers = same_answers(services, (&case, &start), 0, &traces, &name);
            let refused = answers.are_refusal(3);
            assert_eq!(refused, !record.contains(&code), "{name}");
        }
    }
}

/// A rule's b is judged by our operation, whatever the tool's code: every small b
/// with every operation under every code up to nine and a large one.
pub fn check_every_symbol(services: Services) {
    let start = two_starts();
    for operation in OURS {
        for code in [1, 2, 3, 4, 5, 6, 7, 8, 9, 255] {
            for put in 0..4 {
                let mut case = one_rule(operation);
                case.rules[0].put = put;
                let case = coded(&encode_case(&case), &record_with(operation, code));
                let name = format!("operation {operation} as {code} with b {put}");
                let answers = same_answers(services, (&case, &start), 0, &[], &name);
                let most = if operation < 4 { 1 } else { 0 };
                assert_eq!(answers.are_refusal(3), put > most, "{name}");
            }
        }
    }
}

// ---- damage

/// Each change to a record, to its place or to what codes stand for is refused as
/// it must be by every service, with a sound start file and a wrong one; or it
/// passes. Each of 1, 2, 12, 3 and 4 occurs.
pub fn check_damage(services: Services) {
    let mut random = Random::new(53);
    let (mut kinds, mut refusals) = (Kinds::default(), Kinds::default());
    for (name, pair) in pairs(6).filter(|(_, pair)| pair.case_file.len() < 500) {
        let record = record(&mut random);
        for (kind, copy) in changed_codes(&pair.case, &record) {
            let name = format!("{kind:?} of {name} in {record:?}");
            check_copy(services, &pair, &copy, kind.refusal(), &name);
            kinds.count([kind]);
            refusals.count(kind.refusal());
        }
    }
    println!("{kinds:?} {refusals:?}");
    assert!(kinds.rarest(KINDS) >= 20, "{kinds:?}");
    assert!(refusals.rarest(5) >= 20, "{refusals:?}");
}

fn check_copy(services: Services, pair: &Pair, case: &[u8], refusal: Option<u64>, name: &str) {
    let (start, traces) = (&pair.start_file[..], [vec![0, 0]]);
    let short_start = &start[..start.len() - 1];
    let Some(refusal) = refusal else {
        let answers = same_answers(services, (case, start), 0, &traces, name);
        assert!(matches!(answers.saturate.0.0, 0 | 9), "{name}");
        same_answers(services, (case, short_start), 0, &traces, name);
        return;
    };
    for start in [start, short_start] {
        let answers = services.answers(&memory(), (case, start), 0, &traces);
        let short = answers.in_short();
        let files = format!("case {}\nstart {}", hex(case), hex(start));
        assert!(answers.are_refusal(refusal), "{name}: {short}\n{files}");
    }
}
