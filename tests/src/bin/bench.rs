//! Times of the services on the larger files and on the family of `flat`, by the
//! proved library and by the second implementation. Prints only.
//!
//! `cargo run --release --bin bench [NAME...]`: the folders of `tests/data/bench`
//! with these names, `family` for the family; or all of them.

use std::env;
use std::ffi::c_long;

use second::callers::{Guide, Judge, Listing, Replay, Saturate};
use second::coded::coded;
use second::codes::Record;
use second::data::{Larger, larger_files, one_start};
use second::encode::encode_case;
use second::file::decode_case;
use second::flat::{FLAT, Flat};
use second::lent::Lent;
use second::replay::{self, ReplayReply};
use second::saturation::ALL_ROUNDS;
use second::services::{self, GuideReply, LISTING_SIZE};
use second::traces::recorded;
use second::{proved, saturation};

/// The second implementation is left out where it would take longer.
const MOST_MILLISECONDS: f64 = 20_000.0;

/// A call is made again until all its times together are as long.
const LEAST_MILLISECONDS: f64 = 500.0;

/// A replay is short: each is made so often.
const REPLAYS: usize = 100;

/// The codes of a supplier, for one more line of a file.
const CODES: Record = [20, 10, 30, 40, 50, 60, 70, 80];

/// The name that stands for the family.
const FAMILY: &str = "family";

/// The services of one of the two.
struct Services {
    saturate: Saturate,
    judge: Judge,
    guide: Guide,
    listing: Listing,
    replay: Replay,
}

const PROVED: Services = Services {
    saturate: proved::saturate,
    judge: proved::judge,
    guide: proved::guide,
    listing: proved::listing,
    replay: proved::replay,
};

const SECOND: Services = Services {
    saturate: services::saturate,
    judge: services::judge,
    guide: services::guide,
    listing: services::listing,
    replay: replay::replay,
};

impl Services {
    fn saturate(&self, case: &[u8]) -> f64 {
        let mut lent = Lent::as_listing();
        timed(|| {
            (self.saturate)(case, &mut lent.moves, &mut lent.entries);
        })
    }

    /// Judges by all rounds.
    fn judge(&self, case: &[u8], start: &[u8]) -> f64 {
        let mut lent = Lent::as_listing();
        timed(|| {
            let Lent {
                moves,
                entries,
                answers,
                ..
            } = &mut lent;
            (self.judge)(case, start, ALL_ROUNDS, moves, entries, answers);
        })
    }

    /// Guides from every start, by all rounds.
    fn guide(&self, case: &[u8], start: &[u8]) -> f64 {
        let mut lent = Lent::as_listing();
        timed(|| {
            for number in 0..starts(start) {
                let Lent {
                    moves,
                    entries,
                    cells,
                    trace,
                    ..
                } = &mut lent;
                (self.guide)(
                    case, start, number, ALL_ROUNDS, moves, entries, cells, trace,
                );
            }
        })
    }

    fn listing(&self, case: &[u8], start: &[u8]) -> f64 {
        timed(|| {
            (self.listing)(case, start);
        })
    }

    /// Replays the runs, each of which is accepted.
    fn replay(&self, case: &[u8], start: &[u8], runs: &[(u64, Vec<u8>)]) -> f64 {
        let mut cells = Lent::as_listing().replay_cells;
        timed(|| {
            for (number, trace) in runs.iter().cycle().take(REPLAYS * runs.len()) {
                let reply = (self.replay)(case, start, *number, trace, &mut cells);
                assert_eq!(reply, ReplayReply::Accepted);
            }
        })
    }
}

/// What the proved guide writes for each start from which it arrives, with the
/// start's number.
fn runs(case: &[u8], start: &[u8]) -> Vec<(u64, Vec<u8>)> {
    let run = |number: u64| {
        let Lent {
            mut moves,
            mut entries,
            mut cells,
            mut trace,
            ..
        } = Lent::as_listing();
        let reply = proved::guide(
            case,
            start,
            number,
            ALL_ROUNDS,
            &mut moves,
            &mut entries,
            &mut cells,
            &mut trace,
        );
        let arrived = matches!(reply, GuideReply::Arrived { .. });
        arrived.then(|| (number, recorded(&trace[..reply.steps()])))
    };
    (0..starts(start)).filter_map(run).collect()
}

unsafe extern "C" {
    /// The processor time of this process, in millionths of a second (POSIX).
    safe fn clock() -> c_long;
}

/// The milliseconds of processor time that a call takes: the least of some.
fn timed(mut call: impl FnMut()) -> f64 {
    let (mut least, mut all) = (f64::INFINITY, 0.0);
    while all < LEAST_MILLISECONDS {
        let before = clock();
        call();
        let milliseconds = (clock() - before) as f64 / 1000.0;
        least = least.min(milliseconds);
        // The clock may be too coarse for a short call.
        all += milliseconds.max(0.001);
    }
    least
}

/// A sound start file has the number of its starts at byte 3.
fn starts(start: &[u8]) -> u64 {
    u16::from_le_bytes([start[3], start[4]]).into()
}

fn main() {
    let names: Vec<String> = env::args().skip(1).collect();
    println!("milliseconds of processor time by the proved library, by the second");
    println!("implementation, and their ratio");
    if names.is_empty() {
        larger_files().iter().for_each(bench);
        bench_family();
    }
    for name in &names {
        if name == FAMILY {
            bench_family();
        } else {
            bench(&Larger::named(name));
        }
    }
}

fn bench(file: &Larger) {
    let Larger {
        name, case, start, ..
    } = file;
    let (moves, entries, rounds) = table(case);
    println!("{name}: moves {moves} entries {entries} rounds {rounds}");
    let second = SECOND.saturate(case);
    print_line("saturate", PROVED.saturate(case), Some(second));
    let in_codes = coded(case, &CODES);
    let what = "saturate, a supplier's codes";
    let coded = SECOND.saturate(&in_codes);
    print_line(what, PROVED.saturate(&in_codes), Some(coded));
    let starts = starts(start);
    // Each call of the other services saturates once.
    let soon = |calls: u64| second * calls as f64 <= MOST_MILLISECONDS;
    let judged = soon(1).then(|| SECOND.judge(case, start));
    print_line("judge", PROVED.judge(case, start), judged);
    let guided = soon(starts).then(|| SECOND.guide(case, start));
    let proved = PROVED.guide(case, start);
    print_line(&format!("guide, {starts} starts"), proved, guided);
    let listed = soon(1).then(|| SECOND.listing(case, start));
    print_line("listing", PROVED.listing(case, start), listed);
    let runs = runs(case, start);
    if !runs.is_empty() {
        let proved = PROVED.replay(case, start, &runs);
        let replayed = SECOND.replay(case, start, &runs);
        let what = format!("replay, {} runs, {REPLAYS} times", runs.len());
        print_line(&what, proved, Some(replayed));
    }
}

/// The numbers of moves, entries and rounds of the case's table.
fn table(case: &[u8]) -> (usize, usize, usize) {
    let lent = LISTING_SIZE;
    let case = decode_case(case).expect("a sound case");
    let table = saturation::saturate(&case, lent).expect("a table that fits");
    (table.moves().len(), table.entries().len(), table.rounds())
}

/// The whole of `flat`, then a quarter and a half of its repeated rules, of its
/// rounds and of its wide entry's moves, the others whole.
fn bench_family() {
    println!("the family of flat, by the results that have to be looked at");
    bench_flat("whole", &FLAT);
    for (part, share) in [("a quarter", 4), ("a half", 2)] {
        let repeats = FLAT.repeats / share;
        let chain = FLAT.chain / share;
        let wide = FLAT.wide / share;
        bench_flat(&format!("{part} of the rules"), &Flat { repeats, ..FLAT });
        bench_flat(&format!("{part} of the rounds"), &Flat { chain, ..FLAT });
        bench_flat(&format!("{part} of the wide moves"), &Flat { wide, ..FLAT });
    }
}

fn bench_flat(what: &str, flat: &Flat) {
    let Flat { repeats, wide, .. } = flat;
    let (rounds, results) = (flat.rounds(), flat.results());
    println!("{what}: rules {repeats} rounds {rounds} wide moves {wide} results {results}");
    let (case, start) = (encode_case(&flat.case()), one_start());
    let second = SECOND.saturate(&case);
    print_line("saturate", PROVED.saturate(&case), Some(second));
    let second = SECOND.listing(&case, &start);
    print_line("listing", PROVED.listing(&case, &start), Some(second));
}

fn print_line(what: &str, proved: f64, second: Option<f64>) {
    match second {
        Some(second) => {
            let ratio = proved / second;
            println!("    {what}: {proved:.3} {second:.3} {ratio:.2}");
        }
        None => println!("    {what}: {proved:.3}, second left out: over {MOST_MILLISECONDS} ms"),
    }
}
