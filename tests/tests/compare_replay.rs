//! The proved library's replay against the second implementation: answers and
//! every lent byte, on generated traces, lengths of every kind, runs as long and
//! stacks as deep as the cells allow. `compare_files.rs` and `compare_damage.rs`
//! have the files of the documents, files at their limits and damaged files.

use second::attempts::count_answers;
use second::compare::Both;
use second::deep::{MOST_PUSHES, MOST_ROUNDS, deep_case, deep_start, pushes, up, up_and_down};
use second::generate::{Pair, pair};
use second::lent::Lent;
use second::models::{CASE_A, START_A};
use second::pairs::pairs;
use second::random::{Random, seeds};
use second::replay::REPLAY_CELL_BYTES;
use second::replay::ReplayReply::{self, Accepted, Fails, Refused};
use second::services::GuideReply::Arrived;
use second::services::{LISTING_ENTRIES, LISTING_MOVES, MOST_CELLS};
use second::shapes::WIDE;
use second::traces::{Wandering, recorded, traces, wander};

/// The answer of both with so many bytes of cells.
fn answer(files: (&[u8], &[u8]), number: u64, trace: &[u8], bytes: usize) -> ReplayReply {
    let mut lent = Lent::new(0, 0, 0, 0);
    lent.replay_cells.resize(bytes, 0);
    Both::new(lent).replay(files.0, files.1, number, trace)
}

fn files(pair: &Pair) -> (&[u8], &[u8]) {
    (&pair.case_file, &pair.start_file)
}

/// Traces of every kind, with few and many cells, and bytes that make up no
/// whole cell. Each kind of answer occurs.
#[test]
fn generated_traces() {
    let answers = count_answers(&mut Random::new(12), 25, |attempt| {
        let partial = attempt.trace.len() % REPLAY_CELL_BYTES;
        let bytes = attempt.cells * REPLAY_CELL_BYTES + partial;
        let trace = recorded(attempt.trace);
        let number = attempt.number as u64;
        answer(files(attempt.pair), number, &trace, bytes)
    });
    println!("{answers:?}");
    assert!(answers.rarest() >= 50, "{answers:?}");
}

/// "Every trace of the guide that arrived is accepted if the replay has cells":
/// as many as the guide says, and 11 with one fewer. With a number that no rule
/// has behind it the trace fails there.
#[test]
fn traces_of_the_guide() {
    let mut both = Both::new(Lent::new(LISTING_MOVES, LISTING_ENTRIES, 1024, 1024));
    let mut accepted = 0;
    for (name, pair) in pairs(60) {
        for number in 0..pair.start.starts.len() as u64 {
            let reply = both.guide(&pair.case_file, &pair.start_file, number);
            let Arrived { steps, cells } = reply else {
                continue;
            };
            let mut trace = recorded(&both.lent.trace[..reply.steps()]);
            let with = |trace: &[u8], cells: usize| {
                answer(files(&pair), number, trace, cells * REPLAY_CELL_BYTES)
            };
            let used = cells as usize;
            assert_eq!(with(&trace, used), Accepted, "{name} start {number}");
            assert_eq!(with(&trace, MOST_CELLS + 9), Accepted);
            assert_eq!(with(&trace, used - 1), Refused(11), "{name} start {number}");
            trace.extend([255, 255]);
            assert_eq!(with(&trace, used), Fails { step: steps });
            accepted += usize::from(steps > 0);
        }
    }
    println!("{accepted} traces with steps");
    assert!(accepted >= 100);
}

/// Every length of lent bytes, up to more than the trace takes, and the trace
/// cut at every byte.
#[test]
fn every_small_length() {
    let mut random = Random::new(14);
    let (mut odd, mut refused, mut others) = (0, 0, 0);
    for (_, pair) in pairs(3) {
        for trace in traces(&mut random, &pair, 0, None) {
            let used = pair.cells_after(&trace[..pair.longest_run(0, &trace)]);
            let trace = recorded(&trace);
            for bytes in 0..=REPLAY_CELL_BYTES * (used + 1) {
                match answer(files(&pair), 0, &trace, bytes) {
                    Refused(_) => refused += 1,
                    _ => others += 1,
                }
            }
            for length in 0..trace.len() {
                let cut = &trace[..length];
                let reply = answer(files(&pair), 0, cut, REPLAY_CELL_BYTES * used);
                odd += usize::from(reply == Refused(10));
            }
        }
    }
    println!("{refused} refused, {others} not, {odd} odd");
    assert!(refused >= 1000 && others >= 1000 && odd >= 1000);
}

/// Bytes, numbers and lengths that have nothing to do with the files.
#[test]
fn any_trace() {
    let mut random = Random::new(15);
    let mut refused = [0; 12];
    for (_, pair) in pairs(60) {
        for _ in 0..20 {
            let most = random.pick(&[2, pair.case.rules.len(), 255]);
            let mut trace: Vec<u8> = Vec::new();
            for _ in 0..random.between(0, 12) {
                trace.push(random.byte(0, most as u8));
                trace.push(if random.chance(95) { 0 } else { 1 });
            }
            trace.truncate(trace.len() - usize::from(random.chance(10)).min(trace.len()));
            let number = random.pick(&[0, 0, 1, 2, 3, 8, 1 << 16, u64::MAX]);
            let bytes = random.between(0, 80 * REPLAY_CELL_BYTES);
            if let Refused(number) = answer(files(&pair), number, &trace, bytes) {
                refused[number as usize] += 1;
            }
        }
    }
    println!("refused by number: {refused:?}");
    assert!([7, 10, 11].iter().all(|&number| refused[number] >= 100));
}

/// Runs of up to thousands of steps on files near the limits: with all cells
/// that count, with those that the run takes, and with one fewer.
#[test]
fn long_runs() {
    let mut random = Random::new(16);
    let (mut long, mut too_long, mut arrived) = (0, 0, 0);
    for seed in seeds(400) {
        let pair = pair(seed, &WIDE);
        let Wandering {
            trace, arrivals, ..
        } = wander(&mut random, &pair, 0, 20_000);
        let with = |steps: usize, cells: usize| {
            let trace = recorded(&trace[..steps]);
            answer(files(&pair), 0, &trace, cells * REPLAY_CELL_BYTES)
        };
        let used = pair.cells_after(&trace);
        let whole = with(trace.len(), used.max(MOST_CELLS + 100));
        assert_eq!(whole == Refused(11), used > MOST_CELLS, "wide {seed}");
        with(trace.len().saturating_sub(1), MOST_CELLS);
        for &m in [arrivals.first(), arrivals.last()].into_iter().flatten() {
            let used = pair.cells_after(&trace[..m]);
            let accepted = with(m, used) == Accepted;
            assert_eq!(accepted, used <= MOST_CELLS, "wide {seed}");
            assert_eq!(with(m, used - 1), Refused(11), "wide {seed}");
            arrived += usize::from(accepted && m >= 100);
        }
        long += usize::from(trace.len() >= 1000);
        too_long += usize::from(used > MOST_CELLS);
    }
    println!("{long} long runs, {too_long} of too many cells, {arrived} long ways into the target");
    assert!(long >= 20 && too_long >= 20 && arrived >= 20);
}

/// Stacks as deep as the cells allow, and one step further.
#[test]
fn deep_stacks() {
    let (case, start) = (deep_case(), deep_start());
    let traces = [
        up(MOST_ROUNDS),
        up(MOST_ROUNDS + 1),
        up_and_down(MOST_ROUNDS, 9),
        up_and_down(MOST_ROUNDS, MOST_ROUNDS),
        up_and_down(MOST_ROUNDS, MOST_ROUNDS + 1),
        pushes(MOST_PUSHES),
        pushes(MOST_PUSHES + 1),
    ];
    let (mut accepted, mut fails) = (0, 0);
    for trace in traces {
        for number in 0..2 {
            for cells in [MOST_CELLS - 2, MOST_CELLS - 1, MOST_CELLS, 2 * MOST_CELLS] {
                let bytes = cells * REPLAY_CELL_BYTES;
                match answer((&case, &start), number, &recorded(&trace), bytes) {
                    Accepted => accepted += 1,
                    Fails { .. } => fails += 1,
                    Refused(_) => {}
                }
            }
        }
    }
    // From start 0 both ways up and the way down, with cells enough.
    assert_eq!(accepted, 3 + 3 + 2);
    assert_eq!(fails, 2 * 6 + 3 + 3 + 2);
}

/// A trace much longer than any run: its first step fails, or the cells end.
#[test]
fn traces_longer_than_any_run() {
    let trace = vec![0; 400_000];
    let bytes = MOST_CELLS * REPLAY_CELL_BYTES;
    let failed = answer((&CASE_A, &START_A), 0, &trace, bytes);
    assert_eq!(failed, Fails { step: 1 });
    let short = answer((&deep_case(), &deep_start()), 0, &trace, bytes);
    assert_eq!(short, Refused(11));
}
