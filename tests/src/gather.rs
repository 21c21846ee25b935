//! Generated pairs of files whose rounds read sets of several entries, by moves
//! that come late and in different rounds.
//!
//! A copy gathers such a set: the symbols beneath the top are read in the copy
//! above, up to a pop 2, and then in the copy beneath. The eight controls are
//!
//! - three sources, whose moves come round by round along a chain of symbols;
//! - three pops, each by pop 1 to its source, on a symbol outside the chain;
//! - two copies, to the second and to the third pop on that symbol: the source of
//!   the second goes by pop 2 to the first pop, that of the third to the first copy.
//!
//! So there the first copy has a move whose rest set holds entries of two sources,
//! the second copy one with entries of three.

use std::collections::BTreeSet;

use crate::encode::{encode_case, encode_start};
use crate::file::{Case, FileEntry, Move, Rule};
use crate::generate::{Pair, start};
use crate::random::Random;
use crate::shapes::GATHERED;
use crate::sound::rule;

/// The parts that controls and symbols have.
struct Parts {
    sources: [u8; 3],
    pops: [u8; 3],
    copies: [u8; 2],
    /// The symbol on which sets are gathered.
    on: u8,
    /// The other symbols.
    chain: Vec<u8>,
}

/// The pair of files of a seed.
pub fn gathered(seed: u64) -> Pair {
    let random = &mut Random::new(seed);
    let case = case(random);
    let start = start(random, &GATHERED, &case);
    Pair {
        case_file: encode_case(&case),
        start_file: encode_start(&start),
        case,
        start,
    }
}

fn case(random: &mut Random) -> Case {
    let symbols = random.byte(4, GATHERED.symbols);
    let mut case = Case::without_records(8, 0, random.byte(1, GATHERED.inner_one), symbols);
    case.final_one = random.part_of(case.inner_one_set(), 60);
    let parts = parts(random, &case);
    case.rules = gathering(&parts);
    for source in parts.sources {
        case.rules.extend(late_moves(random, source, &parts.chain));
    }
    case.rules.extend(readings(random, &parts));
    case.rules.extend(more_moves(random, &parts));
    random.shuffle(&mut case.rules);
    let mut targets = BTreeSet::from([parts.sources[0]]);
    if random.chance(40) {
        targets.insert(random.pick(&parts.sources));
    }
    let plain = |&control: &u8| FileEntry::plain(control, 0);
    case.entries = targets.iter().map(plain).collect();
    case.moves = moves(random, &case, &parts.chain);
    case
}

fn parts(random: &mut Random, case: &Case) -> Parts {
    let mut controls = [0, 1, 2, 3, 4, 5, 6, 7];
    random.shuffle(&mut controls);
    let mut chain: Vec<u8> = (0..case.symbols).collect();
    random.shuffle(&mut chain);
    let [c, d, e, f, g, h, i, j] = controls;
    Parts {
        sources: [c, d, e],
        pops: [f, g, h],
        copies: [i, j],
        on: chain.remove(0),
        chain,
    }
}

/// The rules by which the copies gather sets.
fn gathering(parts: &Parts) -> Vec<Rule> {
    let Parts {
        sources,
        pops,
        copies,
        on,
        chain,
    } = parts;
    let mut rules = vec![
        rule(sources[1], chain[0], 6, 0, pops[0]),
        rule(sources[2], chain[0], 6, 0, copies[0]),
        rule(copies[0], *on, 4, 0, pops[1]),
        rule(copies[1], *on, 4, 0, pops[2]),
    ];
    let pairs = pops.iter().zip(sources);
    rules.extend(pairs.map(|(&pop, &source)| rule(pop, *on, 5, 0, source)));
    rules
}

/// Rewrites along the chain, and a few over several links of it.
fn late_moves(random: &mut Random, source: u8, chain: &[u8]) -> Vec<Rule> {
    let mut rules = Vec::new();
    for link in 1..chain.len() {
        for (chance, back) in [(90, 1), (25, random.between(1, link))] {
            if random.chance(chance) {
                rules.push(rule(source, chain[link], 1, chain[link - back], source));
            }
        }
    }
    rules
}

/// Pushes that read the sets gathered, and a copy that reads from a source.
fn readings(random: &mut Random, parts: &Parts) -> Vec<Rule> {
    let Parts {
        sources,
        pops,
        copies,
        on,
        chain,
    } = parts;
    let mut rules = Vec::new();
    for _ in 0..random.between(1, 3) {
        let from = random.pick(&[pops[0], pops[1], copies[0], copies[1]]);
        let code = random.byte(2, 3);
        rules.push(rule(
            from,
            random.pick(chain),
            code,
            *on,
            random.pick(copies),
        ));
    }
    if random.chance(70) {
        let (symbol, below) = (random.pick(chain), random.pick(pops));
        rules.push(rule(below, symbol, 6, 0, random.pick(sources)));
        rules.push(rule(random.pick(copies), symbol, 4, 0, below));
    }
    rules
}

/// More moves of the sources, some of them of entries found late, and a few rules of
/// any kind.
fn more_moves(random: &mut Random, parts: &Parts) -> Vec<Rule> {
    let Parts {
        sources,
        pops,
        copies,
        on,
        chain,
    } = parts;
    let mut rules = Vec::new();
    for at in [1, 2] {
        if random.chance(60) {
            let code = random.pick(&[5, 7]);
            rules.push(rule(sources[at], random.pick(chain), code, 0, pops[at]));
        }
    }
    if random.chance(50) {
        let to = random.pick(&sources[1..]);
        let (symbol, put) = (random.pick(chain), random.pick(chain));
        rules.push(rule(sources[0], symbol, 1, put, to));
    }
    let controls = [&sources[..], pops, copies].concat();
    let symbols = [chain, &[*on][..]].concat();
    for _ in 0..random.between(0, 3) {
        let (from, symbol) = (random.pick(&controls), random.pick(&symbols));
        let code = random.byte(1, 8);
        let put = if code < 4 { random.pick(&symbols) } else { 0 };
        rules.push(rule(from, symbol, code, put, random.pick(&controls)));
    }
    rules
}

/// Moves of the inner states on most symbols, and of the entries on the first of the
/// chain.
fn moves(random: &mut Random, case: &Case, chain: &[u8]) -> Vec<Move> {
    let mut moves = BTreeSet::new();
    let inner = case.inner_one_set();
    let mut add = |random: &mut Random, state, symbol| {
        let note = if random.chance(30) {
            random.part_of(inner, 50)
        } else {
            0
        };
        moves.insert(Move {
            state,
            symbol,
            order: u8::from(note != 0),
            note,
            rest: random.part_of(inner, GATHERED.members),
        });
    };
    for state in 0..case.inner_one {
        for symbol in 0..case.symbols {
            if random.chance(70) {
                add(random, state, symbol);
            }
        }
    }
    for (state, _) in case.numbered_entries() {
        for _ in 0..random.between(1, GATHERED.moves) {
            let symbol = random.pick(&chain[..2]);
            add(random, state, symbol);
        }
    }
    moves.into_iter().collect()
}
