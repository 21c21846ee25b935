//! What the results of a round hang on: which of the choices that give them are
//! new, those of the round before, and which are old; and which mistakes in the
//! search for results the table of a case tells.

use std::collections::{BTreeSet, HashMap, HashSet};

use self::Kind::*;
use self::Mistake::*;
use crate::derivation::Derivation;
use crate::file::Case;
use crate::kinds::{Kinds, of_these};
use crate::lines::{First, Joined};
use crate::sets::{Set, members, only};
use crate::table::{Size, Table, View};
use crate::ways::{Found, Read, Way, every_state, ways};

/// Rounds with more ways than this are not looked at.
const MOST_WAYS: usize = 5_000;

/// What a case reaches in some round.
#[derive(Clone, Copy, Debug, PartialEq, Eq, PartialOrd, Ord)]
pub enum Kind {
    /// There are more than six rounds.
    ManyRounds,
    /// A new result arises by two rules; by two first choices of a rule; by two
    /// readings after a first choice.
    ByTwoRules,
    ByTwoFirstChoices,
    ByTwoReadings,
    /// A result that is held arises by something new.
    HeldAgain,
    /// A new result arises by edges two of which name the same order-1 state.
    NamedTwice,
    /// With the mistake some round adds other results.
    Tells(Mistake),
}

/// A search that misses results, or finds too many.
#[derive(Clone, Copy, Debug, PartialEq, Eq, PartialOrd, Ord)]
pub enum Mistake {
    /// A new move is looked for as the first choice alone; in the reading alone, if
    /// there is something to read.
    FirstAlone,
    ReadingAlone,
    /// A new first choice is not followed to new moves; no reading is followed to
    /// two new moves.
    FirstAndReading,
    TwoMembers,
    /// After an old first choice, a new move is looked for at the least member
    /// alone; at the greatest alone; at these two.
    LeastMember,
    GreatestMember,
    EndMembers,
    /// A push of order 1 with an old first move is not looked at again; of order 2;
    /// a copy.
    OldPushOne,
    OldPushTwo,
    OldCopy,
    /// A copy with an old first move is looked at again for new edges alone; for old
    /// edges alone.
    NewEdgesAlone,
    OldEdgesAlone,
    /// A new entry is no first choice of pop 1 and collapse 1.
    OldEntriesAlone,
    /// A set that had a member without a move is not read again.
    OnceDead,
    /// Each member has as many moves as the least; as the greatest.
    CountOfLeast,
    CountOfGreatest,
    /// After a first choice, of results with the same rest set only one is found;
    /// with the same annotation set; with the same edge set.
    SameRest,
    SameNote,
    SameSet,
    /// Of several members the least is not read; the greatest; one without a move.
    SkipsLeast,
    SkipsGreatest,
    SkipsDead,
}

/// The mistakes by which results are missed.
const MISSING: [Mistake; 19] = [
    FirstAlone,
    ReadingAlone,
    FirstAndReading,
    TwoMembers,
    LeastMember,
    GreatestMember,
    EndMembers,
    OldPushOne,
    OldPushTwo,
    OldCopy,
    NewEdgesAlone,
    OldEdgesAlone,
    OldEntriesAlone,
    OnceDead,
    CountOfLeast,
    CountOfGreatest,
    SameRest,
    SameNote,
    SameSet,
];

/// The mistakes by which too many are found, with the members that are read.
const SKIPPING: [(Mistake, Read); 3] = [
    (SkipsLeast, without_least),
    (SkipsGreatest, without_greatest),
    (SkipsDead, without_dead),
];

/// How many kinds there are.
pub const KINDS: usize = 6 + MISSING.len() + SKIPPING.len();

/// The set without a member, if it has others.
fn without(ones: Set, one: Option<u8>) -> Set {
    let others = one.map_or(ones, |one| ones & !only(one));
    if others == 0 { ones } else { others }
}

fn without_least(_: View, _: u8, ones: Set) -> Set {
    without(ones, members(ones).next())
}

fn without_greatest(_: View, _: u8, ones: Set) -> Set {
    without(ones, members(ones).last())
}

fn without_dead(view: View, symbol: u8, ones: Set) -> Set {
    let is_dead = |one: &u8| view.moves_on(*one, symbol).next().is_none();
    without(ones, members(ones).find(is_dead))
}

/// Counts the kinds that the case reaches, each once. False if one of its rounds has
/// too many ways.
pub fn count(counts: &mut Kinds<Kind>, case: &Case, table: &Table) -> bool {
    let mut reached = BTreeSet::new();
    reached.extend((table.rounds() > 6).then_some(ManyRounds));
    for number in 1..=table.rounds() {
        let kinds = Round::new(case, table, number).and_then(|round| round.kinds());
        let Some(kinds) = kinds else {
            return false;
        };
        reached.extend(kinds);
    }
    counts.count(reached);
    true
}

/// A round that adds something, with all ways of the rules.
struct Round<'a> {
    case: &'a Case,
    number: usize,
    view: View<'a>,
    /// What is held before the last round; in round 1 all is new.
    old: Size,
    ways: Vec<Way>,
    /// The results that the round adds, and those that are held before it.
    added: HashSet<Found>,
    held: HashSet<Found>,
}

/// The results among the moves from one number up to another: those of entries.
fn results(table: &Table, from: usize, to: usize) -> HashSet<Found> {
    let moves = table.moves()[from..to].iter();
    let result = moves.filter_map(|m| {
        let entry = table.entry_of(m.state)?;
        let joined = Joined {
            set: entry.set,
            order: m.order,
            note: m.note,
            rest: m.rest,
        };
        Some((entry.control, m.symbol, joined))
    });
    result.collect()
}

impl<'a> Round<'a> {
    fn new(case: &'a Case, table: &'a Table, number: usize) -> Option<Self> {
        let sizes = table.sizes();
        let view = table.before_round(number);
        let none = Size {
            moves: 0,
            entries: 0,
        };
        Some(Round {
            case,
            number,
            view,
            old: number.checked_sub(2).map_or(none, |at| sizes[at]),
            ways: ways(case, view, every_state, MOST_WAYS)?,
            added: results(table, sizes[number - 1].moves, sizes[number].moves),
            held: results(table, 0, sizes[number - 1].moves),
        })
    }

    /// The kinds of the round, if it has not too many ways.
    fn kinds(&self) -> Option<BTreeSet<Kind>> {
        let mut kinds = BTreeSet::from_iter(self.kinds_of_ways());
        let missing = MISSING.into_iter().filter(|&m| self.misses(m));
        kinds.extend(missing.map(Tells));
        for (mistake, read) in SKIPPING {
            let ways = ways(self.case, self.view, read, MOST_WAYS)?;
            let is_due =
                |way: &Way| self.held.contains(&way.result) || self.added.contains(&way.result);
            let more = !ways.iter().all(is_due);
            kinds.extend(more.then_some(Tells(mistake)));
        }
        Some(kinds)
    }

    fn kinds_of_ways(&self) -> Vec<Kind> {
        let mut adding: HashMap<Found, Vec<&Derivation>> = HashMap::new();
        for way in &self.ways {
            if self.added.contains(&way.result) {
                adding.entry(way.result).or_default().push(&way.derivation);
            }
        }
        // The ways are in the order of their rules, then of their first choices.
        let two = |alike: fn(&Derivation, &Derivation) -> bool| {
            let mut neighbours = adding.values().flat_map(|ways| ways.windows(2));
            neighbours.any(|two| alike(two[0], two[1]))
        };
        let again = |way: &Way| self.held.contains(&way.result) && self.is_new(way);
        let twice = |way: &&Derivation| way.edges.len() > way.moves.len();
        of_these([
            (ByTwoRules, two(|x, y| x.rule != y.rule)),
            (
                ByTwoFirstChoices,
                two(|x, y| x.rule == y.rule && x.first != y.first),
            ),
            (
                ByTwoReadings,
                two(|x, y| x.rule == y.rule && x.first == y.first),
            ),
            (HeldAgain, self.number > 1 && self.ways.iter().any(again)),
            (NamedTwice, adding.values().flatten().any(twice)),
        ])
    }

    // ---- what of a way is new

    fn is_new_move(&self, number: usize) -> bool {
        number >= self.old.moves
    }

    /// Inner order-1 states are never new.
    fn is_new_entry(&self, one: u8) -> bool {
        let number = one.checked_sub(self.case.inner_one);
        number.is_some_and(|number| usize::from(number) >= self.old.entries)
    }

    fn first_is_new(&self, way: &Way) -> bool {
        match way.derivation.first {
            First::Nothing => self.number == 1,
            First::Entry(one) => self.is_new_entry(one),
            First::Move(number) => self.is_new_move(number),
        }
    }

    /// For each member that is read, by rising state, whether its move is new.
    fn new_members(&self, way: &Way) -> Vec<bool> {
        let moves = way.derivation.moves.iter();
        moves.map(|m| self.is_new_move(m.1)).collect()
    }

    fn is_new(&self, way: &Way) -> bool {
        self.first_is_new(way) || self.new_members(way).contains(&true)
    }

    // ---- what the mistakes miss

    /// Whether with the mistake the round adds fewer results.
    fn misses(&self, mistake: Mistake) -> bool {
        let mut met = Met::default();
        let found = self.ways.iter().filter(|way| match mistake {
            CountOfLeast => self.within(way, 0),
            CountOfGreatest => self.within(way, way.derivation.moves.len().saturating_sub(1)),
            SameRest => met.is_first(way, |joined| (0, joined.rest)),
            SameNote => met.is_first(way, |joined| (joined.order, joined.note)),
            SameSet => met.is_first(way, |joined| (0, joined.set)),
            _ => self.number == 1 || self.follows(mistake, way),
        });
        let found = found.map(|way| way.result).collect();
        !self.added.is_subset(&found)
    }

    /// Whether a search with the mistake follows a way in a round after 1.
    fn follows(&self, mistake: Mistake, way: &Way) -> bool {
        let first = self.first_is_new(way);
        let news = self.new_members(way);
        let least = news.first() == Some(&true);
        let greatest = news.last() == Some(&true);
        let code = self.case.rules[way.derivation.rule].code;
        let mut edges = way.derivation.edges.iter();
        let new_edge = edges.any(|edge| self.is_new_entry(edge.one));
        match mistake {
            FirstAlone => first,
            ReadingAlone => news.is_empty() || news.contains(&true),
            FirstAndReading => !(first && news.contains(&true)),
            TwoMembers => news.iter().filter(|&&new| new).count() < 2,
            LeastMember => first || least,
            GreatestMember => first || greatest,
            EndMembers => first || least || greatest,
            OldPushOne => code != 2 || first,
            OldPushTwo => code != 3 || first,
            OldCopy => code != 4 || first,
            NewEdgesAlone => code != 4 || first || new_edge,
            OldEdgesAlone => code != 4 || first || !new_edge,
            OldEntriesAlone => !matches!(code, 5 | 7) || !first,
            OnceDead => first || !self.was_dead(way),
            _ => true,
        }
    }

    /// The numbers of the moves of a member on the symbol that the way reads.
    fn moves_of(&self, way: &Way, one: u8) -> impl Iterator<Item = usize> {
        let rule = &self.case.rules[way.derivation.rule];
        self.view.moves_on(one, rule.symbol)
    }

    /// Whether all moves of a member are new.
    fn was_dead(&self, way: &Way) -> bool {
        let mut moves = way.derivation.moves.iter();
        moves.any(|m| {
            self.moves_of(way, m.0)
                .all(|number| self.is_new_move(number))
        })
    }

    /// Whether each member's move is among as many as the member at a place has.
    fn within(&self, way: &Way, place: usize) -> bool {
        let moves = &way.derivation.moves;
        let count = moves.get(place).map(|m| self.moves_of(way, m.0).count());
        let place_of = |m: &(u8, usize)| self.moves_of(way, m.0).position(|n| n == m.1);
        moves.iter().all(|m| place_of(m) < count)
    }
}

/// The results met after each rule and first choice, by a part of their sets.
#[derive(Default)]
struct Met(HashMap<(usize, First, u8, Set), Found>);

impl Met {
    /// Whether no other result with the same part was met after the first choice.
    fn is_first(&mut self, way: &Way, part: fn(&Joined) -> (u8, Set)) -> bool {
        let (order, set) = part(&way.result.2);
        let key = (way.derivation.rule, way.derivation.first, order, set);
        *self.0.entry(key).or_insert(way.result) == way.result
    }
}
