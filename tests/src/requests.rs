//! The examples of document 02's requests, in `tests/data/vectors02`.

use self::Form::{Now, WithoutCounts, WithoutRounds};
use crate::callers::{SECOND, Services};
use crate::data::{bytes, bytes_of, hex, without_most};
use crate::replay::{REPLAY_CELL_BYTES, ReplayReply};
use crate::saturation::ALL_ROUNDS;
use crate::services::{
    CELL_WORDS, ENTRY_WORDS, GuideReply, LISTING_ENTRIES, LISTING_MOVES, MOVE_WORDS,
};

/// The last request that has landed.
const LANDED: u64 = 8;

/// The request that adds a word to each entry and a line to listings, and the one that
/// adds a number of rounds to judge's reply.
const COUNTS: u64 = 7;
const ROUNDS: u64 = 8;

/// The requests whose files are here, and how many lines of each have each form.
const FILES: [(u64, [usize; 3]); 8] = [
    (1, [1, 8, 11]),
    (2, [28, 0, 0]),
    (3, [13, 5, 5]),
    (4, [0, 0, 15]),
    (5, [13, 7, 6]),
    (6, [23, 0, 0]),
    (7, [17, 0, 0]),
    (8, [25, 0, 0]),
];

/// The form of a line's reply.
#[derive(Clone, Copy, PartialEq, Eq)]
enum Form {
    /// As the services reply now.
    Now,
    /// Without the number of rounds that judge returns.
    WithoutRounds,
    /// Without that, the third word of entries and the second line of a listing.
    WithoutCounts,
}

/// A line of a request's file.
#[derive(Clone)]
struct Example {
    name: String,
    form: Form,
    call: String,
    arguments: Vec<(String, String)>,
    reply: String,
}

/// The services reply as every line says whose reply holds now, or held until rounds
/// or counts were added.
pub fn check_examples(services: Services) {
    for (request, lines) in FILES {
        let file = format!("vectors02/{request:02}.txt");
        let text = String::from_utf8(bytes(&file)).expect("text");
        let examples: Vec<Example> = text.lines().filter_map(example).collect();
        let count = |form: Form| examples.iter().filter(|e| e.form == form).count();
        let counted = [Now, WithoutRounds, WithoutCounts].map(count);
        assert_eq!(counted, lines, "lines of {file}");
        examples.iter().for_each(|e| e.check(services));
    }
}

/// A line of six fields, if its reply holds: the second field is the first and the
/// last request after which it does.
fn example(line: &str) -> Option<Example> {
    let fields: Vec<&str> = line.split('\t').collect();
    let [_, range, call, name, arguments, reply] = fields[..] else {
        panic!("not six fields: {line}");
    };
    let request = |number: &str| number.parse::<u64>().expect("a request");
    let (from, to) = range.split_once('-').expect("two requests");
    let form = form_now(request(from), request(to))?;
    Some(Example {
        name: name.to_string(),
        form,
        call: call.to_string(),
        arguments: arguments.split(' ').map(named).collect(),
        reply: reply.to_string(),
    })
}

/// How a reply holds that was right from one request to another: as it is, or, if it
/// was right until rounds or counts were added, without these; nothing if another
/// reply is right now.
fn form_now(from: u64, to: u64) -> Option<Form> {
    if from > LANDED {
        None
    } else if to >= LANDED {
        Some(Now)
    } else if to == ROUNDS - 1 {
        Some(WithoutRounds)
    } else {
        (to == COUNTS - 1).then_some(WithoutCounts)
    }
}

/// `name=value`.
fn named(argument: &str) -> (String, String) {
    let (name, value) = argument.split_once('=').expect("a name and a value");
    (name.to_string(), value.to_string())
}

impl Example {
    /// The services reply as the line says. Rounds and counts that it lacks are the
    /// second implementation's.
    fn check(&self, services: Services) {
        if self.form != Now {
            let whole = Example {
                form: Now,
                ..self.clone()
            };
            let second = whole.clone().answer(SECOND);
            assert_eq!(whole.answer(services), second, "{}: the rest", self.name);
        }
        let reply = self.clone().answer(services);
        assert_eq!(reply, self.reply, "{}", self.name);
    }

    /// The services' reply to the line's call, in the line's form.
    fn answer(mut self, services: Services) -> String {
        let case = bytes_of(&self.take("case").expect("a case"));
        let start = self.take("start").map(|start| bytes_of(&start));
        let reply = match (self.call.as_str(), start) {
            // A start file in the line is not used.
            ("saturate", _) => self.saturate(services, &case),
            ("judge", Some(start)) => self.judge(services, &case, &start),
            ("guide", Some(start)) => self.guide(services, &case, &start),
            ("listing", Some(start)) => self.listing(services, &case, &start),
            ("replay", Some(start)) => self.replay(services, &case, &start),
            ("show", Some(start)) => self.show(services, &case, &start),
            (call, _) => panic!("{}: no start file, or call {call}", self.name),
        };
        assert!(self.arguments.is_empty(), "{}: not all used", self.name);
        reply
    }

    /// The tables that a line lends: words of moves and of entries.
    fn tables(&mut self) -> [Vec<u64>; 2] {
        let moves = self.words("move_words", "moves", LISTING_MOVES, MOVE_WORDS);
        let entries = self.words("entry_words", "entries", LISTING_ENTRIES, ENTRY_WORDS);
        [moves, entries].map(|words| vec![u64::MAX; words])
    }

    /// How many words of a table a line lends: so many words, or so many records.
    fn words(&mut self, words: &str, records: &str, unnamed: usize, record: usize) -> usize {
        match self.number(words) {
            Some(words) => words,
            None => self.number(records).unwrap_or(unnamed) * record,
        }
    }

    /// The text of the listing.
    fn listing(&self, services: Services, case: &[u8], start: &[u8]) -> String {
        let text = (services.listing)(case, start);
        match self.form {
            Now | WithoutRounds => in_one_line(&text),
            WithoutCounts => in_one_line(&without_most(&text).0),
        }
    }

    /// Saturate's reply.
    fn saturate(&mut self, services: Services, case: &[u8]) -> String {
        let [mut moves, mut entries] = self.tables();
        let (code, move_count, entry_count) = (services.saturate)(case, &mut moves, &mut entries);
        if self.form == WithoutCounts {
            let records = entries.chunks(ENTRY_WORDS);
            entries = records.flat_map(|words| [words[0], words[1]]).collect();
        }
        format!(
            "code={code} moves={move_count} entries={entry_count} move_words={} entry_words={}",
            list(&moves),
            list(&entries)
        )
    }

    /// Judge's reply. "Every lent slice that is not plainly zero" is in the
    /// line's reply, so the tables are zero.
    fn judge(&mut self, services: Services, case: &[u8], start: &[u8]) -> String {
        let [mut moves, mut entries] = self.tables();
        let rounds = self.rounds();
        let answers = self.number("answers").expect("answer words");
        let mut answers = vec![u16::MAX; answers];
        let (code, count) =
            (services.judge)(case, start, rounds, &mut moves, &mut entries, &mut answers);
        let tables = [moves, entries].concat();
        assert!(tables.iter().all(|&word| word == 0), "{}", self.name);
        let reply = format!("code={code} answers={}", list(&answers));
        match self.form {
            Now => format!("{reply} rounds={count}"),
            WithoutRounds | WithoutCounts => reply,
        }
    }

    /// Guide's reply. No line's reply has tables or cells of the walk, so they are
    /// zero.
    fn guide(&mut self, services: Services, case: &[u8], start: &[u8]) -> String {
        let [mut moves, mut entries] = self.tables();
        let number = self.number("number").expect("a start number") as u64;
        let rounds = self.rounds();
        let cells = self.number("cells").expect("cells");
        let trace = self.number("trace_words").expect("trace words");
        let mut cells = vec![u16::MAX; cells * CELL_WORDS];
        let mut trace = vec![u16::MAX; trace];
        let reply = (services.guide)(
            case,
            start,
            number,
            rounds,
            &mut moves,
            &mut entries,
            &mut cells,
            &mut trace,
        );
        let tables = [moves, entries].concat();
        assert!(tables.iter().all(|&word| word == 0), "{}", self.name);
        assert!(cells.iter().all(|&word| word == 0), "{}", self.name);
        let walked = |kind: &str, steps: u64, cells: u64| {
            format!(
                "kind={kind} trace={} steps={steps} cells={cells}",
                list(&trace)
            )
        };
        match reply {
            GuideReply::Refused(number) => format!("kind=refused number={number}"),
            GuideReply::NoRun => format!("kind=no_run trace={}", list(&trace)),
            GuideReply::Open => format!("kind=open trace={}", list(&trace)),
            GuideReply::Arrived { steps, cells } => walked("arrived", steps, cells),
            GuideReply::TraceFull { steps, cells } => walked("trace", steps, cells),
            GuideReply::CellsShort { steps, cells } => walked("cells", steps, cells),
        }
    }

    /// Replay's reply. No line's reply has cells, so they are zero.
    fn replay(&mut self, services: Services, case: &[u8], start: &[u8]) -> String {
        let number = self.number("number").expect("a start number") as u64;
        let trace = bytes_of(&self.take("trace").expect("a trace"));
        let cells = self.number("cells").expect("cells");
        let mut cells = vec![u8::MAX; cells * REPLAY_CELL_BYTES];
        let reply = (services.replay)(case, start, number, &trace, &mut cells);
        assert!(cells.iter().all(|&byte| byte == 0), "{}", self.name);
        match reply {
            ReplayReply::Refused(number) => format!("kind=refused number={number}"),
            ReplayReply::Accepted => "kind=accepted".to_string(),
            ReplayReply::Fails { step } => format!("kind=fails step={step}"),
        }
    }

    /// The reply of brackets.
    fn show(&mut self, services: Services, case: &[u8], start: &[u8]) -> String {
        let number = self.number("number").expect("a start number") as u64;
        let bytes = self.number("bytes").expect("bytes");
        let mut text = vec![u8::MAX; bytes];
        let (code, length) = (services.brackets)(case, start, number, &mut text);
        format!("code={code} length={length} text={}", hex(&text))
    }

    /// Takes out the argument of this name, if the line has it.
    fn take(&mut self, name: &str) -> Option<String> {
        let at = self.arguments.iter().position(|(n, _)| n == name)?;
        Some(self.arguments.remove(at).1)
    }

    /// "`rounds=none` or no `rounds`: all rounds."
    fn rounds(&mut self) -> u64 {
        match self.take("rounds").as_deref() {
            None | Some("none") => ALL_ROUNDS,
            Some(rounds) => rounds.parse().expect("a number of rounds"),
        }
    }

    fn number(&mut self, name: &str) -> Option<usize> {
        let value = self.take(name)?;
        Some(value.parse().expect("a number"))
    }
}

/// "Lists divided by commas."
fn list<Word: ToString>(words: &[Word]) -> String {
    let words: Vec<String> = words.iter().map(Word::to_string).collect();
    words.join(",")
}

/// "In the text of a listing `|` stands for a line end and `_` for a space";
/// the last line's end is left out.
fn in_one_line(text: &str) -> String {
    let text = text.strip_suffix('\n').expect("a line end");
    format!("text={}", text.replace('\n', "|").replace(' ', "_"))
}
