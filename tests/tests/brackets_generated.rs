//! Brackets (document 02, §6) on generated files and on every small stack: the text
//! byte by byte against the text of a nested stack and against its length; texts
//! read back; no two alike.

use std::collections::HashSet;

use second::brackets::{Bytes, read, text_of_two};
use second::kinds::Kinds;
use second::lent::printed;
use second::printed::{KINDS, kinds};
use second::random::Random;
use second::rich::{pairs_to_print, rich_pairs, rooms};
use second::stack::{Note, One, Two};

/// A text of at most so many bytes is compared with the stack's.
const SHORT: usize = 20_000;

// ---- the service

/// Every start, with no, too few, enough and many bytes lent: the text, if they are
/// not fewer than its length. Each kind occurs.
#[test]
fn generated_texts() {
    let mut random = Random::new(61);
    let mut met = Kinds::default();
    let (mut written, mut refused) = (0, 0);
    for (name, pair) in pairs_to_print(20) {
        let files = (&pair.case_file[..], &pair.start_file[..]);
        for (number, length) in pair.text_lengths().into_iter().enumerate() {
            let text = (length <= SHORT).then(|| text_of_two(&pair.configuration(number).stack));
            met.count(text.iter().flat_map(|_| kinds(&pair.start, number)));
            for bytes in rooms(&mut random, length) {
                let reply = printed(files, number as u64, bytes);
                assert_eq!(reply.is_ok(), length <= bytes, "{name} {number} {bytes}");
                match (reply, &text) {
                    (Err(refusal), _) => assert_eq!(refusal, 13),
                    (Ok(reply), None) => assert_eq!(reply.len(), length),
                    (Ok(reply), Some(text)) => assert_eq!(reply, *text, "{name} {number}"),
                }
                written += usize::from(length <= bytes);
                refused += usize::from(length > bytes);
            }
        }
        let after = pair.start.starts.len() as u64;
        assert_eq!(printed(files, after, 99), Err(7), "{name}");
    }
    println!("{written} written, {refused} refused, {met:?}");
    assert!(met.rarest(KINDS) >= 100, "{met:?}");
    assert!(written >= 10_000 && refused >= 10_000);
}

/// Every length of lent bytes, up to a few more than the text has.
#[test]
fn every_small_length() {
    let mut texts = 0;
    for (name, pair) in rich_pairs(40) {
        let files = (&pair.case_file[..], &pair.start_file[..]);
        let lengths = pair.text_lengths();
        let small = (0..).zip(lengths).filter(|&(_, length)| length <= 300);
        for (number, length) in small.take(3) {
            let text = printed(files, number, length).expect("a text");
            for bytes in 0..length {
                assert_eq!(printed(files, number, bytes), Err(13), "{name} {number}");
            }
            for bytes in length..length + 5 {
                let reply = printed(files, number, bytes);
                assert_eq!(reply.as_ref(), Ok(&text), "{name} {number}");
            }
            texts += 1;
        }
    }
    assert!(texts >= 80, "{texts}");
}

// ---- reading

/// What follows a text is told from it, whatever it is: other texts, parts of them,
/// and any bytes.
#[test]
fn texts_are_read_back() {
    let mut random = Random::new(62);
    let mut last = "]".to_string();
    let mut texts = HashSet::new();
    for (name, pair) in pairs_to_print(40) {
        for (number, length) in pair.text_lengths().into_iter().enumerate() {
            if length > 2000 {
                continue;
            }
            let stack = pair.configuration(number).stack;
            let text = text_of_two(&stack);
            let any: Vec<u8> = (0..9).map(|_| random.word() as u8).collect();
            let ends = ["", "]", "[", " ", "}", "1", " 1{[]}", "[]", &last];
            let ends = ends.iter().map(|end| end.as_bytes());
            for rest in ends.chain([&any[..]]) {
                let both = [text.as_bytes(), rest].concat();
                let (found, after) = read(&both).expect("a text");
                assert!(found == stack && after == rest, "{name} {number}: {text}");
            }
            texts.insert(text.clone());
            last = text;
        }
    }
    println!("{} texts", texts.len());
    assert!(texts.len() >= 1000);
}

/// A text that is cut anywhere is none, and with a byte changed, put in or left out
/// it is read only if it is the text of what was read, with what follows.
#[test]
fn only_texts_are_read() {
    let (mut none, mut others) = (0, 0);
    let mut check = |bytes: &[u8]| match read(bytes) {
        None => none += 1,
        Some((stack, rest)) => {
            assert_eq!([text_of_two(&stack).as_bytes(), rest].concat(), bytes);
            others += 1;
        }
    };
    for (_, pair) in rich_pairs(100) {
        for (number, length) in pair.text_lengths().into_iter().enumerate().take(4) {
            if length > 300 {
                continue;
            }
            let text = text_of_two(&pair.configuration(number).stack).into_bytes();
            for at in 0..length {
                assert_eq!(read(&text[..at]), None);
                let (before, after) = text.split_at(at);
                check(&[before, &after[1..]].concat());
                for byte in b" 0123[]{}" {
                    check(&[before, &[*byte], after].concat());
                    check(&[before, &[*byte], &after[1..]].concat());
                }
            }
        }
    }
    println!("{none} are none, {others} are texts");
    assert!(none >= 10_000 && others >= 10_000);
}

/// Other ways to write stacks, none of which the document's sentences give.
#[test]
fn what_is_no_text() {
    let none = [
        "",
        "[",
        "]",
        "[[]",
        "[[1]]",
        "[[1{[]}]]",
        "[[1 {[]}]]",
        "[[1 0{[]}]]",
        "[[1 3{[]}]]",
        "[[1 1{}]]",
        "[[1 1{[]} ]]",
        "[[ 1 1{[]}]]",
        "[[1  1{[]}]]",
        "[[1 1{[]}1 1{[]}]]",
        "[[1 1{[]},1 1{[]}]]",
        "[[1 1{[]}] []]",
        "[[],[]]",
        "[[01 1{[]}]]",
        "[[32 1{[]}]]",
        "[[1 1{[[]]}]]",
        "[[1 2{[1 1{[]}]}]]",
        "[1 1{[]}]",
        "[[1 1 {[]}]]",
        "[[1 1{[] }]]",
    ];
    for text in none {
        assert_eq!(read(text.as_bytes()), None, "{text}");
    }
}

// ---- every small stack

/// All stacks by their size, which counts symbols and order-1 stacks, also those of
/// annotations. The symbols are 1 and 11.
#[derive(Default)]
struct Stacks {
    ones: Vec<Vec<One>>,
    twos: Vec<Vec<Two>>,
}

impl Stacks {
    fn up_to(size: usize) -> Stacks {
        let mut stacks = Stacks {
            ones: vec![vec![One::default()]],
            twos: vec![vec![Two::default()]],
        };
        for size in 1..=size {
            let ones = (0..size).flat_map(|note| stacks.symbols(note, size - 1 - note));
            let twos = (0..size).flat_map(|top| stacks.pairs(top, size - 1 - top));
            let (ones, twos) = (ones.collect(), twos.collect());
            stacks.ones.push(ones);
            stacks.twos.push(twos);
        }
        stacks
    }

    /// Symbols with an annotation and a rest of these sizes.
    fn symbols(&self, note: usize, rest: usize) -> Vec<One> {
        let ones = self.ones[note].iter().cloned().map(Note::One);
        let notes = ones.chain(self.twos[note].iter().cloned().map(Note::Two));
        let rests = &self.ones[rest];
        notes
            .flat_map(|note| {
                let with = move |name: u8, rest: &One| rest.clone().under(name, note.clone());
                rests
                    .iter()
                    .flat_map(move |rest| [1, 11].map(|name| with(name, rest)))
            })
            .collect()
    }

    /// Order-1 stacks on order-2 stacks of these sizes.
    fn pairs(&self, top: usize, rest: usize) -> Vec<Two> {
        let on = |top: &One| {
            let top = top.clone();
            let rests = self.twos[rest].iter().cloned();
            rests.map(move |rest| rest.under(top.clone()))
        };
        self.ones[top].iter().flat_map(on).collect()
    }
}

/// "No two different order-2 stacks print alike": not one of all small ones, and
/// none begins with another's text, so each is read back from what follows it.
#[test]
fn every_small_stack() {
    let mut texts = HashSet::new();
    let stacks = Stacks::up_to(6).twos.concat();
    assert_eq!(stacks.len(), 1 + 1 + 5 + 35 + 287 + 2577 + 24_537);
    for stack in stacks {
        let text: Vec<u8> = Bytes::of(&stack).collect();
        assert_eq!(text, text_of_two(&stack).as_bytes());
        assert_eq!(read(&text), Some((stack, &[][..])));
        assert!((0..text.len()).all(|length| !texts.contains(&text[..length])));
        assert!(texts.insert(text), "two print alike");
    }
}
