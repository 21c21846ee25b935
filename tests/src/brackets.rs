//! Brackets (document 02, §6): a start's root as text, on nested stacks, and a
//! reader of such texts for tests. Quoted sentences are from there.

use crate::file::Refusal;
use crate::services::with_start;
use crate::stack::{Note, One, Symbol, Two, configuration};

/// Writes the text of a start's root; "bytes after it are zero". Answers 0 with the
/// text's length, or the refusal with 0.
pub fn brackets(case: &[u8], start: &[u8], number: u64, text: &mut [u8]) -> (u64, usize) {
    text.fill(0);
    match written(case, start, number, text) {
        Ok(length) => (0, length),
        Err(refusal) => {
            text.fill(0);
            (refusal, 0)
        }
    }
}

/// The length of the text, which is written, or the refusal: 1 to 7 and 12, then 13.
fn written(case: &[u8], start: &[u8], number: u64, text: &mut [u8]) -> Result<usize, Refusal> {
    let (_, file) = with_start(case, start, number)?;
    let root = configuration(&file, &file.starts[number as usize]).stack;
    write(&root, text).ok_or(13)
}

/// Writes the text of a stack and answers its length, if there is room for it; if
/// not, what was written is its beginning.
fn write(stack: &Two, text: &mut [u8]) -> Option<usize> {
    let mut bytes = Bytes::of(stack);
    for (length, place) in text.iter_mut().enumerate() {
        match bytes.next() {
            Some(byte) => *place = byte,
            None => return Some(length),
        }
    }
    bytes.next().is_none().then_some(text.len())
}

// ---- the text of a stack

/// "An order-2 stack holds order-1 stacks", top first, with "nothing between
/// stacks". Shared parts are "written out each time", so this is for small stacks.
pub fn text_of_two(stack: &Two) -> String {
    let stacks: String = stack.stacks().map(text_of_one).collect();
    format!("[{stacks}]")
}

/// "Those hold symbols", top first, with "a space between symbols".
fn text_of_one(stack: &One) -> String {
    let symbols: Vec<String> = stack.symbols().map(text_of_symbol).collect();
    format!("[{}]", symbols.join(" "))
}

/// "Its number", then "its annotation in braces after it"; "the annotation's order,
/// 1 or 2, stands before its brace, after the symbol and a space".
fn text_of_symbol(symbol: &Symbol) -> String {
    let name = symbol.name;
    match &symbol.note {
        Note::One(stack) => format!("{name} 1{{{}}}", text_of_one(stack)),
        Note::Two(stack) => format!("{name} 2{{{}}}", text_of_two(stack)),
    }
}

// ---- the same, byte by byte

/// A part of a text that is to come.
enum Part<'a> {
    Byte(u8),
    One(&'a One),
    Two(&'a Two),
    /// What stands behind the opening bracket of a stack, or behind some of its
    /// elements, up to its closing bracket.
    RestOfOne(&'a One),
    RestOfTwo(&'a Two),
}

/// The bytes of the text of an order-2 stack. Each is found when it is asked for,
/// so a text of any length can be begun and given up.
pub struct Bytes<'a> {
    /// The parts to come, the next one last.
    parts: Vec<Part<'a>>,
}

impl<'a> Bytes<'a> {
    pub fn of(stack: &'a Two) -> Bytes<'a> {
        let parts = vec![Part::Two(stack)];
        Bytes { parts }
    }

    /// Puts parts before all that are to come.
    fn first(&mut self, parts: impl IntoIterator<Item = Part<'a>, IntoIter: DoubleEndedIterator>) {
        self.parts.extend(parts.into_iter().rev());
    }

    /// A symbol of an order-1 stack, then those beneath it.
    fn symbol(&mut self, symbol: &'a Symbol) {
        let (order, note) = match &symbol.note {
            Note::One(stack) => ("1", Part::One(stack)),
            Note::Two(stack) => ("2", Part::Two(stack)),
        };
        let before = format!("{} {order}{{", symbol.name);
        let after = if symbol.rest.0.is_some() { "} " } else { "}" };
        let [before, after] = [&before, after].map(|text| text.bytes().map(Part::Byte));
        let rest = Part::RestOfOne(&symbol.rest);
        self.first(before.chain([note]).chain(after).chain([rest]));
    }
}

impl Iterator for Bytes<'_> {
    type Item = u8;

    fn next(&mut self) -> Option<u8> {
        loop {
            match self.parts.pop()? {
                Part::Byte(byte) => return Some(byte),
                Part::One(stack) => {
                    self.parts.push(Part::RestOfOne(stack));
                    return Some(b'[');
                }
                Part::Two(stack) => {
                    self.parts.push(Part::RestOfTwo(stack));
                    return Some(b'[');
                }
                Part::RestOfOne(One(None)) | Part::RestOfTwo(Two(None)) => return Some(b']'),
                Part::RestOfOne(One(Some(symbol))) => self.symbol(symbol),
                Part::RestOfTwo(Two(Some(level))) => {
                    self.first([Part::One(&level.top), Part::RestOfTwo(&level.rest)]);
                }
            }
        }
    }
}

// ---- reading

/// The order-2 stack whose text the bytes begin with, if there is one, and the
/// bytes that follow the text.
pub fn read(bytes: &[u8]) -> Option<(Two, &[u8])> {
    let mut reader = Reader(bytes);
    let stack = reader.two()?;
    Some((stack, reader.0))
}

/// The bytes that have not been read.
struct Reader<'a>(&'a [u8]);

impl Reader<'_> {
    /// Whether these bytes come next; if so they have been read.
    fn found(&mut self, next: &[u8]) -> bool {
        let rest = self.0.strip_prefix(next);
        self.0 = rest.unwrap_or(self.0);
        rest.is_some()
    }

    fn expect(&mut self, next: &[u8]) -> Option<()> {
        self.found(next).then_some(())
    }

    fn two(&mut self) -> Option<Two> {
        self.expect(b"[")?;
        let mut stacks = Vec::new();
        while !self.found(b"]") {
            stacks.push(self.one()?);
        }
        Some(stacks.into_iter().rfold(Two::default(), Two::under))
    }

    fn one(&mut self) -> Option<One> {
        self.expect(b"[")?;
        let mut symbols = Vec::new();
        while !self.found(b"]") {
            if !symbols.is_empty() {
                self.expect(b" ")?;
            }
            symbols.push(self.symbol()?);
        }
        let under = |rest: One, (name, note)| rest.under(name, note);
        Some(symbols.into_iter().rfold(One::default(), under))
    }

    fn symbol(&mut self) -> Option<(u8, Note)> {
        let name = self.number()?;
        let note = if self.found(b" 1{") {
            Note::One(self.one()?)
        } else {
            self.expect(b" 2{")?;
            Note::Two(self.two()?)
        };
        self.expect(b"}")?;
        Some((name, note))
    }

    /// The longest run of digits, if they are those of a symbol's number.
    fn number(&mut self) -> Option<u8> {
        let digits = self.0.iter().take_while(|byte| byte.is_ascii_digit());
        let (digits, rest) = self.0.split_at(digits.count());
        self.0 = rest;
        (0..32).find(|number: &u8| number.to_string().as_bytes() == digits)
    }
}
