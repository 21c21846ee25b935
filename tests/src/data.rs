//! The files that came with document 01, in `tests/data`. Their listings are in
//! its form, without what document 02 adds.

use std::fs;
use std::path::{Path, PathBuf};

use crate::encode::encode_start;
use crate::file::{Cell, StartFile};
use crate::sound::{pair, start, symbol};

/// The path of a file or folder of `tests/data`.
pub fn data(name: &str) -> PathBuf {
    Path::new(env!("CARGO_MANIFEST_DIR"))
        .join("tests/data")
        .join(name)
}

/// The bytes of a file of `tests/data`.
pub fn bytes(name: &str) -> Vec<u8> {
    let path = data(name);
    fs::read(&path).unwrap_or_else(|error| panic!("{}: {error}", path.display()))
}

/// A line of vectors.txt.
pub struct Vector {
    pub name: String,
    pub case: Vec<u8>,
    pub start: Vec<u8>,
    pub printed: String,
}

/// The lines of vectors.txt.
pub fn vectors() -> Vec<Vector> {
    let text = String::from_utf8(bytes("vectors.txt")).expect("text");
    let vector = |line: &str| {
        let fields: Vec<&str> = line.splitn(4, ' ').collect();
        Vector {
            name: fields[0].to_string(),
            case: bytes_of(fields[1]),
            start: bytes_of(fields[2]),
            printed: fields[3].replace('|', "\n") + "\n",
        }
    };
    text.lines().map(vector).collect()
}

/// A folder of `tests/data/bench`.
pub struct Larger {
    pub name: String,
    pub case: Vec<u8>,
    /// The starts that came with the case, or the one that it is given.
    pub start: Vec<u8>,
    /// The listing, of a case that came with one.
    pub printed: Option<String>,
}

impl Larger {
    /// The folder of this name.
    pub fn named(name: &str) -> Larger {
        let file = |part: &str| format!("bench/{name}/{part}");
        let found = |part: &str| data(&file(part)).exists().then(|| bytes(&file(part)));
        let text = |printed| String::from_utf8(printed).expect("text");
        Larger {
            name: name.to_string(),
            case: bytes(&file("case.bin")),
            start: found("start.bin").unwrap_or_else(one_start),
            printed: found("expected.txt").map(text),
        }
    }
}

/// The folders of `tests/data/bench`, by name.
pub fn larger_files() -> Vec<Larger> {
    let folders = fs::read_dir(data("bench")).expect("the folder tests/data/bench");
    let name = |folder: fs::DirEntry| folder.file_name().to_string_lossy().into_owned();
    let names = folders.map(|folder| name(folder.expect("a folder")));
    let mut names: Vec<String> = names.collect();
    names.sort();
    names.iter().map(|name| Larger::named(name)).collect()
}

/// A start file for a case that came without one: [[0]] from control 0, the symbol
/// annotated by the empty order-1 stack.
pub fn one_start() -> Vec<u8> {
    encode_start(&StartFile {
        starts: vec![start(0, 3)],
        cells: vec![Cell::EmptyOne, Cell::EmptyTwo, symbol(0, 0, 0), pair(2, 1)],
    })
}

/// A listing taken apart: document 01's form of it, and what document 02 adds.
pub struct Listed {
    /// The text in document 01's form.
    pub text: String,
    /// The round of each start marked yes, which stands directly before the steps
    /// (§1).
    pub rounds: Vec<Option<usize>>,
    /// The largest number of moves of an entry, in a line after the first (§7); a
    /// refusal has none.
    pub most: Option<u64>,
}

/// Takes a listing apart.
pub fn listed(listing: &str) -> Listed {
    let (listing, most) = without_most(listing);
    let mut text = String::new();
    let mut rounds = Vec::new();
    for line in listing.lines() {
        let mut fields: Vec<&str> = line.split(' ').collect();
        if fields[0] == "start" {
            rounds.push((fields[2] == "yes").then(|| take_round(&mut fields)));
        }
        text += &(fields.join(" ") + "\n");
    }
    Listed { text, rounds, most }
}

/// A listing without the line that document 02, §7, puts after its first, and that
/// line's number. A refusal is a line alone.
pub fn without_most(listing: &str) -> (String, Option<u64>) {
    let mut lines: Vec<&str> = listing.split_inclusive('\n').collect();
    if listing.starts_with("refused ") {
        assert_eq!(lines.len(), 1, "{listing}");
        return (listing.to_string(), None);
    }
    let line = lines.remove(1);
    let number = line
        .strip_prefix("most ")
        .and_then(|n| n.strip_suffix('\n'));
    let number = number.unwrap_or_else(|| panic!("the line after the first: {line}"));
    (lines.concat(), Some(number.parse().expect("a number")))
}

/// Takes the round out of `start N yes [trace|cells] ROUND STEPS CELLS`.
fn take_round(fields: &mut Vec<&str>) -> usize {
    let halted = matches!(fields[3], "trace" | "cells");
    assert_eq!(fields.len(), if halted { 7 } else { 6 }, "{fields:?}");
    fields.remove(fields.len() - 3).parse().expect("a round")
}

/// The bytes that a field of vectors.txt stands for; "an empty file is `-`".
pub fn bytes_of(field: &str) -> Vec<u8> {
    if field == "-" {
        return Vec::new();
    }
    (0..field.len() / 2)
        .map(|at| u8::from_str_radix(&field[2 * at..2 * at + 2], 16).expect("two hex digits"))
        .collect()
}

/// Bytes in hex, as vectors.txt writes them.
pub fn hex(bytes: &[u8]) -> String {
    if bytes.is_empty() {
        return "-".to_string();
    }
    bytes.iter().map(|byte| format!("{byte:02x}")).collect()
}
