//! Damaged copies of a file: cuts, changed bytes, wrong numbers in the contents
//! table, sections that change places.

use crate::sets::only;

/// The parts of a contents line, as (first byte, length) from the line's start.
const COUNT: (usize, usize) = (2, 2);
const OFFSET: (usize, usize) = (4, 4);

/// The file cut at every length below its own.
pub fn cuts(file: &[u8]) -> impl Iterator<Item = Vec<u8>> {
    (0..file.len()).map(|length| file[..length].to_vec())
}

/// The file with one byte changed.
pub fn changed(file: &[u8], at: usize, value: u8) -> Vec<u8> {
    let mut copy = file.to_vec();
    copy[at] = value;
    copy
}

/// Other values of a byte: one higher and one lower, 0, 255, and those with one bit
/// changed.
pub fn values_near(byte: u8) -> Vec<u8> {
    let mut values = vec![byte.wrapping_add(1), byte.wrapping_sub(1), 0, 255];
    values.extend((0..8).map(|bit| byte ^ only(bit) as u8));
    values.retain(|&value| value != byte);
    values
}

/// The file with one byte after its end.
pub fn longer(file: &[u8], byte: u8) -> Vec<u8> {
    let mut copy = file.to_vec();
    copy.push(byte);
    copy
}

/// The file with each count of its contents table one higher and one lower.
pub fn counts_off_by_one(file: &[u8]) -> Vec<Vec<u8>> {
    off_by_one(file, COUNT)
}

/// The file with each offset of its contents table one higher and one lower.
pub fn offsets_off_by_one(file: &[u8]) -> Vec<Vec<u8>> {
    off_by_one(file, OFFSET)
}

/// The first byte of a sound file is the number of its contents lines.
fn lines(file: &[u8]) -> usize {
    file[0].into()
}

fn off_by_one(file: &[u8], part: (usize, usize)) -> Vec<Vec<u8>> {
    let mut copies = Vec::new();
    for line in 0..lines(file) {
        let at = 1 + 8 * line + part.0;
        let mut word = [0; 8];
        word[..part.1].copy_from_slice(&file[at..at + part.1]);
        let value = u64::from_le_bytes(word);
        for other in [value.wrapping_add(1), value.wrapping_sub(1)] {
            let mut copy = file.to_vec();
            copy[at..at + part.1].copy_from_slice(&other.to_le_bytes()[..part.1]);
            copies.push(copy);
        }
    }
    copies
}

/// The file with two lines of its contents table exchanged, for every two.
pub fn lines_swapped(file: &[u8]) -> Vec<Vec<u8>> {
    let mut copies = Vec::new();
    for low in 0..lines(file) {
        for high in low + 1..lines(file) {
            let mut copy = file.to_vec();
            for byte in 0..8 {
                copy.swap(1 + 8 * low + byte, 1 + 8 * high + byte);
            }
            copies.push(copy);
        }
    }
    copies
}

/// The file with two bodies exchanged, for every two that follow one another
/// and differ. The contents table stays as it was.
pub fn bodies_swapped(file: &[u8]) -> Vec<Vec<u8>> {
    let offset = |line: usize| {
        let at = 1 + 8 * line + OFFSET.0;
        u32::from_le_bytes([file[at], file[at + 1], file[at + 2], file[at + 3]]) as usize
    };
    let mut ends: Vec<usize> = (0..lines(file)).map(offset).collect();
    ends.push(file.len());
    let mut copies = Vec::new();
    for three in ends.windows(3) {
        let mut copy = file[..three[0]].to_vec();
        copy.extend(&file[three[1]..three[2]]);
        copy.extend(&file[three[0]..three[1]]);
        copy.extend(&file[three[2]..]);
        if copy != file {
            copies.push(copy);
        }
    }
    copies
}

/// Copies with a wrong length, contents table or order of bodies.
pub fn misplaced(file: &[u8]) -> Vec<Vec<u8>> {
    let mut copies: Vec<Vec<u8>> = cuts(file).collect();
    copies.extend(counts_off_by_one(file));
    copies.extend(offsets_off_by_one(file));
    copies.extend(lines_swapped(file));
    copies.extend(bodies_swapped(file));
    copies.extend([longer(file, 0), longer(file, 255)]);
    copies
}
