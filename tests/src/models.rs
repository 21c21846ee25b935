//! The files of document 01's worked models, written by hand from its
//! sentences, of model B in document 02, §3, and of model A in a supplier's codes
//! (§5).

/// "P 2, I 0, J 0, A 2; rules 0: (0,0,3,1,0), 1: (0,1,8,0,1); edge
/// (1,255,empty); move (0,1,0,empty,empty). 80 bytes."
#[rustfmt::skip]
pub const CASE_A: [u8; 80] = [
    4,
    1, 0, 1, 0, 33, 0, 0, 0,
    2, 0, 2, 0, 47, 0, 0, 0,
    3, 0, 1, 0, 57, 0, 0, 0,
    4, 0, 1, 0, 61, 0, 0, 0,
    2, 0, 0, 2, 0, 0, 0, 0, 0, 0, 0, 0, 0, 0,
    0, 0, 3, 1, 0,
    0, 1, 8, 0, 1,
    1, 255, 0, 0,
    0, 1, 0, 0, 0, 0, 0, 0, 0, 0, 0, 0, 0, 0, 0, 0, 0, 0, 0,
];

/// Model A in the codes 20, 10, 30, 40, 50, 60, 70, 80: "the first byte is 5, the
/// first body starts at byte 41" (document 02, §5).
#[rustfmt::skip]
pub const CASE_A_CODED: [u8; 96] = [
    5,
    1, 0, 1, 0, 41, 0, 0, 0,
    2, 0, 2, 0, 55, 0, 0, 0,
    3, 0, 1, 0, 65, 0, 0, 0,
    4, 0, 1, 0, 69, 0, 0, 0,
    5, 0, 1, 0, 88, 0, 0, 0,
    2, 0, 0, 2, 0, 0, 0, 0, 0, 0, 0, 0, 0, 0,
    0, 0, 30, 1, 0,
    0, 1, 80, 0, 1,
    1, 255, 0, 0,
    0, 1, 0, 0, 0, 0, 0, 0, 0, 0, 0, 0, 0, 0, 0, 0, 0, 0, 0,
    20, 10, 30, 40, 50, 60, 70, 80,
];

/// "0 empty order-1; 1 symbol 1 on 0 annotated 0; 2 empty order-2; 3 is 1 on 2;
/// 4 symbol 0 on 0 annotated 0; 5 is 4 on 3. Starts (0,5), (1,3), (0,3)."
#[rustfmt::skip]
pub const START_A: [u8; 62] = [
    2,
    1, 0, 3, 0, 17, 0, 0, 0,
    2, 0, 6, 0, 26, 0, 0, 0,
    0, 5, 0,
    1, 3, 0,
    0, 3, 0,
    1, 0, 0, 0, 0, 0,
    2, 1, 0, 0, 0, 0,
    3, 0, 0, 0, 0, 0,
    4, 0, 1, 0, 2, 0,
    2, 0, 0, 0, 0, 0,
    4, 0, 4, 0, 3, 0,
];

/// "Target as A, rule (0,0,5,0,1)."
#[rustfmt::skip]
pub const CASE_B: [u8; 75] = [
    4,
    1, 0, 1, 0, 33, 0, 0, 0,
    2, 0, 1, 0, 47, 0, 0, 0,
    3, 0, 1, 0, 52, 0, 0, 0,
    4, 0, 1, 0, 56, 0, 0, 0,
    2, 0, 0, 2, 0, 0, 0, 0, 0, 0, 0, 0, 0, 0,
    0, 0, 5, 0, 1,
    1, 255, 0, 0,
    0, 1, 0, 0, 0, 0, 0, 0, 0, 0, 0, 0, 0, 0, 0, 0, 0, 0, 0,
];

/// Model B "if its entry is written with 254" (document 02, §3).
pub const CASE_B_FINISHED: [u8; 75] = {
    let mut file = CASE_B;
    file[53] = 254;
    file
};

/// Starts with control 0: "symbol 0 above 1" and "symbol 0 alone", each on the
/// empty order-2 stack and annotated by the empty order-1 stack.
#[rustfmt::skip]
pub const START_B: [u8; 65] = [
    2,
    1, 0, 2, 0, 17, 0, 0, 0,
    2, 0, 7, 0, 23, 0, 0, 0,
    0, 4, 0,
    0, 6, 0,
    1, 0, 0, 0, 0, 0,
    2, 1, 0, 0, 0, 0,
    3, 0, 0, 0, 0, 0,
    2, 0, 0, 0, 1, 0,
    4, 0, 3, 0, 2, 0,
    2, 0, 0, 0, 0, 0,
    4, 0, 5, 0, 2, 0,
];

/// "Symbol 0 alone" in a file of its own, with control 0: four cells, as for model
/// C.
pub const START_B_LONE: [u8; 44] = START_C_ONE;

/// "P 2, I 0, J 0, A 1, target [1,empty] on symbol 0; rules 0: (0,0,4,0,0),
/// 1: (0,0,6,0,1)."
#[rustfmt::skip]
pub const CASE_C: [u8; 80] = [
    4,
    1, 0, 1, 0, 33, 0, 0, 0,
    2, 0, 2, 0, 47, 0, 0, 0,
    3, 0, 1, 0, 57, 0, 0, 0,
    4, 0, 1, 0, 61, 0, 0, 0,
    2, 0, 0, 1, 0, 0, 0, 0, 0, 0, 0, 0, 0, 0,
    0, 0, 4, 0, 0,
    0, 0, 6, 0, 1,
    1, 255, 0, 0,
    0, 0, 0, 0, 0, 0, 0, 0, 0, 0, 0, 0, 0, 0, 0, 0, 0, 0, 0,
];

/// "[[0]], a file of four cells".
#[rustfmt::skip]
pub const START_C_ONE: [u8; 44] = [
    2,
    1, 0, 1, 0, 17, 0, 0, 0,
    2, 0, 4, 0, 20, 0, 0, 0,
    0, 3, 0,
    1, 0, 0, 0, 0, 0,
    2, 0, 0, 0, 0, 0,
    3, 0, 0, 0, 0, 0,
    4, 0, 1, 0, 2, 0,
];

/// "[[0],[0]]".
#[rustfmt::skip]
pub const START_C_TWO: [u8; 50] = [
    2,
    1, 0, 1, 0, 17, 0, 0, 0,
    2, 0, 5, 0, 20, 0, 0, 0,
    0, 4, 0,
    1, 0, 0, 0, 0, 0,
    2, 0, 0, 0, 0, 0,
    3, 0, 0, 0, 0, 0,
    4, 0, 1, 0, 2, 0,
    4, 0, 1, 0, 3, 0,
];

/// Model A's case with `count` rules: its two, then repeats of rule 1.
pub fn case_a_with_rules(count: usize) -> Vec<u8> {
    let mut file = CASE_A[..57].to_vec();
    for _ in 2..count {
        file.extend([0, 1, 8, 0, 1]);
    }
    file.extend(&CASE_A[57..]);
    file[11..13].copy_from_slice(&(count as u16).to_le_bytes());
    let edges = 47 + 5 * count as u32;
    file[21..25].copy_from_slice(&edges.to_le_bytes());
    file[29..33].copy_from_slice(&(edges + 4).to_le_bytes());
    file
}

/// Model A's start file with `count` starts: its three, then repeats of the
/// first.
pub fn start_a_with_starts(count: usize) -> Vec<u8> {
    let mut file = START_A[..26].to_vec();
    for _ in 3..count {
        file.extend([0, 5, 0]);
    }
    file.extend(&START_A[26..]);
    file[3..5].copy_from_slice(&(count as u16).to_le_bytes());
    let cells = 17 + 3 * count as u32;
    file[13..17].copy_from_slice(&cells.to_le_bytes());
    file
}
