//! Boards of many sorts of curves, and what the line reads of them.
use crate::bench::{variable, Bench};
use core::ops::Range;
use suite::second::{Outcome, Ran};

/// Curves of different block sizes and counts, read-only ones first, last and between.
pub const CURVES: [u32; 15] = [0, 4, 2, 1, 1, 55, 0, 70, 3, 1, 257, 2, 0, 8, 7];

pub fn board(curves: &[u32]) -> Bench {
    Bench::with(&[variable(1, 1, 0)], curves, &[0, 1])
}

/// Boards with no curve, with one and with eight, and with the largest that are allowed.
pub fn boards() -> Vec<Bench> {
    let eight = [[1, 3, 2], [0, 64, 1]].concat().repeat(4);
    let boards = [
        &[][..],
        &[1, 1, 1],
        &[0, 1, 65_536],
        &[1, 4096, 16],
        &[1, 4096, 15, 0, 1, 4095, 1, 1, 1],
        &CURVES,
        &eight,
    ];
    boards.iter().map(|curves| board(curves)).collect()
}

pub fn count(bench: &Bench) -> u8 {
    (bench.curves.len() / 3) as u8
}

/// Where a curve's sum stands among the sums.
pub fn sum_place(curve: u8) -> Range<usize> {
    let start = 16 * usize::from(curve);
    start..start + 16
}

/// What a message about a block starts with: its curve, and its number in two bytes.
pub fn front(curve: u8, block: usize) -> [u8; 3] {
    let [high, low] = (block as u16).to_be_bytes();
    [curve, high, low]
}

/// A block's bytes, as the line reads them.
pub fn block(bench: &mut Bench, curve: u8, block: usize) -> Vec<u8> {
    let front = front(curve, block);
    let (command, answer) = bench.ask(0x40, &front);
    assert_eq!((command, &answer[..3]), (0x41, &front[..]));
    answer[3..].to_vec()
}

/// A curve's blocks in order, as the line reads them.
pub fn held(bench: &mut Bench, curve: u8) -> Vec<u8> {
    let blocks = bench.curves[3 * usize::from(curve) + 2] as usize;
    let read = |number| block(bench, curve, number);
    (0..blocks).flat_map(read).collect()
}

/// These packets, and results and a store that would go well on board A, are refused with 1 and change nothing.
pub fn all_refused(bench: &mut Bench, requests: &[Vec<u8>]) {
    let before = bench.state();
    for request in requests {
        assert_eq!(bench.refused(request), 1);
    }
    let refused = Outcome::Refused(1);
    assert_eq!(bench.result(0, true, Ran::Well, &[1, 2]), refused);
    assert_eq!(bench.result(0, false, Ran::Failed(1), &[]), refused);
    assert_eq!(bench.store(1, &[9]), Err(1));
    assert_eq!(bench.state(), before);
}
