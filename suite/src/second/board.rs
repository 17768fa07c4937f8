//! The board's records, their limits, and where each value, block, length and sum stands.
#![forbid(unsafe_code)]

use super::md5::md5;
use core::ops::Range;

pub(super) const PLAIN: u8 = 0;
pub(super) const UNSIGNED_BIG: u8 = 1;
pub(super) const UNSIGNED_LITTLE: u8 = 2;
pub(super) const SIGNED_BIG: u8 = 3;
pub(super) const SIGNED_LITTLE: u8 = 4;

const VARIABLES_MOST: usize = 64;
const VARIABLE_SIZE_MOST: u8 = 127;
const VALUES_MOST: usize = 4096;
const CURVES_MOST: usize = 8;
const BLOCK_SIZE_MOST: u32 = 4096;
const BLOCKS_MOST: u32 = 65_536;
const CURVE_BYTES_MOST: u32 = 65_536;
const FUNCTIONS_MOST: usize = 16;
const FUNCTION_BYTES_MOST: u8 = 15;

/// The bytes of a curve's sum.
const SUM: usize = 16;

/// Groups 3 to 7 are made by message.
pub(super) const MADE_MOST: usize = 5;

/// A variable record: read-only (0) or writable (1), size in bytes, and kind:
/// 0 plain, 1 unsigned big, 2 unsigned little, 3 signed big, 4 signed little endian.
#[derive(Clone, Copy, Debug, PartialEq, Eq)]
pub struct Variable {
    pub writable: u8,
    pub size: u8,
    pub kind: u8,
}

/// A board's records. Curves are three numbers each: writable (0, 1), block size, blocks.
/// Functions are two each: input, output.
#[derive(Clone, Copy, Debug)]
pub struct Table<'a> {
    pub variables: &'a [Variable],
    pub curves: &'a [u32],
    pub functions: &'a [u8],
}

/// The made groups: `sets[i]`, for `i` below `count`, is the set of group 3 + i,
/// bit n for variable n. Places from `count` on may hold anything.
#[derive(Clone, Copy, Debug, PartialEq, Eq)]
pub struct Groups {
    pub count: u64,
    pub sets: [u64; 5],
}

/// The board's own address and its multicast byte.
#[derive(Clone, Copy, Debug, PartialEq, Eq)]
pub struct Address {
    pub own: u8,
    pub multicast: u8,
}

impl Variable {
    fn usable(&self) -> bool {
        let size_allowed = match self.kind {
            PLAIN => (1..=VARIABLE_SIZE_MOST).contains(&self.size),
            UNSIGNED_BIG | UNSIGNED_LITTLE | SIGNED_BIG | SIGNED_LITTLE => {
                matches!(self.size, 1 | 2 | 4 | 8)
            }
            _ => false,
        };
        self.writable <= 1 && size_allowed
    }
}

impl Groups {
    /// The sets of groups 3 and on; none if the count is out of range.
    pub(super) fn made(&self) -> Option<&[u64]> {
        let count = usize::try_from(self.count).ok()?;
        self.sets.get(..count)
    }

    fn usable(&self, declared: u64) -> bool {
        match self.made() {
            Some(made) => made.iter().all(|&set| set != 0 && set & !declared == 0),
            None => false,
        }
    }
}

/// Usable variable records and what one walk over them gives.
pub(super) struct Layout<'a> {
    pub(super) variables: &'a [Variable],
    /// The declared variables, bit n for variable n.
    pub(super) all: u64,
    /// The writable ones among them.
    pub(super) writable: u64,
    /// All variables together, in bytes.
    total: usize,
}

impl<'a> Layout<'a> {
    /// The layout of these variables, or none if a record, their count or their total
    /// breaks the limits.
    pub(super) fn of(variables: &'a [Variable]) -> Option<Layout<'a>> {
        if variables.is_empty() || variables.len() > VARIABLES_MOST {
            return None;
        }
        let mut writable = 0;
        let mut total = 0;
        for (number, variable) in variables.iter().enumerate() {
            if !variable.usable() {
                return None;
            }
            writable |= u64::from(variable.writable) << number;
            total += usize::from(variable.size);
        }
        if total > VALUES_MOST {
            return None;
        }
        Some(Layout {
            variables,
            all: u64::MAX >> (VARIABLES_MOST - variables.len()),
            writable,
            total,
        })
    }

    /// Where the values of a set's variables stand in the store.
    pub(super) fn pieces(&self, set: u64) -> Pieces<'a> {
        Pieces {
            variables: self.variables,
            set,
            passed: 0,
            place: 0,
        }
    }

    /// How many bytes the values of a set's variables have together.
    pub(super) fn length(&self, set: u64) -> usize {
        if set == self.all {
            return self.total;
        }
        let mut rest = set;
        let mut length = 0;
        while rest != 0 {
            length += usize::from(self.variables[rest.trailing_zeros() as usize].size);
            rest &= rest - 1;
        }
        length
    }
}

/// The store's pieces that a set's variables fill, ascending; neighbours come as one piece.
pub(super) struct Pieces<'a> {
    variables: &'a [Variable],
    set: u64,
    /// How many variables are passed already, and where the last of them ends.
    passed: usize,
    place: usize,
}

impl Iterator for Pieces<'_> {
    type Item = Range<usize>;

    fn next(&mut self) -> Option<Range<usize>> {
        if self.set == 0 {
            return None;
        }
        let first = self.set.trailing_zeros() as usize;
        let after = first + (self.set >> first).trailing_ones() as usize;
        let start = self.place + bytes_of(&self.variables[self.passed..first]);
        let end = start + bytes_of(&self.variables[first..after]);
        self.set &= !(u64::MAX >> (64 - after));
        self.passed = after;
        self.place = end;
        Some(start..end)
    }
}

fn bytes_of(variables: &[Variable]) -> usize {
    variables.iter().map(|v| usize::from(v.size)).sum()
}

/// A declared curve.
#[derive(Clone, Copy)]
pub(super) struct Curve {
    pub(super) writable: bool,
    pub(super) block_size: usize,
    pub(super) blocks: usize,
    /// Where its first block starts in the curves' store.
    pub(super) start: usize,
    /// Where its first block's length stands among the lengths.
    pub(super) first_length: usize,
    number: usize,
}

impl Curve {
    /// Where the lengths of its blocks stand among the lengths.
    fn length_places(&self) -> Range<usize> {
        self.first_length..self.first_length + self.blocks
    }

    /// Where its sum stands among the sums.
    pub(super) fn sum_place(&self) -> Range<usize> {
        let start = SUM * self.number;
        start..start + SUM
    }

    /// Whether each of its blocks has 1 to the block size of bytes. All are looked at, also
    /// behind a wrong one, so that the compiler can take many at once.
    fn lengths_usable(&self, lengths: &[u16]) -> bool {
        let most = self.block_size as u16;
        let in_range = |all: bool, &length: &u16| all & (length >= 1) & (length <= most);
        lengths[self.length_places()].iter().fold(true, in_range)
    }

    /// Makes all its blocks full.
    pub(super) fn fill(&self, lengths: &mut [u16]) {
        lengths[self.length_places()].fill(self.block_size as u16);
    }

    /// What it holds: block after block, of each as many bytes as its length says.
    fn content(&self, blocks: &[u8], lengths: &[u16]) -> Vec<u8> {
        let blocks = blocks[self.start..].chunks_exact(self.block_size);
        let mut content = Vec::with_capacity(self.block_size * self.blocks);
        for (block, &length) in blocks.zip(&lengths[self.length_places()]) {
            content.extend_from_slice(&block[..usize::from(length)]);
        }
        content
    }

    /// Sets its sum to that of what it holds.
    pub(super) fn renew_sum(&self, blocks: &[u8], lengths: &[u16], sums: &mut [u8]) {
        sums[self.sum_place()].copy_from_slice(&md5(&self.content(blocks, lengths)));
    }
}

/// A usable board.
pub(super) struct Board<'a> {
    pub(super) layout: Layout<'a>,
    curves: &'a [u32],
    functions: &'a [u8],
}

impl<'a> Board<'a> {
    /// The board, or none if a record, store length or group breaks the limits, if lengths
    /// and sums are not one for each block and each curve, or if a length is out of range.
    pub(super) fn usable(
        table: &Table<'a>,
        groups: &Groups,
        values: &[u8],
        blocks: &[u8],
        lengths: &[u16],
        sums: &[u8],
    ) -> Option<Board<'a>> {
        let board = Board::to_be_filled(table, groups, values, blocks, lengths, sums)?;
        let in_range = board.curves().all(|curve| curve.lengths_usable(lengths));
        in_range.then_some(board)
    }

    /// The same, whatever the lengths are: a fresh board makes all blocks full.
    pub(super) fn to_be_filled(
        table: &Table<'a>,
        groups: &Groups,
        values: &[u8],
        blocks: &[u8],
        lengths: &[u16],
        sums: &[u8],
    ) -> Option<Board<'a>> {
        let layout = Layout::of(table.variables)?;
        let (curve_bytes, curve_blocks) = curve_bytes_and_blocks(table.curves)?;
        let fits = functions_usable(table.functions)
            && values.len() == layout.total
            && blocks.len() == curve_bytes
            && lengths.len() == curve_blocks
            && sums.len() == SUM * (table.curves.len() / 3)
            && groups.usable(layout.all);
        if !fits {
            return None;
        }
        Some(Board {
            layout,
            curves: table.curves,
            functions: table.functions,
        })
    }

    /// The curves in order of number: each starts where those before it end.
    pub(super) fn curves(&self) -> impl Iterator<Item = Curve> + 'a {
        let (mut place, mut length_place) = (0, 0);
        let records = self.curves.chunks_exact(3).enumerate();
        records.map(move |(number, record)| {
            let block_size = record[1] as usize;
            let blocks = record[2] as usize;
            let (start, first_length) = (place, length_place);
            place += block_size * blocks;
            length_place += blocks;
            Curve {
                writable: record[0] == 1,
                block_size,
                blocks,
                start,
                first_length,
                number,
            }
        })
    }

    /// The functions in order of number: input and output length.
    pub(super) fn functions(&self) -> impl Iterator<Item = (u8, u8)> + 'a {
        let records = self.functions.chunks_exact(2);
        records.map(|record| (record[0], record[1]))
    }
}

/// All curves together, in bytes and in blocks; none if a limit is broken.
fn curve_bytes_and_blocks(curves: &[u32]) -> Option<(usize, usize)> {
    if curves.len() % 3 != 0 || curves.len() / 3 > CURVES_MOST {
        return None;
    }
    let (mut total, mut total_blocks) = (0, 0);
    for record in curves.chunks_exact(3) {
        let (writable, block_size, blocks) = (record[0], record[1], record[2]);
        let allowed = writable <= 1
            && (1..=BLOCK_SIZE_MOST).contains(&block_size)
            && (1..=BLOCKS_MOST).contains(&blocks);
        if !allowed {
            return None;
        }
        total += block_size * blocks;
        total_blocks += blocks;
        if total > CURVE_BYTES_MOST {
            return None;
        }
    }
    Some((total as usize, total_blocks as usize))
}

fn functions_usable(functions: &[u8]) -> bool {
    functions.len() % 2 == 0
        && functions.len() / 2 <= FUNCTIONS_MOST
        && functions.iter().all(|&count| count <= FUNCTION_BYTES_MOST)
}
