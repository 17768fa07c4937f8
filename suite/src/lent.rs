//! What a board lends, and the proved node's entries over it.
use crate::packets::packet;
use cruachvel::{
    md5, Address, Curve, FunctionNumber, Groups, Outcome, Ran, Refusal, Table, Variable,
    VariableNumber,
};
use cruachvel::{MOST_CURVE_BYTES, MOST_PACKET, SUM_SIZE};
use std::ops::Range;

/// Everything that a board lends to a call, right or wrong.
#[derive(Clone, Debug, PartialEq, Eq)]
pub struct Lent {
    pub variables: Vec<Variable>,
    pub curves: Vec<u32>,
    pub functions: Vec<u8>,
    pub groups: Groups,
    pub address: Address,
    pub values: Vec<u8>,
    pub blocks: Vec<u8>,
    pub lengths: Vec<u16>,
    pub sums: Vec<u8>,
}

// The same by reference: the records, and beside them what a call may write.
struct Parts<'a> {
    table: Table<'a>,
    groups: &'a mut Groups,
    values: &'a mut [u8],
    blocks: &'a mut [u8],
    lengths: &'a mut [u16],
    sums: &'a mut [u8],
}

/// The longest store that is ever lent, and the most lengths; a board whose records add up to more gets fewer than that.
pub const MOST_LENT: usize = MOST_CURVE_BYTES + 4096;

impl Lent {
    /// A board with these records, at address 1: no group is made, every byte of stores and sums is 0, and all blocks are full.
    pub fn declared(variables: Vec<Variable>, curves: &[Curve], functions: &[u8]) -> Lent {
        let mut lent = Lent {
            variables,
            curves: Curve::numbers(curves).to_vec(),
            functions: functions.to_vec(),
            groups: Groups::NONE,
            address: Address {
                own: 1,
                multicast: 0x01,
            },
            values: Vec::new(),
            blocks: Vec::new(),
            lengths: Vec::new(),
            sums: Vec::new(),
        };
        lent.refit();
        lent
    }

    pub fn table(&self) -> Table<'_> {
        Table {
            variables: &self.variables,
            curves: &self.curves,
            functions: &self.functions,
        }
    }

    fn parts(&mut self) -> Parts<'_> {
        Parts {
            table: Table {
                variables: &self.variables,
                curves: &self.curves,
                functions: &self.functions,
            },
            groups: &mut self.groups,
            values: &mut self.values,
            blocks: &mut self.blocks,
            lengths: &mut self.lengths,
            sums: &mut self.sums,
        }
    }

    /// Where the bytes of a variable stand in the store.
    pub fn place(&self, variable: usize) -> Range<usize> {
        let start = values_length(&self.variables[..variable]);
        start..start + usize::from(self.variables[variable].size)
    }

    /// The proved node's packet.
    pub fn packet<'p, 'r>(
        &mut self,
        busy: u64,
        request: &'p [u8],
        reply: &'r mut [u8],
    ) -> Outcome<'p, 'r> {
        let address = self.address;
        let lent = self.parts();
        cruachvel::packet(
            &lent.table,
            lent.groups,
            address,
            busy,
            lent.values,
            lent.blocks,
            lent.lengths,
            lent.sums,
            request,
            reply,
        )
    }

    /// The proved node's answer to this message in a packet of its own, with nothing busy: the message of the reply.
    pub fn ask(&mut self, message: &[u8]) -> Vec<u8> {
        let request = packet(self.address.own, message);
        let mut reply = [0; MOST_PACKET];
        match self.packet(0, &request, &mut reply) {
            Outcome::Reply(reply) => reply[1..reply.len() - 1].to_vec(),
            other => panic!("{:02X?} ended in {:?}", message, other),
        }
    }

    /// The proved node's function result.
    pub fn function_result<'r>(
        &self,
        function: usize,
        due: bool,
        ran: Ran,
        reply: &'r mut [u8],
    ) -> Outcome<'static, 'r> {
        cruachvel::function_result(
            &self.table(),
            &self.groups,
            &self.values,
            &self.blocks,
            &self.lengths,
            &self.sums,
            FunctionNumber(function),
            due,
            ran,
            reply,
        )
    }

    /// The proved node's board store.
    pub fn board_store(&mut self, variable: usize, bytes: &[u8]) -> Result<(), Refusal> {
        let lent = self.parts();
        cruachvel::board_store(
            &lent.table,
            lent.groups,
            lent.values,
            lent.blocks,
            lent.lengths,
            lent.sums,
            VariableNumber(variable),
            bytes,
        )
    }

    /// The proved node's fresh board: all blocks are full, and all sums are worked out.
    pub fn fresh_board(&mut self) -> Result<(), Refusal> {
        let lent = self.parts();
        cruachvel::fresh_board(
            &lent.table,
            lent.groups,
            lent.values,
            lent.blocks,
            lent.lengths,
            lent.sums,
        )
    }

    /// Brings stores, lengths and sums to what the records add up to; new bytes are 0, and a block whose length isn't in its range is full.
    pub fn refit(&mut self) {
        self.values.resize(values_length(&self.variables), 0);
        self.blocks.resize(blocks_length(&self.curves), 0);
        self.sums.resize(sums_length(&self.curves), 0);
        let given = std::mem::replace(&mut self.lengths, full_lengths(&self.curves));
        for (length, given) in self.lengths.iter_mut().zip(given) {
            if (1..=*length).contains(&given) {
                *length = given;
            }
        }
    }

    /// This board as it is when it is switched on: of the right lengths, its blocks full, its sums worked out. Where it is unusable, they stay.
    pub fn fresh(mut self) -> Lent {
        self.refit();
        let _ = self.fresh_board();
        self
    }

    /// Where the bytes of a curve stand in the store, if that is as long as the records say.
    pub fn curve_place(&self, curve: usize) -> Range<usize> {
        byte_place(&self.curves, curve)
    }

    /// A curve's blocks in the room of full ones, stale bytes too, as far as the store has them.
    pub fn curve_room(&self, curve: usize) -> &[u8] {
        within(&self.blocks, self.curve_place(curve))
    }

    /// Where the lengths of a curve's blocks stand, if there is one for each.
    pub fn length_place(&self, curve: usize) -> Range<usize> {
        length_place(&self.curves, curve)
    }

    /// The lengths of a curve's blocks, as far as there are any.
    pub fn curve_lengths(&self, curve: usize) -> &[u16] {
        within(&self.lengths, self.length_place(curve))
    }

    /// What a curve holds: its blocks one after the other, each as long as it is.
    pub fn curve_bytes(&self, curve: usize) -> Vec<u8> {
        held(&self.curves, &self.blocks, &self.lengths, curve)
    }

    /// A curve's sum, as far as there is one.
    pub fn sum(&self, curve: usize) -> &[u8] {
        self.sums.chunks(SUM_SIZE).nth(curve).unwrap_or(&[])
    }

    /// Whether the curve holds something else than what its sum is of.
    pub fn is_stale(&self, curve: usize) -> bool {
        self.sum(curve) != md5(&self.curve_bytes(curve))
    }

    /// The sets of groups 0 to 7, those that exist; bit n stands for variable n.
    pub fn group_sets(&self, groups: &Groups) -> Vec<u64> {
        let writable = |set: u64, (number, variable): (usize, &Variable)| {
            set | u64::from(variable.writable == 1) << (number % 64)
        };
        let all = all_declared(self.variables.len());
        let writable = self.variables.iter().enumerate().fold(0, writable);
        let made = groups.sets.iter().take(groups.count.min(5) as usize);
        [all, all & !writable, writable]
            .into_iter()
            .chain(made.copied())
            .collect()
    }

    /// How many bytes the variables of a set have.
    pub fn set_bytes(&self, set: u64) -> usize {
        let members = members(set).filter_map(|number| self.variables.get(number));
        members.map(|variable| usize::from(variable.size)).sum()
    }
}

/// The numbers of a set's variables, ascending.
pub fn members(set: u64) -> impl Iterator<Item = usize> {
    (0..64).filter(move |number| set >> number & 1 == 1)
}

/// The set of all of `count` variables.
pub fn all_declared(count: usize) -> u64 {
    if count >= 64 {
        u64::MAX
    } else {
        (1 << count) - 1
    }
}

/// How many bytes these variables have together.
pub fn values_length(variables: &[Variable]) -> usize {
    variables.iter().map(|v| usize::from(v.size)).sum()
}

/// How many bytes the sums of these curves have together; a record that is cut off has none.
pub fn sums_length(curves: &[u32]) -> usize {
    curves.len() / 3 * SUM_SIZE
}

/// The lengths of these curves' blocks where all are full; a record that is cut off has none.
pub fn full_lengths(curves: &[u32]) -> Vec<u16> {
    let records = curves.chunks_exact(3);
    let blocks = records.clone().map(|record| u64::from(record[2]));
    let count = lent_count(blocks.fold(0, u64::wrapping_add));
    let mut lengths = Vec::with_capacity(count);
    for record in records {
        let full = record[1].min(u16::MAX.into()) as u16;
        let end = lengths.len().saturating_add(record[2] as usize);
        lengths.resize(end.min(count), full);
    }
    lengths
}

/// What a curve with one of these records holds in a store with these lengths, as far as they go.
pub fn held(curves: &[u32], blocks: &[u8], lengths: &[u16], curve: usize) -> Vec<u8> {
    let record = curves.chunks_exact(3).nth(curve);
    let size = record.map_or(1, |record| record[1].max(1) as usize);
    let rooms = within(blocks, byte_place(curves, curve)).chunks(size);
    let lengths = within(lengths, length_place(curves, curve));
    let mut held = Vec::new();
    for (room, length) in rooms.zip(lengths) {
        held.extend_from_slice(within(room, 0..usize::from(*length)));
    }
    held
}

/// Where the bytes of a curve with one of these records stand in the store, if that is as long as they say.
pub fn byte_place(curves: &[u32], curve: usize) -> Range<usize> {
    let bytes = |record: &[u32]| (record[1] as usize).saturating_mul(record[2] as usize);
    place_of(curves, curve, bytes)
}

fn length_place(curves: &[u32], curve: usize) -> Range<usize> {
    place_of(curves, curve, |record| record[2] as usize)
}

// Where a curve's part stands if each curve has so much.
fn place_of(curves: &[u32], curve: usize, amount: impl Fn(&[u32]) -> usize) -> Range<usize> {
    let mut amounts = curves.chunks_exact(3).map(amount);
    let before = amounts.by_ref().take(curve);
    let start = before.fold(0, usize::saturating_add);
    start..start.saturating_add(amounts.next().unwrap_or(0))
}

fn blocks_length(curves: &[u32]) -> usize {
    let bytes = |curve: &[u32]| u64::from(curve[1]).wrapping_mul(u64::from(curve[2]));
    let sum = curves.chunks_exact(3).map(bytes).fold(0, u64::wrapping_add);
    lent_count(sum)
}

// Where the true sum is absurd, the sum that 32 bits would keep is the one that might deceive.
fn lent_count(sum: u64) -> usize {
    let deceiving = sum as u32 as usize;
    if sum <= MOST_LENT as u64 {
        sum as usize
    } else {
        deceiving.min(MOST_LENT)
    }
}

// The part of a slice that stands at this place, as far as there is one.
fn within<T>(items: &[T], place: Range<usize>) -> &[T] {
    let end = items.len();
    &items[place.start.min(end)..place.end.min(end)]
}
