//! The packets whose cost is measured, on the proved node and on the second node.
use crate::boards::board_a;
use crate::lent::Lent;
use crate::packets::{message, packet};
use crate::{second, second_lent};
use cruachvel::{Address, Curve, Groups, Kind, Outcome, Variable, MOST_PACKET};

/// A packet on a board, with its busy marks.
pub struct Measured {
    pub name: &'static str,
    pub lent: Lent,
    pub busy: u64,
    pub request: Vec<u8>,
}

fn measured(name: &'static str, lent: &Lent, command: u8, payload: &[u8]) -> Measured {
    Measured {
        name,
        request: packet(lent.address.own, &message(command, payload)),
        lent: lent.clone(),
        busy: 0,
    }
}

/// All of them.
pub fn all() -> Vec<Measured> {
    let mut all = on_small_boards();
    all.extend(on_full_boards());
    all.extend(on_the_longest_curve());
    all.extend(on_many_blocks());
    all
}

fn on_small_boards() -> Vec<Measured> {
    let a = board_a();
    let mut short = a.clone();
    short.lengths[1] = 3;
    let mut writable = a.clone();
    writable.variables[0] = Variable::writable(4, Kind::SignedBig);
    let mut bad_checksum = measured("bad checksum, board A", &a, 0x10, &[1]);
    bad_checksum.request[5] ^= 1;
    vec![
        measured("version, board A", &a, 0x00, &[]),
        measured("read of a variable, board A", &a, 0x10, &[1]),
        measured("write of a variable, board A", &a, 0x20, &[1, 0x66]),
        measured("write and read, board A", &a, 0x28, &[1, 2, 0x66]),
        measured("read of a sum, board A", &a, 0x0A, &[0]),
        measured("renewal of a sum of 8 bytes, board A", &a, 0x42, &[0]),
        measured("read of a block, board A", &a, 0x40, &[0, 0, 1]),
        measured(
            "read of a block that isn't full, board A",
            &short,
            0x40,
            &[0, 0, 1],
        ),
        measured(
            "write of a block that isn't full, board A",
            &a,
            0x41,
            &[0, 0, 1, 0x66],
        ),
        measured("read of a group of 3", &a, 0x12, &[0]),
        measured(
            "write of a group of 3",
            &writable,
            0x22,
            &[0, 1, 2, 3, 4, 5, 6, 7],
        ),
        bad_checksum,
    ]
}

fn on_full_boards() -> Vec<Measured> {
    let full = full_board();
    let block = [&[0, 0, 1], &[0x66; 4096][..]].concat();
    let group = [&[0], &[0x66; 64 * 4][..]].concat();
    let mut half = full.clone();
    half.groups.sets[0] = u64::MAX / 3;
    let half_group = [&[3], &[0x66; 32 * 4][..]].concat();
    let mut busy = measured("read of a group of 64, the last busy", &full, 0x12, &[0]);
    busy.busy = 1 << 63;
    let mut unusable = measured("unusable board, in variable 63", &full, 0x10, &[63]);
    unusable.lent.variables[63].size = 0;
    vec![
        measured("read of variable 63", &full, 0x10, &[63]),
        measured("write of variable 63", &full, 0x20, &[63, 1, 2, 3, 4]),
        measured(
            "write and read of 62 and 63",
            &full,
            0x28,
            &[62, 63, 1, 2, 3, 4],
        ),
        measured("read of a group of 64", &full, 0x12, &[0]),
        busy,
        measured("write of a group of 64", &full, 0x22, &group),
        measured("read of every other of 64", &half, 0x12, &[3]),
        measured("write of every other of 64", &half, 0x22, &half_group),
        measured("read of a block of 4,096 bytes", &full, 0x40, &[0, 0, 1]),
        measured("write of a block of 4,096 bytes", &full, 0x41, &block),
        measured("version", &full, 0x00, &[]),
        measured("list of variables", &full, 0x02, &[]),
        measured("list of groups", &full, 0x04, &[]),
        measured("list of a group's variables", &full, 0x06, &[0]),
        measured("list of curves", &full, 0x08, &[]),
        measured("list of functions", &full, 0x0C, &[]),
        unusable,
    ]
}

fn on_the_longest_curve() -> Vec<Measured> {
    let lent = with_curve(Curve::writable(4096, 16));
    let mut short = lent.clone();
    short.lengths.fill(4095);
    vec![
        measured("version, 16 blocks", &lent, 0x00, &[]),
        measured("read of a sum of 65,536 bytes", &lent, 0x0A, &[0]),
        measured("renewal of a sum of 65,536 bytes", &lent, 0x42, &[0]),
        measured(
            "renewal of a sum of 16 blocks that aren't full",
            &short,
            0x42,
            &[0],
        ),
    ]
}

// Every call looks at every length.
fn on_many_blocks() -> Vec<Measured> {
    let most = with_curve(Curve::writable(1, 65536));
    let mut short = with_curve(Curve::writable(2, 32768));
    short.lengths.fill(1);
    let mut unusable = measured("unusable board, in block 65,535", &most, 0x00, &[]);
    unusable.lent.lengths[65535] = 0;
    vec![
        measured("version, 65,536 blocks", &most, 0x00, &[]),
        measured(
            "read of the last of 65,536 blocks",
            &most,
            0x40,
            &[0, 0xFF, 0xFF],
        ),
        measured(
            "write of the last of 65,536 blocks",
            &most,
            0x41,
            &[0, 0xFF, 0xFF, 0x66],
        ),
        measured("renewal of a sum of 65,536 blocks", &most, 0x42, &[0]),
        measured(
            "renewal of a sum of 32,768 blocks that aren't full",
            &short,
            0x42,
            &[0],
        ),
        unusable,
    ]
}

// A full board but for its curves: it has this one.
fn with_curve(curve: Curve) -> Lent {
    let mut lent = full_board();
    lent.curves = Curve::numbers(&[curve]).to_vec();
    lent.fresh()
}

// As many records of each sort as a board may have, and as many bytes of curves.
pub(crate) fn full_board() -> Lent {
    let lent = Lent {
        variables: vec![Variable::writable(4, Kind::UnsignedBig); 64],
        curves: Curve::numbers(&[Curve::writable(4096, 2); 8]).to_vec(),
        functions: [1, 2].repeat(16),
        groups: Groups {
            count: 5,
            sets: [u64::MAX, 1, 2, 4, 1 << 63],
        },
        address: Address {
            own: 5,
            multicast: 0x81,
        },
        values: Vec::new(),
        blocks: Vec::new(),
        lengths: Vec::new(),
        sums: Vec::new(),
    };
    lent.fresh()
}

/// A node that gets the same packet again and again, and what it replies.
pub trait Side {
    /// One packet; the reply, which is empty if there is none.
    fn packet(&mut self) -> &[u8];

    /// So many packets; the sum of the replies' lengths, so that none can be left out.
    fn packets(&mut self, times: usize) -> usize {
        (0..times).map(|_| self.packet().len()).sum()
    }
}

/// The proved node.
pub struct Proved {
    lent: Lent,
    busy: u64,
    request: Vec<u8>,
    reply: Vec<u8>,
}

impl Proved {
    pub fn new(measured: &Measured) -> Proved {
        Proved {
            lent: measured.lent.clone(),
            busy: measured.busy,
            request: measured.request.clone(),
            reply: vec![0; MOST_PACKET],
        }
    }
}

impl Side for Proved {
    fn packet(&mut self) -> &[u8] {
        match self.lent.packet(self.busy, &self.request, &mut self.reply) {
            Outcome::Reply(reply) => reply,
            _ => &[],
        }
    }
}

/// The second node, with nothing between it and what is measured.
pub struct Second {
    lent: Lent,
    busy: u64,
    variables: Vec<second::Variable>,
    groups: second::Groups,
    request: Vec<u8>,
    reply: Vec<u8>,
}

impl Second {
    pub fn new(measured: &Measured) -> Second {
        let lent = measured.lent.clone();
        Second {
            variables: second_lent::variables(&lent),
            groups: second_lent::groups(&lent),
            busy: measured.busy,
            request: measured.request.clone(),
            reply: vec![0; MOST_PACKET],
            lent,
        }
    }
}

impl Side for Second {
    fn packet(&mut self) -> &[u8] {
        let table = second::Table {
            variables: &self.variables,
            curves: &self.lent.curves,
            functions: &self.lent.functions,
        };
        let outcome = second::packet(
            &table,
            &mut self.groups,
            second_lent::address(&self.lent),
            self.busy,
            &mut self.lent.values,
            &mut self.lent.blocks,
            &mut self.lent.lengths,
            &mut self.lent.sums,
            &self.request,
            &mut self.reply,
        );
        match outcome {
            second::Outcome::Reply(length) => &self.reply[..length],
            _ => &[],
        }
    }
}
