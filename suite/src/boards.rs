//! Board A, and usable boards of every size up to 01's limits, drawn at random.
use crate::lent::{all_declared, values_length, Lent};
use crate::random::Random;
use cruachvel::{md5, Address, Curve, Groups, Kind, Variable};
use cruachvel::{MOST_BLOCKS, MOST_CURVE_BYTES, MOST_VALUE_BYTES, MOST_VARIABLES, SUM_SIZE};

// Written out, and not worked out, so that it is an opinion too.
const SUM_OF_8_ZEROS: [u8; SUM_SIZE] = [
    0x7D, 0xEA, 0x36, 0x2B, 0x3F, 0xAC, 0x8E, 0x00, 0x95, 0x6A, 0x49, 0x52, 0xA3, 0xD4, 0xF4, 0x74,
];

/// Board A of 01, fresh.
pub fn board_a() -> Lent {
    Lent {
        variables: vec![
            Variable::read_only(4, Kind::SignedBig),
            Variable::writable(1, Kind::Plain),
            Variable::writable(2, Kind::UnsignedLittle),
        ],
        curves: Curve::numbers(&[Curve::writable(4, 2)]).to_vec(),
        functions: vec![1, 2],
        groups: Groups::NONE,
        address: Address {
            own: 5,
            multicast: 0x81,
        },
        values: vec![0xFF, 0xFF, 0xFF, 0xFD, 0x5A, 0x34, 0x12],
        blocks: vec![0; 8],
        lengths: vec![4; 2],
        sums: SUM_OF_8_ZEROS.to_vec(),
    }
}

/// A usable board, drawn at random.
pub fn usable(random: &mut Random) -> Lent {
    let variables = variables(random);
    let groups = groups(random, variables.len());
    let mut lent = Lent {
        variables,
        curves: curves(random),
        functions: functions(random),
        groups,
        address: Address {
            own: random.within(1, 31) as u8,
            multicast: random.byte() | 1,
        },
        values: Vec::new(),
        blocks: Vec::new(),
        lengths: Vec::new(),
        sums: Vec::new(),
    };
    lent.refit();
    random.fill(&mut lent.values);
    random.fill(&mut lent.blocks);
    shorten(random, &mut lent.lengths);
    let mut sums = std::mem::take(&mut lent.sums);
    for (curve, sum) in sums.chunks_mut(SUM_SIZE).enumerate() {
        // Half of them are anything, as a sum is whose curve was written since.
        if random.once_in(2) {
            random.fill(sum);
        } else {
            sum.copy_from_slice(&md5(&lent.curve_bytes(curve)));
        }
    }
    lent.sums = sums;
    lent
}

// Full blocks get fewer bytes, as short writes leave them: all of them, some of them, or none.
fn shorten(random: &mut Random, lengths: &mut [u16]) {
    let every = random.choose(&[1, 2, 8]);
    if random.once_in(3) {
        return;
    }
    for length in lengths {
        if random.once_in(every) {
            *length = random.within(1, usize::from(*length)) as u16;
        }
    }
}

// Few variables more often than many, since small boards are quick; the limits themselves often enough.
fn variables(random: &mut Random) -> Vec<Variable> {
    let count = match random.below(8) {
        0 => 1,
        1 => MOST_VARIABLES,
        2 => random.within(1, MOST_VARIABLES),
        _ => random.within(2, 9),
    };
    let largest = random.choose(&[1, 4, 8, 8, 16, 127]);
    let writable = random.choose(&[0, 1, 2, 2, 2, 2]);
    let mut left = MOST_VALUE_BYTES;
    let mut variables = Vec::new();
    for rest in (0..count).rev() {
        let size = random.within(1, largest).min(left - rest);
        left -= size;
        variables.push(variable(random, size as u8, writable));
    }
    if random.once_in(16) {
        fill_up(&mut variables);
    }
    variables
}

// `writable` 2 leaves the type to chance.
fn variable(random: &mut Random, size: u8, writable: u8) -> Variable {
    let kind = match size {
        1 | 2 | 4 | 8 => random.choose(&Kind::ALL),
        _ => Kind::Plain,
    };
    Variable {
        writable: if writable == 2 {
            random.below(2) as u8
        } else {
            writable
        },
        size,
        kind: kind.number(),
    }
}

/// More variables, and then larger ones, until they have exactly 4,096 bytes together. The first are the last to grow.
pub fn fill_up(variables: &mut Vec<Variable>) {
    let mut left = MOST_VALUE_BYTES.saturating_sub(values_length(variables));
    while left > 0 && variables.len() < MOST_VARIABLES {
        let size = left.min(127);
        variables.push(Variable::writable(size as u8, Kind::Plain));
        left -= size;
    }
    for variable in variables.iter_mut().rev() {
        let more = left.min(127_usize.saturating_sub(variable.size.into()));
        if more > 0 {
            variable.size += more as u8;
            variable.kind = Kind::Plain.number();
        }
        left -= more;
    }
}

fn curves(random: &mut Random) -> Vec<u32> {
    let curves = match random.below(24) {
        0 => vec![curve(random, 1, MOST_BLOCKS)],
        1 => (0..8).map(|_| curve(random, 4096, 2)).collect(),
        2 => some_curves(random, 4096, 4096),
        3..=8 => Vec::new(),
        _ => some_curves(random, 12, 9),
    };
    Curve::numbers(&curves).to_vec()
}

fn some_curves(random: &mut Random, largest: usize, most: usize) -> Vec<Curve> {
    let mut left = MOST_CURVE_BYTES;
    let mut curves = Vec::new();
    for rest in (0..random.within(1, 8)).rev() {
        let size = random.within(1, largest).min(left - rest);
        let blocks = random.within(1, most).min((left - rest) / size);
        left -= size * blocks;
        curves.push(curve(random, size, blocks));
    }
    curves
}

fn curve(random: &mut Random, size: usize, blocks: usize) -> Curve {
    Curve {
        writable: random.below(2) as u32,
        block_size: size as u32,
        blocks: blocks as u32,
    }
}

fn functions(random: &mut Random) -> Vec<u8> {
    let count = random.choose(&[0, 1, 3, 16]);
    (0..count * 2).map(|_| random.below(16) as u8).collect()
}

// Places that are not used hold anything and break nothing.
fn groups(random: &mut Random, variables: usize) -> Groups {
    let count = random.choose(&[0, 0, 1, 4, 5]);
    let mut sets = [0; 5];
    for (place, set) in sets.iter_mut().enumerate() {
        *set = random.number();
        if place < count {
            *set = some_set(random, variables);
        }
    }
    Groups {
        count: count as u64,
        sets,
    }
}

/// A non-empty set of declared variables.
pub fn some_set(random: &mut Random, variables: usize) -> u64 {
    let one = 1 << random.below(variables);
    let sparse = random.number() & random.number() & all_declared(variables);
    one | random.choose(&[0, sparse, all_declared(variables)])
}
