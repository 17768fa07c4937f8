//! Tables that are not the node's: of another board, wrong in one place or two, or of random numbers.
use super::tables::of_board;
use crate::boards;
use crate::random::Random;
use cruachvel::{Curve, Learned};

/// Such a table, for a board whose own is given.
pub(super) fn wild(random: &mut Random, own: &Learned) -> Learned {
    let mut table = match random.below(8) {
        0 => another(random),
        1 => anything(random),
        2 => limits(random),
        _ => *own,
    };
    if random.once_in(2) {
        idle(random, &mut table);
    }
    for _ in 0..random.choose(&[0, 1, 1, 1, 2]) {
        spoil(random, &mut table);
    }
    table
}

// One with few bytes of curves, as others take long to draw.
fn another(random: &mut Random) -> Learned {
    let lent = loop {
        let lent = boards::usable(random);
        if lent.blocks.len() < 8192 {
            break lent;
        }
    };
    of_board(&lent, &lent.groups)
}

fn count(random: &mut Random, right: u64) -> u64 {
    let step = random.choose(&[u64::MAX, 1, 256, 1 << 32]);
    let near = right.wrapping_add(step);
    let limit = random.choose(&[0, 1, 5, 6, 8, 9, 16, 17, 63, 64, 65, 1000]);
    let any = random.number() >> random.below(64);
    random.choose(&[near, limit, limit, any, u64::MAX])
}

fn size(random: &mut Random) -> u8 {
    let any = random.byte();
    random.choose(&[0, 1, 126, 127, 128, 129, 255, any])
}

fn shape(random: &mut Random) -> Curve {
    let any = random.number() as u32 >> random.below(32);
    Curve {
        writable: random.choose(&[0, 1, 0, 1, 2, 256, any]),
        block_size: random.choose(&[0, 1, 4, 4096, 4097, 65_536, any]),
        blocks: random.choose(&[0, 1, 16, 17, 65_535, 65_536, 65_537, u32::MAX, any]),
    }
}

fn anything(random: &mut Random) -> Learned {
    let mut table = Learned::new();
    table.variables = count(random, 3);
    table.writable = random.number();
    table.groups = count(random, 2);
    table.curves = count(random, 2);
    table.functions = count(random, 2);
    table.sets = [(); 5].map(|()| random.number() >> random.below(64));
    table.shapes = [(); 8].map(|()| shape(random));
    random.fill(&mut table.sizes);
    for call in &mut table.calls {
        call.input = random.below(17) as u8;
        call.output = random.below(17) as u8;
    }
    table
}

// As much of everything as 01 allows.
fn limits(random: &mut Random) -> Learned {
    let mut table = Learned::new();
    (table.variables, table.groups, table.curves, table.functions) = (64, 5, 8, 16);
    table.writable = random.choose(&[0, u64::MAX, 1 << 63]);
    table.sets = [u64::MAX, 1 << 63, 1, u64::MAX, 3];
    table.shapes = [Curve::writable(4096, 2); 8];
    if random.once_in(2) {
        // As many blocks too, or one more.
        table.curves = 2;
        table.shapes[0] = Curve::read_only(1, 65_535);
        table.shapes[1] = Curve::writable(1, random.within(1, 2) as u32);
    }
    table.sizes = [64; 64];
    for call in &mut table.calls {
        (call.input, call.output) = (15, 15);
    }
    table
}

// Anything in the places that the table doesn't use: it counts for nothing.
fn idle(random: &mut Random, table: &mut Learned) {
    let from = |count: u64, places: usize| count.min(places as u64) as usize;
    random.fill(&mut table.sizes[from(table.variables, 64)..]);
    for set in &mut table.sets[from(table.groups, 5)..] {
        *set = random.number();
    }
    for curve in &mut table.shapes[from(table.curves, 8)..] {
        *curve = shape(random);
    }
    for call in &mut table.calls[from(table.functions, 16)..] {
        call.input = random.byte();
        call.output = random.byte();
    }
    if table.variables < 64 {
        let past = u64::MAX << table.variables;
        table.writable = table.writable & !past | random.number() & past;
    }
}

// One that is used, mostly.
fn place(random: &mut Random, count: u64, places: usize) -> usize {
    let used = count.clamp(1, places as u64) as usize;
    let any = random.below(places);
    let one = random.below(used);
    random.choose(&[one, one, one, used - 1, any])
}

// One number is another one.
fn spoil(random: &mut Random, table: &mut Learned) {
    match random.below(8) {
        0 => table.variables = count(random, table.variables),
        1 => table.groups = count(random, table.groups),
        2 => table.curves = count(random, table.curves),
        3 => table.functions = count(random, table.functions),
        4 => table.sizes[place(random, table.variables, 64)] = size(random),
        5 => {
            let past = 1 << (table.variables % 64);
            let set = random.choose(&[0, 1, past, past | 1, u64::MAX]);
            table.sets[place(random, table.groups, 5)] = set;
        }
        6 => table.shapes[place(random, table.curves, 8)] = shape(random),
        _ => {
            let call = &mut table.calls[place(random, table.functions, 16)];
            let bytes = random.choose(&[0, 15, 16, 255]);
            if random.once_in(2) {
                call.input = bytes;
            } else {
                call.output = bytes;
            }
        }
    }
}
