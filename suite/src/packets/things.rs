//! The things that messages name: variables, groups, curves and functions of a board, by number.
use super::{Drawer, Wrong};

// A thing that a message names: whether it can be written, and the variables that it stands for.
#[derive(Clone, Copy)]
struct Thing {
    writable: bool,
    set: u64,
}

// What a message has to know of the thing that it names: its bytes, and the variables that it stands for.
pub(super) struct Named {
    pub(super) bytes: usize,
    pub(super) set: u64,
}

impl Drawer<'_> {
    // The number of a thing of the command's sort, and what is to be known of it. With a number that doesn't exist, the rest of the
    // message is as for one that does.
    pub(super) fn named(&mut self, command: u8, wrongs: &[Wrong]) -> (u8, Named) {
        let things = self.things(command);
        let wanted = !wrongs.contains(&Wrong::ReadOnly);
        let start = self.random.below(things.len());
        let mut order = (start..things.len()).chain(0..start);
        let number = order
            .find(|number| things[*number].writable == wanted)
            .filter(|_| !matches!(command, 0x06 | 0x0A | 0x10 | 0x12 | 0x40 | 0x42))
            .unwrap_or(start);
        let set = things.get(number).map_or(0, |thing| thing.set);
        let bytes = self.bytes(command, number, set);
        if wrongs.contains(&Wrong::Number) {
            return (self.unknown(things.len()), Named { bytes, set });
        }
        (number as u8, Named { bytes, set })
    }

    // How many bytes belong to a thing: the values of its variables, a block, or a function's input.
    fn bytes(&self, command: u8, number: usize, set: u64) -> usize {
        match command {
            0x40 | 0x41 => self.curve(number).map_or(0, |record| record[1] as usize),
            0x50 => {
                let record = self.lent.functions.chunks_exact(2).nth(number);
                record.map_or(0, |record| record[0].into())
            }
            _ => self.lent.set_bytes(set),
        }
    }

    pub(super) fn curve(&self, number: usize) -> Option<&[u32]> {
        self.lent.curves.chunks_exact(3).nth(number)
    }

    fn things(&self, command: u8) -> Vec<Thing> {
        match command {
            0x06 | 0x12 | 0x22 | 0x26 => self.groups(),
            0x0A | 0x40..=0x42 => self.curves(),
            0x50 => self.functions(),
            _ => self.variables(),
        }
    }

    fn variables(&self) -> Vec<Thing> {
        let thing = |(number, variable): (usize, &cruachvel::Variable)| Thing {
            writable: variable.writable == 1,
            set: 1 << (number % 64),
        };
        self.lent.variables.iter().enumerate().map(thing).collect()
    }

    fn groups(&self) -> Vec<Thing> {
        let sets = self.lent.group_sets(self.groups);
        let read_only = sets[1];
        let thing = |(number, &set): (usize, &u64)| Thing {
            writable: number != 1 && set & read_only == 0,
            set,
        };
        sets.iter().enumerate().map(thing).collect()
    }

    fn curves(&self) -> Vec<Thing> {
        let thing = |record: &[u32]| Thing {
            writable: record[0] == 1,
            set: 0,
        };
        self.lent.curves.chunks_exact(3).map(thing).collect()
    }

    fn functions(&self) -> Vec<Thing> {
        let thing = |_| Thing {
            writable: true,
            set: 0,
        };
        self.lent.functions.chunks_exact(2).map(thing).collect()
    }

    // A number that no thing has, of `count` things.
    pub(super) fn unknown(&mut self, count: usize) -> u8 {
        let count = count.min(254);
        let any = self.random.within(count, 255);
        self.random.choose(&[count, count + 1, any, 255]) as u8
    }
}
