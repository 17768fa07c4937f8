//! What an accepted request was to do, by its meaning: held against the board before and after it.
use super::asked::Asked;
use super::held::block;
use crate::lent::{members, Lent};
use cruachvel::{md5, Groups};

/// The part of a board that has to be known from before a packet.
pub(super) struct Before {
    values: Vec<u8>,
    groups: Groups,
}

impl Before {
    pub(super) fn of(lent: &Lent) -> Before {
        Before {
            values: lent.values.clone(),
            groups: lent.groups,
        }
    }

    /// Whether values and groups are as they were.
    pub(super) fn stayed(&self, after: &Lent) -> bool {
        self.values == after.values && self.groups == after.groups
    }

    /// Whether the board is as an accepted request was to leave it: every value, the made groups, the block written, the sum renewed.
    pub(super) fn became(&self, after: &Lent, asked: &Asked) -> bool {
        let number = asked.number;
        let curve_is_right = match asked.code {
            0x41 => block(after, number, asked.block) == asked.bytes,
            0x42 => *after.sum(number) == md5(&after.curve_bytes(number)),
            _ => true,
        };
        curve_is_right && self.groups_became(after, asked) && self.values_became(after, asked)
    }

    fn groups_became(&self, after: &Lent, asked: &Asked) -> bool {
        let made = |groups: &Groups| groups.sets[..groups.count as usize].to_vec();
        let mut right = made(&self.groups);
        match asked.code {
            0x30 => {
                let bits = asked.bytes.iter().map(|id| 1 << id);
                right.push(bits.fold(0, |set, bit: u64| set | bit));
            }
            0x32 => right.clear(),
            _ => (),
        }
        made(&after.groups) == right
    }

    fn values_became(&self, after: &Lent, asked: &Asked) -> bool {
        let set = match asked.code {
            0x20 | 0x24 | 0x28 => 1 << asked.number,
            0x22 | 0x26 => after.group_sets(&self.groups)[asked.number],
            _ => 0,
        };
        let masked = matches!(asked.code, 0x24 | 0x26);
        let mut right = self.values.clone();
        let places = members(set).flat_map(|variable| after.place(variable));
        for (place, given) in places.zip(&asked.bytes) {
            right[place] = match asked.operation {
                _ if !masked => *given,
                0x53 | 0x4F => right[place] | given,
                0x43 => right[place] & !given,
                0x54 | 0x58 => right[place] ^ given,
                _ => right[place] & given,
            };
        }
        right == after.values
    }
}
