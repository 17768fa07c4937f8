//! What was met of the blocks' lengths.
use super::calls::{Call, Entry};
use super::Ending;
use crate::second_lent::SecondLent;
use std::cmp::Ordering;

/// What a board's lengths are like.
#[derive(Clone, Copy, Debug, PartialEq, Eq)]
pub(super) enum Like {
    Full,
    Short,
    Zero,
    Long,
    TooFew,
    TooMany,
}

impl Like {
    /// Those that make the board unusable.
    const WRONG: [Like; 4] = [Like::Zero, Like::Long, Like::TooFew, Like::TooMany];

    fn text(self) -> &'static str {
        match self {
            Like::Full => "full blocks",
            Like::Short => "a block that isn't full",
            Like::Zero => "a length of 0",
            Like::Long => "a length over its block size",
            Like::TooFew => "too few lengths",
            Like::TooMany => "too many lengths",
        }
    }

    fn of(second: &SecondLent) -> Like {
        let lent = &second.lent;
        let blocks = lent.length_place(lent.curves.len() / 3).start;
        match second.lengths.len().cmp(&blocks) {
            Ordering::Less => Like::TooFew,
            Ordering::Greater => Like::TooMany,
            Ordering::Equal => Like::of_each(second),
        }
    }

    fn of_each(second: &SecondLent) -> Like {
        let (mut zero, mut long, mut short) = (false, false, false);
        for (curve, record) in second.lent.curves.chunks_exact(3).enumerate() {
            let lengths = &second.lengths[second.lent.length_place(curve)];
            let least = lengths.iter().copied().fold(u16::MAX, u16::min);
            let most = lengths.iter().copied().fold(0, u16::max);
            zero |= least == 0;
            long |= u32::from(most) > record[1];
            short |= u32::from(least) < record[1];
        }
        match (zero, long, short) {
            (true, ..) => Like::Zero,
            (_, true, _) => Like::Long,
            (.., true) => Like::Short,
            _ => Like::Full,
        }
    }
}

/// What is to be known of the lengths as they were before a call.
pub(super) struct Before {
    /// That of the block that a packet names.
    named: Option<u16>,
    /// All of them, for a fresh board.
    like: Option<Like>,
}

impl Before {
    pub(super) fn of(call: &Call, second: &SecondLent) -> Before {
        Before {
            named: named(call, second),
            like: matches!(call.entry, Entry::Fresh).then(|| Like::of(second)),
        }
    }
}

// The length of the block that a packet of 40 or 41 names, if there is one.
fn named(call: &Call, second: &SecondLent) -> Option<u16> {
    match (&call.entry, &call.given[..]) {
        (Entry::Packet { .. }, [_, 0x40 | 0x41, _, _, curve, high, low, ..]) => {
            let place = second.lent.length_place(usize::from(*curve));
            let block = usize::from(u16::from_be_bytes([*high, *low]));
            second.lengths.get(place)?.get(block).copied()
        }
        _ => None,
    }
}

/// Counts of 40, 41, 42, fresh boards and refusals by what the lengths were like.
#[derive(Default)]
pub(super) struct Lengths {
    /// 40 that was answered: with a full block, and with one that isn't.
    read: [u64; 2],
    /// 41 that made its block shorter and longer: answered, and by multicast.
    written: [[u64; 2]; 2],
    /// 41 that was answered with E0 and left the length as it was.
    kept: u64,
    /// 42 that was answered with E0: of full blocks alone, and with one that isn't.
    renewed: [u64; 2],
    /// Fresh boards by what the lengths were like: taken, and refused.
    fresh: [[u64; 6]; 2],
    /// Other calls that were refused with 1, by what the lengths are like.
    refused: [u64; 6],
}

impl Lengths {
    /// A call that both nodes ended so, with what is to be known of before it.
    pub(super) fn note(
        &mut self,
        call: &Call,
        ending: &Ending,
        before: &Before,
        after: &SecondLent,
    ) {
        if let Some(like) = before.like {
            let refused = matches!(ending, Ending::Refused(_));
            self.fresh[usize::from(refused)][like as usize] += 1;
            return;
        }
        match (ending, &call.given[..]) {
            (Ending::Refused(1), _) => self.refused[Like::of(after) as usize] += 1,
            (Ending::Reply(_), [_, 0x40, _, _, curve, ..]) if after.buffer[1] == 0x41 => {
                let size = after.lent.curves[3 * usize::from(*curve) + 1];
                let short = before
                    .named
                    .map_or(false, |length| u32::from(length) < size);
                self.read[usize::from(short)] += 1;
            }
            (Ending::Reply(_), [_, 0x42, _, _, curve, ..]) if after.buffer[1] == 0xE0 => {
                let curve = usize::from(*curve);
                let size = after.lent.curves[3 * curve + 1];
                let lengths = &after.lengths[after.lent.length_place(curve)];
                let short = lengths.iter().any(|length| u32::from(*length) < size);
                self.renewed[usize::from(short)] += 1;
            }
            (Ending::Reply(_) | Ending::Silence, [_, 0x41, ..]) => {
                let multicast = matches!(ending, Ending::Silence);
                self.note_41(multicast, before.named, named(call, after), after.buffer[1]);
            }
            _ => (),
        }
    }

    fn note_41(&mut self, multicast: bool, before: Option<u16>, after: Option<u16>, answer: u8) {
        match after.cmp(&before) {
            Ordering::Less => self.written[usize::from(multicast)][0] += 1,
            Ordering::Greater => self.written[usize::from(multicast)][1] += 1,
            Ordering::Equal => self.kept += u64::from(!multicast && answer == 0xE0),
        }
    }

    /// How often each was met.
    pub(super) fn text(&self) -> String {
        let [[shorter, longer], [quiet_shorter, quiet_longer]] = self.written;
        let [taken, refused] = self.fresh;
        let of = |counts: [u64; 6], likes: &[Like]| -> u64 {
            likes.iter().map(|like| counts[*like as usize]).sum()
        };
        let wrong = Like::WRONG.map(|like| {
            let count = self.refused[like as usize];
            format!("{} times for {}", count, like.text())
        });
        format!(
            "40 answered {} times, {} of them with a block that isn't full; 41 made {} blocks shorter and {} longer, {} of them by multicast; 42 covered blocks that aren't full {} times; {} fresh boards filled blocks, {} of them from lengths out of range, {} were refused for their count; refused with 1 {}",
            self.read[0] + self.read[1],
            self.read[1],
            shorter + quiet_shorter,
            longer + quiet_longer,
            quiet_shorter + quiet_longer,
            self.renewed[1],
            of(taken, &[Like::Short, Like::Zero, Like::Long]),
            of(taken, &[Like::Zero, Like::Long]),
            of(refused, &[Like::TooFew, Like::TooMany]),
            wrong.join(", ")
        )
    }

    /// What never came up.
    pub(super) fn not_met(&self) -> Vec<String> {
        let calls = [
            ("40 of a full block", self.read[0]),
            ("40 of a block that isn't full", self.read[1]),
            ("41 that shortens", self.written[0][0]),
            ("41 that lengthens", self.written[0][1]),
            ("41 that shortens by multicast", self.written[1][0]),
            ("41 that lengthens by multicast", self.written[1][1]),
            ("41 that leaves the length", self.kept),
            ("42 of full blocks alone", self.renewed[0]),
            ("42 with a block that isn't full", self.renewed[1]),
        ];
        let calls = calls.map(|(name, count)| (name.to_string(), count));
        let named = |counts: [u64; 6], name: &'static str| {
            move |like: Like| (format!("{} {}", name, like.text()), counts[like as usize])
        };
        let [taken, refused] = self.fresh;
        let in_number = [Like::Full, Like::Short, Like::Zero, Like::Long];
        let fresh = in_number.map(named(taken, "a fresh board with"));
        let not_fresh = [Like::TooFew, Like::TooMany].map(named(refused, "a fresh board with"));
        let others = Like::WRONG.map(named(self.refused, "another call with"));
        let all = calls.into_iter().chain(fresh).chain(not_fresh);
        all.chain(others)
            .filter(|(_, count)| *count == 0)
            .map(|(name, _)| name)
            .collect()
    }
}
