//! What was met of the curves' sums.
use super::calls::{Call, Entry};
use super::Ending;
use crate::lent::held;
use crate::second_lent::SecondLent;
use cruachvel::{md5, SUM_SIZE};

/// Counts of 0A, 42 and fresh boards by what came of them.
#[derive(Default)]
pub(super) struct Sums {
    /// 0A that was answered: with the sum of what the curve holds, and with a stale one.
    read: [u64; 2],
    /// 42 that made a sum another one: answered and by multicast, each for a writable curve and a read-only one.
    renewed: [[u64; 2]; 2],
    /// 42 that was carried out and left the sum as it was.
    kept: u64,
    /// Fresh boards: refused, taken with all sums as they were, taken with another sum.
    fresh: [u64; 3],
}

impl Sums {
    /// A call that both nodes ended so, with the sums as they were before it.
    pub(super) fn note(&mut self, call: &Call, ending: &Ending, before: &[u8], after: &SecondLent) {
        match (&call.entry, &call.given[..], ending) {
            (Entry::Packet { .. }, [_, 0x0A, _, _, curve, _], Ending::Reply(_))
                if after.buffer[1] == 0x0B =>
            {
                let stale = after.buffer[4..4 + SUM_SIZE] != worked_out(after, *curve);
                self.read[usize::from(stale)] += 1;
            }
            (Entry::Packet { .. }, [_, 0x42, ..], Ending::Reply(_) | Ending::Silence) => {
                self.note_42(matches!(ending, Ending::Silence), before, after)
            }
            (Entry::Fresh, ..) => {
                let place = match ending {
                    Ending::Refused(_) => 0,
                    _ => 1 + usize::from(before != after.sums),
                };
                self.fresh[place] += 1;
            }
            _ => (),
        }
    }

    fn note_42(&mut self, multicast: bool, before: &[u8], after: &SecondLent) {
        let pairs = before.chunks(SUM_SIZE).zip(after.sums.chunks(SUM_SIZE));
        let renewed = pairs.into_iter().position(|(old, new)| old != new);
        match renewed {
            Some(curve) => {
                let read_only = after.lent.curves[3 * curve] == 0;
                self.renewed[usize::from(multicast)][usize::from(read_only)] += 1;
            }
            None => self.kept += u64::from(multicast || after.buffer[1] == 0xE0),
        }
    }

    /// How often each was met.
    pub(super) fn text(&self) -> String {
        let [[answered, answered_read_only], [quiet, quiet_read_only]] = self.renewed;
        let read_only = answered_read_only + quiet_read_only;
        format!(
            "0A answered {} times, {} of them with a stale sum; 42 renewed {} sums, {} of read-only curves, {} by multicast; {} fresh boards taken, {} refused",
            self.read[0] + self.read[1],
            self.read[1],
            answered + quiet + read_only,
            read_only,
            quiet + quiet_read_only,
            self.fresh[1] + self.fresh[2],
            self.fresh[0]
        )
    }

    /// What never came up.
    pub(super) fn not_met(&self) -> Vec<String> {
        let counts = [
            ("0A with the sum of what the curve holds", self.read[0]),
            ("0A with a stale sum", self.read[1]),
            ("42 with another sum", self.renewed[0][0]),
            ("42 of a read-only curve", self.renewed[0][1]),
            ("42 by multicast", self.renewed[1][0]),
            ("42 of a read-only curve by multicast", self.renewed[1][1]),
            ("42 with the same sum", self.kept),
            ("a fresh board that is refused", self.fresh[0]),
            ("a fresh board with the same sums", self.fresh[1]),
            ("a fresh board with other sums", self.fresh[2]),
        ];
        let missing = counts.iter().filter(|(_, count)| *count == 0);
        missing.map(|(name, _)| name.to_string()).collect()
    }
}

// The sum of what a curve holds now.
fn worked_out(second: &SecondLent, curve: u8) -> [u8; SUM_SIZE] {
    let (curves, curve) = (&second.lent.curves, usize::from(curve));
    md5(&held(curves, &second.blocks, &second.lengths, curve))
}
