//! One number for all that the calls of a run left, so that runs of two libraries can be compared.
use super::proved_side::Proved;
use super::Ending;

/// Each step can be undone, so that what differs in one place gives another number.
pub(crate) struct Digest(pub(crate) u64);

impl Digest {
    pub(crate) fn new() -> Digest {
        Digest(0)
    }

    pub(crate) fn number(&mut self, number: u64) {
        self.0 = (self.0.rotate_left(5) ^ number).wrapping_mul(0x9E37_79B9_7F4A_7C15);
    }

    pub(crate) fn bytes(&mut self, bytes: &[u8]) {
        self.number(bytes.len() as u64);
        let words = bytes.chunks_exact(8);
        let mut rest = [0; 8];
        rest[..words.remainder().len()].copy_from_slice(words.remainder());
        for word in words {
            self.number(u64::from_le_bytes(word.try_into().expect("eight bytes")));
        }
        self.number(u64::from_le_bytes(rest));
    }

    fn lengths(&mut self, lengths: &[u16]) {
        self.number(lengths.len() as u64);
        for four in lengths.chunks(4) {
            let joined = four.iter().fold(0, |all, one| all << 16 | u64::from(*one));
            self.number(joined);
        }
    }

    fn ending(&mut self, ending: &Ending) {
        let (kind, number) = match *ending {
            Ending::Reply(length) => (0, length as u64),
            Ending::Silence => (1, 0),
            Ending::Run {
                function,
                place,
                length,
                due,
            } => {
                self.number(function as u64);
                self.number(place as u64);
                self.number(length as u64);
                (2, due.into())
            }
            Ending::Refused(refusal) => (3, refusal.into()),
            Ending::Done => (4, 0),
            Ending::Signed(number) => (5, number as u64),
            Ending::Unsigned(number) => (6, number),
        };
        self.number(kind);
        self.number(number);
    }

    /// How a call ended, and all that it could write.
    pub(super) fn note(&mut self, ending: &Ending, proved: &Proved) {
        self.ending(ending);
        self.bytes(&proved.buffer);
        self.bytes(&proved.values);
        self.bytes(&proved.blocks);
        self.lengths(&proved.lengths);
        self.bytes(&proved.sums);
        self.number(proved.groups[0].count);
        proved.groups[0]
            .sets
            .iter()
            .for_each(|set| self.number(*set));
    }
}
