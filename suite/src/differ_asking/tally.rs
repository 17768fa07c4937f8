//! What was met on the way.
use super::asked::{Asked, Unwritable};
use super::drawn::Drawn;
use super::tables::Table;
use super::ways::{Way, WAYS};
use crate::second_asking::Heard;
use cruachvel::raw::ToldHeard;
use cruachvel::MOST_PACKET;

/// Where a reply comes from.
#[derive(Clone, Copy, Debug, PartialEq, Eq)]
pub(super) enum Source {
    /// The nodes, to this request.
    Node,
    /// The nodes, and it was damaged then.
    Damaged,
    /// The nodes, to another request or with another destination.
    Other,
    /// It was drawn to fit, or nearly.
    Nearly,
    /// The nodes, to this request, but it is heard with another table.
    Wild,
    /// Random bytes.
    Noise,
}

/// How often each refusal was given, by its number, and at 0 how often there was none.
pub(super) type Refusals = [u64; 15];

/// Counts of what was met.
pub struct Tally {
    /// Requests that were written by both sides, answered by both nodes, and whose replies were heard by both sides.
    pub exchanges: u64,
    /// How often each request was written, by its code.
    pub(super) written: [u64; 256],
    pub(super) unwritten: Refusals,
    /// Why requests were refused with 14.
    pub(super) unwritable: [u64; 6],
    /// Requests of the most bytes, and new groups that the nodes made of IDs that were not sorted.
    pub(super) longest: u64,
    pub(super) unsorted: u64,
    /// How often the nodes gave code `a` to a request of code `r`, at `r * 256 + a`.
    pub(super) answers: Vec<u64>,
    /// How often each kind was heard, by the archive's number, and each error.
    pub(super) kinds: [u64; 14],
    pub(super) errors: [u64; 256],
    pub(super) unheard: Refusals,
    /// How many replies of each source didn't fit, and how many did.
    pub(super) sources: [[u64; 2]; 6],
    /// How many replies to multicast requests would have fit otherwise, and were not heard.
    pub(super) multicast: u64,
    /// How often each way of learning was met, and how often a node was learned from nothing.
    pub(super) ways: [u64; WAYS.len()],
    pub(super) nodes: u64,
    pub(super) places: Refusals,
    pub(super) numbers: Refusals,
}

impl Tally {
    pub(super) fn new() -> Tally {
        Tally {
            exchanges: 0,
            written: [0; 256],
            unwritten: [0; 15],
            unwritable: [0; 6],
            longest: 0,
            unsorted: 0,
            answers: vec![0; 256 * 256],
            kinds: [0; 14],
            errors: [0; 256],
            unheard: [0; 15],
            sources: [[0; 2]; 6],
            multicast: 0,
            ways: [0; WAYS.len()],
            nodes: 0,
            places: [0; 15],
            numbers: [0; 15],
        }
    }

    /// A request that both sides wrote, with so many bytes, or refused.
    pub(super) fn note_written(&mut self, drawn: &Drawn, refusal: u8, length: usize) {
        let asked = &drawn.asked;
        self.unwritten[usize::from(refusal)] += 1;
        match (refusal, Unwritable::of(asked)) {
            (0, _) => self.written[usize::from(asked.code)] += 1,
            (14, Some(why)) => self.unwritable[why as usize] += 1,
            _ => (),
        }
        self.longest += u64::from(length == MOST_PACKET);
    }

    /// An exchange, with the code of the nodes' reply.
    pub(super) fn note_exchange(&mut self, asked: &Asked, answer: u8) {
        self.exchanges += 1;
        self.answers[usize::from(asked.code) * 256 + usize::from(answer)] += 1;
        let sorted = asked.bytes.windows(2).all(|pair| pair[0] < pair[1]);
        self.unsorted += u64::from((asked.code, answer) == (0x30, 0xE0) && !sorted);
    }

    /// A reply that both sides heard so.
    pub(super) fn note_heard(&mut self, source: Source, told: &ToldHeard) {
        self.kinds[usize::from(told.kind)] += 1;
        self.unheard[usize::from(told.refusal)] += 1;
        if told.kind == ToldHeard::ERROR {
            self.errors[usize::from(told.error)] += 1;
        }
        let fits = usize::from(told.kind != ToldHeard::REFUSED);
        self.sources[source as usize][fits] += 1;
    }

    /// What a reply taught both sides.
    pub(super) fn note_learned(&mut self, asked: &Asked, heard: &Heard, from: &Table, to: &Table) {
        if let Some(way) = Way::of(asked, heard, &from.known, &to.known) {
            self.ways[way as usize] += 1;
        }
    }
}
