//! Both nodes on one board, call after call: everything that a call leaves is compared.
pub(crate) mod calls;
pub(crate) mod digest;
mod lengths;
mod proved_side;
mod second_side;
mod sums;
mod tally;

use crate::boards;
use crate::faults::{sorts_of_faults, Fault};
use crate::guard::Edge;
use crate::lent::Lent;
use crate::random::Random;
use crate::second;
use crate::second_lent::SecondLent;
use calls::{draw, Call};
use cruachvel::{Groups, Outcome, Refusal};
use digest::Digest;
use proved_side::Proved;
use std::fmt;
use tally::Before;
pub use tally::Tally;

/// How a call ended, in a form that both nodes' answers are brought to.
#[derive(Clone, Debug, PartialEq, Eq)]
pub enum Ending {
    Reply(usize),
    Silence,
    Run {
        function: usize,
        place: usize,
        length: usize,
        due: bool,
    },
    Refused(u8),
    Done,
    Signed(i64),
    Unsigned(u64),
}

impl Ending {
    // A packet's input is told by its place, so the packet is needed to see it.
    pub(crate) fn of(outcome: Outcome, request: &[u8]) -> Ending {
        match outcome {
            Outcome::Reply(reply) => Ending::Reply(reply.len()),
            Outcome::Silence => Ending::Silence,
            Outcome::Run {
                function,
                input,
                due,
            } => Ending::Run {
                function: function.0,
                place: input.as_ptr() as usize - request.as_ptr() as usize,
                length: input.len(),
                due,
            },
            Outcome::Refused(refusal) => Ending::Refused(refusal.number()),
        }
    }

    pub(crate) fn of_second(outcome: second::Outcome) -> Ending {
        match outcome {
            second::Outcome::Reply(length) => Ending::Reply(length),
            second::Outcome::Silent => Ending::Silence,
            second::Outcome::Run {
                function,
                input,
                due,
            } => Ending::Run {
                function,
                place: 5,
                length: input,
                due,
            },
            second::Outcome::Refused(refusal) => Ending::Refused(refusal),
        }
    }

    fn of_result<T>(result: Result<T, Refusal>, ending: impl Fn(T) -> Ending) -> Ending {
        result.map_or_else(|refusal| Ending::Refused(refusal.number()), ending)
    }

    fn of_second_result<T>(result: Result<T, u8>, ending: impl Fn(T) -> Ending) -> Ending {
        result.map_or_else(Ending::Refused, ending)
    }
}

/// Where the two nodes disagree: the seed, the board, the call and both sides.
pub struct Difference(String);

impl fmt::Display for Difference {
    fn fmt(&self, f: &mut fmt::Formatter) -> fmt::Result {
        f.write_str(&self.0)
    }
}

/// A run of both nodes over boards and calls that follow from a seed.
pub struct Differ {
    seed: u64,
    random: Random,
    faults: Vec<Vec<Fault>>,
    proved: Proved,
    pub tally: Tally,
    digest: Option<Digest>,
}

impl Differ {
    pub fn new(seed: u64) -> Differ {
        Differ {
            seed,
            random: Random::new(seed),
            faults: sorts_of_faults(),
            proved: Proved::new(),
            tally: Tally::new(),
            digest: None,
        }
    }

    /// The same, with a number for all that the calls leave.
    pub fn with_digest(seed: u64) -> Differ {
        Differ {
            digest: Some(Digest::new()),
            ..Differ::new(seed)
        }
    }

    /// Of the calls so far: how they ended, the buffers, stores, lengths, sums and group tables that they left.
    pub fn digest(&self) -> Option<u64> {
        self.digest.as_ref().map(|digest| digest.0)
    }

    /// Goes on, board after board, until that many calls were made in all, or until the nodes disagree.
    pub fn run(&mut self, calls: u64) -> Result<(), Difference> {
        while self.tally.calls < calls {
            self.board(calls)?;
        }
        Ok(())
    }

    // One board and some calls on it.
    fn board(&mut self, calls: u64) -> Result<(), Difference> {
        let lent = self.lent();
        let edge = self.random.choose(&[Edge::Start, Edge::End]);
        self.proved.take(edge, &lent);
        let mut second = SecondLent::new(&lent);
        let large = lent.blocks.len() + 2 * lent.lengths.len() > 8192;
        let most = if large { 20 } else { 400 };
        for _ in 0..self.random.within(1, most) {
            if self.tally.calls < calls {
                self.call(&mut second)?;
            }
        }
        let records = &self.proved.records;
        let kept = records.variables[..] == lent.variables[..]
            && records.curves[..] == lent.curves[..]
            && records.functions[..] == lent.functions[..];
        assert!(
            kept,
            "seed {}: records were written to on {:?}",
            self.seed, lent
        );
        Ok(())
    }

    // Mostly a usable board; now and then one that is wrong in one way, or two, or has a bad address, or that is not fresh yet.
    fn lent(&mut self) -> Lent {
        let random = &mut self.random;
        let mut lent = boards::usable(random);
        let wrong = match random.below(32) {
            0..=3 => 1,
            4 => 2,
            _ => 0,
        };
        for _ in 0..wrong {
            let sort = &self.faults[random.below(self.faults.len())];
            let fault = &sort[random.below(sort.len())];
            if !lent.variables.is_empty() {
                fault.prepare(&mut lent);
                fault.spoil(&mut lent);
            }
        }
        match random.below(64) {
            0 => lent.address.own = random.choose(&[0, 32, 33, 248, 255]),
            1 => lent.address.multicast &= 0xFE,
            // As memory is before the board is made fresh: cleared, or anything.
            2 => lent.lengths.fill(0),
            3 => lent.lengths.fill_with(|| random.number() as u16),
            _ => (),
        }
        lent
    }

    fn call(&mut self, second: &mut SecondLent) -> Result<(), Difference> {
        let call = draw(&mut self.random, second);
        let before = Before::of(&call, second);
        if second.buffer.len() != call.room {
            second.buffer.resize(call.room, 0xA5);
            self.proved.buffer.put(self.proved.edge, &second.buffer);
        }
        self.proved.given.put(self.proved.edge, &call.given);
        let told = self.proved.call(&call.entry);
        let ending = second_side::call(second, &call.entry, &call.given);
        if let Some(what) = self.proved.differing(second, &call, &told, &ending) {
            return Err(self.difference(second, &call, &told, &ending, what));
        }
        self.tally.note(&call, &ending, &before, second);
        if let Some(digest) = &mut self.digest {
            digest.note(&told, &self.proved);
        }
        Ok(())
    }

    fn difference(
        &self,
        second: &SecondLent,
        call: &Call,
        told: &Ending,
        ending: &Ending,
        what: &str,
    ) -> Difference {
        let proved = &self.proved;
        Difference(format!(
            "seed {}, call {}: the nodes differ in {}\n\
             board: {}\n\
             call: {:02X?}\n\
             proved node: {}\n\
             second node: {}\n\
             first place where the curves' stores differ: {:?}\n\
             first block whose lengths differ: {:?}",
            self.seed,
            self.tally.calls + 1,
            what,
            board(second),
            call,
            left(
                told,
                &proved.groups[0],
                [&proved.values, &proved.sums, &proved.buffer]
            ),
            left(
                ending,
                &second.groups(),
                [&second.values, &second.sums, &second.buffer]
            ),
            first_apart(&proved.blocks, &second.blocks),
            first_apart(&proved.lengths, &second.lengths),
        ))
    }
}

fn first_apart<T: PartialEq>(one: &[T], other: &[T]) -> Option<usize> {
    one.iter().zip(other).position(|(a, b)| a != b)
}

fn board(second: &SecondLent) -> String {
    let lent = &second.lent;
    let bytes = [&second.values, &second.blocks, &second.sums].map(Vec::len);
    format!(
        "{:?}, own {}, multicast {:02X}, values, blocks and sums of {:?} bytes, {} lengths",
        lent.table(),
        lent.address.own,
        lent.address.multicast,
        bytes,
        second.lengths.len()
    )
}

// How a call ended on one of the nodes and what it left, of the buffer as much as is worth printing.
fn left(ending: &Ending, groups: &Groups, [values, sums, buffer]: [&[u8]; 3]) -> String {
    let start = &buffer[..buffer.len().min(64)];
    format!(
        "{:?}\n  groups {:X?}\n  values {:02X?}\n  sums {:02X?}\n  buffer {:02X?}",
        ending, groups, values, sums, start
    )
}
