//! The asking side: requests from their meaning, replies read, a node learned from its lists.
mod answer;
mod lists;
mod request;

pub use answer::{Answer, ListedGroup, ListedVariable, Record, Records, Values};
pub use lists::Lists;
pub use request::{Masking, Request};

use crate::outcome::done;
use crate::raw::{self, ToldHeard};
use crate::wire::WireError;
use crate::{GroupNumber, Kind, Learned, Refusal, VariableNumber, MOST_VARIABLES, SUM_SIZE};
use std::fmt;
use std::ops::Range;

/// A number that a variable's bytes mean: signed or unsigned, as its kind is.
#[derive(Clone, Copy, Debug, PartialEq, Eq, Hash)]
pub enum Number {
    /// Of a signed variable.
    Signed(i64),
    /// Of an unsigned variable.
    Unsigned(u64),
}

impl fmt::Display for Number {
    fn fmt(&self, f: &mut fmt::Formatter) -> fmt::Result {
        match self {
            Number::Signed(number) => number.fmt(f),
            Number::Unsigned(number) => number.fmt(f),
        }
    }
}

impl From<Number> for i128 {
    fn from(number: Number) -> i128 {
        match number {
            Number::Signed(number) => number.into(),
            Number::Unsigned(number) => number.into(),
        }
    }
}

/// The asking side for one node, or for those that have joined a multicast address.
///
/// Each request is written by [`Gateway::ask`], and the reply to it read by [`Gateway::hear`], which also learns from it. Sending, waiting
/// and asking again are the caller's. All fields are open, and whatever stands there is taken.
///
/// Board A of 01 is learned, and its probe read. The node stands for the line here:
///
/// ```
/// use cruachvel::{
///     Address, Answer, Board, Curve, Function, Gateway, Kind, Lists, Node, Number, Outcome, Request,
///     Variable, VariableNumber, REPLY_ROOM, REQUEST_ROOM,
/// };
///
/// let mut node = Node::new(Board {
///     variables: vec![
///         Variable::read_only(4, Kind::SignedBig),
///         Variable::writable(1, Kind::Plain),
///         Variable::writable(2, Kind::UnsignedLittle),
///     ],
///     curves: vec![Curve::writable(4, 2)],
///     functions: vec![Function { input: 1, output: 2 }],
///     address: Address { own: 5, multicast: 0x81 },
/// });
/// let probe = VariableNumber(0);
/// node.store_signed(probe, -3)?;
///
/// let mut gateway = Gateway::new(5);
/// gateway.kinds = vec![Kind::SignedBig, Kind::Plain, Kind::UnsignedLittle]; // they don't travel
/// let (mut packet, mut reply) = ([0; REQUEST_ROOM], [0; REPLY_ROOM]);
///
/// let mut lists = Lists::new();
/// while let Some(request) = lists.to_ask() {
///     let packet = gateway.ask(&request, &mut packet)?;
///     if let Outcome::Reply(reply) = node.packet(packet, &mut reply) {
///         lists.heard(&gateway.hear(&request, reply)?)?;
///     }
/// }
/// assert_eq!(gateway.learned.sizes[..3], [4, 1, 2]);
/// assert_eq!(gateway.learned.shapes[0], Curve::writable(4, 2));
///
/// let request = Request::ReadVariable(probe);
/// let packet = gateway.ask(&request, &mut packet)?;
/// assert_eq!(packet, [0x05, 0x10, 0x00, 0x01, 0x00, 0xEA]);
/// if let Outcome::Reply(reply) = node.packet(packet, &mut reply) {
///     match gateway.hear(&request, reply)? {
///         Answer::Values(mut values) => {
///             let (variable, bytes) = values.next().expect("the probe's");
///             assert_eq!(gateway.number(variable, bytes)?, Number::Signed(-3));
///         }
///         other => panic!("no value: {:?}", other),
///     }
/// }
/// # Ok::<(), Box<dyn std::error::Error>>(())
/// ```
#[derive(Clone, Debug, PartialEq, Eq)]
pub struct Gateway {
    /// Where requests go: to a node, 1 to 31, or by multicast, 248 to 255. What was sent by multicast is never answered.
    pub destination: u8,
    /// What is known of the node.
    pub learned: Learned,
    /// The variables' kinds, in order of number. They don't travel: who asks must know them. A variable counts as far as there is a kind for
    /// it.
    pub kinds: Vec<Kind>,
}

// One of the two readings, and one of the two ways back.
type Read<T> = unsafe extern "C" fn(*const Learned, *const u8, usize, usize, *const u8, usize) -> T;
type Write<N> =
    unsafe extern "C" fn(*const Learned, *const u8, usize, usize, N, *mut u8, usize) -> u8;

impl Gateway {
    /// A gateway that knows nothing of the node yet, nor any kinds.
    pub const fn new(destination: u8) -> Gateway {
        Gateway {
            destination,
            learned: Learned::new(),
            kinds: Vec::new(),
        }
    }

    /// Writes a request at the start of the buffer, and no other byte: the packet. Refusals 2, 3 and 14, in this order.
    ///
    /// The buffer has at least [`REQUEST_ROOM`](crate::REQUEST_ROOM) bytes.
    pub fn ask<'packet>(
        &self,
        request: &Request,
        packet: &'packet mut [u8],
    ) -> Result<&'packet [u8], Refusal> {
        let numbers = request.numbers();
        // SAFETY: each pointer is a slice's, with its length; Rust's borrows keep what is written apart.
        let told = unsafe {
            raw::bsmp_ask_packet(
                self.destination,
                numbers.code,
                numbers.operation,
                numbers.number,
                numbers.other,
                numbers.block,
                numbers.bytes.as_ptr(),
                numbers.bytes.len(),
                packet.as_mut_ptr(),
                packet.len(),
            )
        };
        done(told.refusal.into(), &packet[..told.length])
    }

    /// Reads the reply to a request and learns from it. Refusals 1, 2, 4, 5 and 13, in this order; 1 only where what is known counts, which is
    /// for reads of a variable, a group, a sum or a block, for 28 and for a function that is run.
    ///
    /// A list replaces what was known of its sort: 03 the variables, and then no made group is known any more; 09 the curves; 0D the functions.
    /// 05 forgets made groups past its number, and 07 puts a made group at its place if it is a known one or the next. A group that was made or
    /// removed by this request is known too. An error and a refusal teach nothing.
    pub fn hear<'reply>(
        &mut self,
        request: &Request,
        reply: &'reply [u8],
    ) -> Result<Answer<'reply>, Refusal> {
        let numbers = request.numbers();
        // SAFETY: as for `ask`.
        let told = unsafe {
            raw::bsmp_hear_reply(
                &mut self.learned,
                self.destination,
                numbers.code,
                numbers.operation,
                numbers.number,
                numbers.other,
                numbers.block,
                numbers.bytes.as_ptr(),
                numbers.bytes.len(),
                reply.as_ptr(),
                reply.len(),
            )
        };
        done(told.refusal.into(), ())?;
        Ok(self.answer(request, &told, reply))
    }

    // The archive is proved to tell one of these kinds, places within the reply, three bytes of a version and 16 of a sum; anything else means
    // that something else was linked in its place.
    fn answer<'reply>(
        &self,
        request: &Request,
        told: &ToldHeard,
        reply: &'reply [u8],
    ) -> Answer<'reply> {
        let from = |bytes: usize| &reply[told.place..told.place + told.length * bytes];
        match told.kind {
            ToldHeard::ERROR => match WireError::of(told.error) {
                Some(error) => Answer::Error(error),
                None => unreachable!("the archive told error {}", told.error),
            },
            ToldHeard::DONE => Answer::Done,
            ToldHeard::VERSION => Answer::Version(sized(from(1))),
            ToldHeard::VARIABLES => Answer::Variables(Records::new(from(1))),
            ToldHeard::GROUPS => Answer::Groups(Records::new(from(1))),
            ToldHeard::MEMBERS => Answer::Members(Records::new(from(1))),
            ToldHeard::CURVES => Answer::Curves(Records::new(from(5))),
            ToldHeard::FUNCTIONS => Answer::Functions(Records::new(from(1))),
            ToldHeard::VALUES => {
                let bytes = from(1);
                Answer::Values(Values::new(bytes, self.lengths(request, bytes.len())))
            }
            ToldHeard::BLOCK => Answer::Block(from(1)),
            ToldHeard::SUM => Answer::Sum(sized::<&[u8; SUM_SIZE]>(from(1))),
            ToldHeard::OUTPUT => Answer::Output(from(1)),
            ToldHeard::FAILED => Answer::Failed(told.error),
            kind => unreachable!("the archive told kind {}", kind),
        }
    }

    // How many bytes each variable has in the reply to a read, which has so many values' bytes.
    fn lengths(&self, request: &Request, bytes: usize) -> [u8; MOST_VARIABLES] {
        let mut lengths = [0; MOST_VARIABLES];
        match *request {
            Request::ReadGroup(group) => {
                for (number, length) in lengths.iter_mut().enumerate() {
                    let place = self.place(group, VariableNumber(number));
                    *length = place.map_or(0, |place| place.len() as u8);
                }
            }
            Request::ReadVariable(read) | Request::WriteRead { read, .. } => {
                let length = lengths.get_mut(read.0);
                length.into_iter().for_each(|length| *length = bytes as u8);
            }
            _ => (),
        }
        lengths
    }

    /// Where a member's bytes stand in the reply to a read of its group. Refusals 1 and 9; 9 also if there is no such group, or the variable is
    /// not of it.
    pub fn place(
        &self,
        group: GroupNumber,
        variable: VariableNumber,
    ) -> Result<Range<usize>, Refusal> {
        // SAFETY: as for `ask`.
        let told = unsafe { raw::bsmp_hear_place(&self.learned, group.0, variable.0) };
        done(told.refusal.into(), told.place..told.place + told.length)
    }

    /// The known members of a group, ascending. There are none if nothing is known of it.
    pub fn members(&self, group: GroupNumber) -> impl Iterator<Item = VariableNumber> + '_ {
        let all = (0..MOST_VARIABLES).map(VariableNumber);
        all.filter(move |variable| self.place(group, *variable).is_ok())
    }

    /// The number that a variable's bytes mean, by its kind. Refusals 1, 9, 11 and 10, in this order; 11 for plain bytes.
    pub fn number(&self, variable: VariableNumber, bytes: &[u8]) -> Result<Number, Refusal> {
        match self.signed(variable, bytes) {
            Err(Refusal::WrongKind) => self.unsigned(variable, bytes).map(Number::Unsigned),
            told => told.map(Number::Signed),
        }
    }

    /// The number that a signed variable's bytes mean. Refusals 1, 9, 11 and 10, in this order.
    pub fn signed(&self, variable: VariableNumber, bytes: &[u8]) -> Result<i64, Refusal> {
        let told = self.read(raw::bsmp_hear_signed, variable, bytes);
        done(told.refusal, told.number)
    }

    /// The number that an unsigned variable's bytes mean. Refusals 1, 9, 11 and 10, in this order.
    pub fn unsigned(&self, variable: VariableNumber, bytes: &[u8]) -> Result<u64, Refusal> {
        let told = self.read(raw::bsmp_hear_unsigned, variable, bytes);
        done(told.refusal, told.number)
    }

    /// Writes a number as the bytes of a variable whose kind it has: the only bytes that read as it. The buffer has exactly the variable's size.
    /// Refusals 1, 9, 11, 10 and 12, in this order.
    pub fn write_number(
        &self,
        variable: VariableNumber,
        number: Number,
        buffer: &mut [u8],
    ) -> Result<(), Refusal> {
        match number {
            Number::Signed(number) => self.write_signed(variable, number, buffer),
            Number::Unsigned(number) => self.write_unsigned(variable, number, buffer),
        }
    }

    /// The same for a signed variable.
    pub fn write_signed(
        &self,
        variable: VariableNumber,
        number: i64,
        buffer: &mut [u8],
    ) -> Result<(), Refusal> {
        self.write(raw::bsmp_ask_signed, variable, number, buffer)
    }

    /// The same for an unsigned variable.
    pub fn write_unsigned(
        &self,
        variable: VariableNumber,
        number: u64,
        buffer: &mut [u8],
    ) -> Result<(), Refusal> {
        self.write(raw::bsmp_ask_unsigned, variable, number, buffer)
    }

    // A kind is a byte, its number.
    fn read<T>(&self, entry: Read<T>, variable: VariableNumber, bytes: &[u8]) -> T {
        let (kinds, count) = (self.kinds.as_ptr().cast(), self.kinds.len());
        let (number, length) = (variable.0, bytes.len());
        // SAFETY: as for `ask`.
        unsafe { entry(&self.learned, kinds, count, number, bytes.as_ptr(), length) }
    }

    fn write<N>(
        &self,
        entry: Write<N>,
        variable: VariableNumber,
        number: N,
        buffer: &mut [u8],
    ) -> Result<(), Refusal> {
        let (kinds, count) = (self.kinds.as_ptr().cast(), self.kinds.len());
        let (bytes, room) = (buffer.as_mut_ptr(), buffer.len());
        // SAFETY: as for `ask`.
        let refusal =
            unsafe { entry(&self.learned, kinds, count, variable.0, number, bytes, room) };
        done(refusal.into(), ())
    }
}

fn sized<'reply, T: TryFrom<&'reply [u8]>>(bytes: &'reply [u8]) -> T {
    let sized = T::try_from(bytes).ok();
    sized.unwrap_or_else(|| unreachable!("the archive told {} bytes", bytes.len()))
}
