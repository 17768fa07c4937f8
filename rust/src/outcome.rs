//! What a call ends in.
use crate::raw::Told;
use crate::FunctionNumber;
use std::fmt;

/// A local refusal. It changes no byte of any store, group table or buffer, nor of a learned table. Smallest number first,
/// except that 11 comes before 10.
#[derive(Clone, Copy, Debug, PartialEq, Eq, Hash)]
#[repr(u8)]
pub enum Refusal {
    /// A record, store length or group breaks the table of 01, or lengths and sums are not one for each block and each
    /// curve, or a length is not 1 to its block size. On the asking side: what was learned breaks it.
    BoardUnusable = 1,
    /// Own address or multicast byte breaks it. On the asking side: the destination is not 1 to 31 or 248 to 255.
    BadAddress = 2,
    /// The reply buffer is under 4,104 bytes. On the asking side: the buffer for the request is.
    ReplyBufferShort = 3,
    /// The packet is under 2 or over 4,104 bytes.
    PacketLength = 4,
    /// The packet's sum isn't 0.
    Checksum = 5,
    /// The destination is neither own nor a joined multicast.
    NotForThisBoard = 6,
    /// A result is handed in for a function that doesn't exist.
    NoSuchFunction = 7,
    /// A successful result is not of the declared length.
    OutputLength = 8,
    /// A board store or reading names a variable that doesn't exist.
    NoSuchVariable = 9,
    /// A value or buffer is not of the variable's size.
    WrongByteCount = 10,
    /// The variable is plain, or signed is asked of unsigned, or the reverse.
    WrongKind = 11,
    /// The number is outside the variable's range.
    DoesNotFit = 12,
    /// The asking side: the reply doesn't fit the request.
    ReplyUnfit = 13,
    /// The asking side: a number is over 255, a block over 65,535 or the payload over 4,099 bytes.
    RequestUnwritable = 14,
}

impl Refusal {
    /// All refusals, in the order of their numbers.
    pub const ALL: [Refusal; 14] = [
        Refusal::BoardUnusable,
        Refusal::BadAddress,
        Refusal::ReplyBufferShort,
        Refusal::PacketLength,
        Refusal::Checksum,
        Refusal::NotForThisBoard,
        Refusal::NoSuchFunction,
        Refusal::OutputLength,
        Refusal::NoSuchVariable,
        Refusal::WrongByteCount,
        Refusal::WrongKind,
        Refusal::DoesNotFit,
        Refusal::ReplyUnfit,
        Refusal::RequestUnwritable,
    ];

    /// 01's number; 02's for the last two.
    pub const fn number(self) -> u8 {
        self as u8
    }

    /// The refusal that has this number.
    pub fn of(number: u8) -> Option<Refusal> {
        let place = usize::from(number).checked_sub(1)?;
        Refusal::ALL.get(place).copied()
    }

    /// 01's words; 02's for the last two.
    pub const fn words(self) -> &'static str {
        match self {
            Refusal::BoardUnusable => "board unusable",
            Refusal::BadAddress => "bad address",
            Refusal::ReplyBufferShort => "reply buffer short",
            Refusal::PacketLength => "packet length",
            Refusal::Checksum => "checksum",
            Refusal::NotForThisBoard => "not for this board",
            Refusal::NoSuchFunction => "no such function",
            Refusal::OutputLength => "output length",
            Refusal::NoSuchVariable => "no such variable",
            Refusal::WrongByteCount => "wrong byte count",
            Refusal::WrongKind => "wrong kind",
            Refusal::DoesNotFit => "doesn't fit",
            Refusal::ReplyUnfit => "reply doesn't fit the request",
            Refusal::RequestUnwritable => "request can't be written",
        }
    }

    // The archive is proved to tell 1 to 14; any other number means that something else was linked in its place.
    fn told(number: u64) -> Refusal {
        u8::try_from(number)
            .ok()
            .and_then(Refusal::of)
            .unwrap_or_else(|| unreachable!("the archive told refusal {}", number))
    }
}

impl fmt::Display for Refusal {
    fn fmt(&self, f: &mut fmt::Formatter) -> fmt::Result {
        f.write_str(self.words())
    }
}

impl std::error::Error for Refusal {}

/// What a packet or a function's result ends in. A reply borrows the reply buffer, an input the packet; neither borrows
/// the node.
#[derive(Clone, Copy, Debug, PartialEq, Eq)]
pub enum Outcome<'packet, 'reply> {
    /// A reply: the bytes at the start of the reply buffer. No others were written.
    Reply(&'reply [u8]),
    /// Nothing is to be sent, and the reply buffer is as it was.
    Silence,
    /// A function is to be run; the reply buffer is as it was.
    Run {
        /// Which one.
        function: FunctionNumber,
        /// The input, within the packet.
        input: &'packet [u8],
        /// Whether an answer is due; it isn't after a multicast packet.
        due: bool,
    },
    /// A local refusal; nothing was changed.
    Refused(Refusal),
}

impl<'packet, 'reply> Outcome<'packet, 'reply> {
    pub(crate) fn told(told: Told, packet: &'packet [u8], reply: &'reply [u8]) -> Self {
        let (input, length) = (told.input, told.length);
        match told.kind {
            Told::REPLY => Outcome::Reply(&reply[..length]),
            Told::SILENCE => Outcome::Silence,
            Told::RUN => Outcome::Run {
                function: FunctionNumber(told.function),
                input: &packet[input..input + length],
                due: told.due,
            },
            _ => Outcome::Refused(Refusal::told(u64::from(told.refusal))),
        }
    }
}

/// How a function ran.
#[derive(Clone, Copy, Debug, PartialEq, Eq)]
pub enum Ran<'a> {
    /// It gave this output: reply 51.
    Gave(&'a [u8]),
    /// It failed with this error byte: reply 53.
    Failed(u8),
}

impl<'a> Ran<'a> {
    // Whether it failed, the error byte and the output; what doesn't count is 0 or empty.
    pub(crate) fn numbers(self) -> (bool, u8, &'a [u8]) {
        match self {
            Ran::Gave(output) => (false, 0, output),
            Ran::Failed(error) => (true, error, &[]),
        }
    }
}

// Refusal 0 is none.
pub(crate) fn done<T>(refusal: u64, number: T) -> Result<T, Refusal> {
    if refusal == 0 {
        Ok(number)
    } else {
        Err(Refusal::told(refusal))
    }
}
