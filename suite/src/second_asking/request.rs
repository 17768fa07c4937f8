//! Requests: what each of them means, and the packet that says so.
#![forbid(unsafe_code)]

use super::packet::{is_destination, sealed, PACKET_MOST};
use super::refusals::{BAD_DESTINATION, BUFFER_SHORT, CANNOT_BE_WRITTEN};

/// What a mask does to the bits of a value.
#[derive(Clone, Copy, Debug, PartialEq, Eq)]
pub enum Masking {
    Set,
    Or,
    Clear,
    Toggle,
    Xor,
    And,
}

/// The requests of 01's table, 0A and 42 too. The bytes that some of them carry (a value, a mask, a block's bytes, a function's input, the
/// variables of a new group) go beside them as data.
#[derive(Clone, Copy, Debug, PartialEq, Eq)]
pub enum Request {
    Version,
    ListVariables,
    ListGroups,
    ShowGroup(usize),
    ListCurves,
    ReadSum(usize),
    ListFunctions,
    ReadVariable(usize),
    ReadGroup(usize),
    WriteVariable(usize),
    WriteGroup(usize),
    MaskVariable(usize, Masking),
    MaskGroup(usize, Masking),
    WriteRead { written: usize, read: usize },
    MakeGroup,
    RemoveGroups,
    ReadBlock { curve: usize, block: usize },
    WriteBlock { curve: usize, block: usize },
    RenewSum(usize),
    RunFunction(usize),
}

/// The packet of a request, if a buffer of `room` bytes is lent for it; refusals 2, 3, 14. No table is looked at: what the node lacks or takes
/// in another length gets the node's own error.
pub fn ask(destination: u8, request: Request, data: &[u8], room: usize) -> Result<Vec<u8>, u8> {
    if !is_destination(destination) {
        return Err(BAD_DESTINATION);
    }
    if room < PACKET_MOST {
        return Err(BUFFER_SHORT);
    }
    let packet = |payload: Vec<u8>| sealed(destination, request.command(), &payload);
    request
        .payload(data)
        .and_then(packet)
        .ok_or(CANNOT_BE_WRITTEN)
}

impl Masking {
    fn operation(self) -> u8 {
        match self {
            Masking::Set => 0x53,
            Masking::Or => 0x4F,
            Masking::Clear => 0x43,
            Masking::Toggle => 0x54,
            Masking::Xor => 0x58,
            Masking::And => 0x41,
        }
    }
}

impl Request {
    fn command(self) -> u8 {
        match self {
            Request::Version => 0x00,
            Request::ListVariables => 0x02,
            Request::ListGroups => 0x04,
            Request::ShowGroup(_) => 0x06,
            Request::ListCurves => 0x08,
            Request::ReadSum(_) => 0x0A,
            Request::ListFunctions => 0x0C,
            Request::ReadVariable(_) => 0x10,
            Request::ReadGroup(_) => 0x12,
            Request::WriteVariable(_) => 0x20,
            Request::WriteGroup(_) => 0x22,
            Request::MaskVariable(..) => 0x24,
            Request::MaskGroup(..) => 0x26,
            Request::WriteRead { .. } => 0x28,
            Request::MakeGroup => 0x30,
            Request::RemoveGroups => 0x32,
            Request::ReadBlock { .. } => 0x40,
            Request::WriteBlock { .. } => 0x41,
            Request::RenewSum(_) => 0x42,
            Request::RunFunction(_) => 0x50,
        }
    }

    /// None if a number doesn't go into its bytes.
    fn payload(self, data: &[u8]) -> Option<Vec<u8>> {
        let mut payload = self.front()?;
        if self.carries_data() {
            payload.extend_from_slice(data);
        }
        if self == Request::MakeGroup {
            // The node takes ascending IDs only. A repeated one stays, for the node to refuse.
            payload.sort_unstable();
        }
        Some(payload)
    }

    /// What stands before the data: the things named and the operation.
    fn front(self) -> Option<Vec<u8>> {
        Some(match self {
            Request::Version
            | Request::ListVariables
            | Request::ListGroups
            | Request::ListCurves
            | Request::ListFunctions
            | Request::MakeGroup
            | Request::RemoveGroups => vec![],
            Request::ShowGroup(number)
            | Request::ReadSum(number)
            | Request::ReadVariable(number)
            | Request::ReadGroup(number)
            | Request::WriteVariable(number)
            | Request::WriteGroup(number)
            | Request::RenewSum(number)
            | Request::RunFunction(number) => vec![id(number)?],
            Request::MaskVariable(number, masking) | Request::MaskGroup(number, masking) => {
                vec![id(number)?, masking.operation()]
            }
            Request::WriteRead { written, read } => vec![id(written)?, id(read)?],
            Request::ReadBlock { curve, block } | Request::WriteBlock { curve, block } => {
                let [high, low] = u16::try_from(block).ok()?.to_be_bytes();
                vec![id(curve)?, high, low]
            }
        })
    }

    fn carries_data(self) -> bool {
        matches!(
            self,
            Request::WriteVariable(_)
                | Request::WriteGroup(_)
                | Request::MaskVariable(..)
                | Request::MaskGroup(..)
                | Request::WriteRead { .. }
                | Request::MakeGroup
                | Request::WriteBlock { .. }
                | Request::RunFunction(_)
        )
    }

    /// Whether the size of the answer comes from the learned table.
    pub(super) fn table_counts(self) -> bool {
        matches!(
            self,
            Request::ReadSum(_)
                | Request::ReadVariable(_)
                | Request::ReadGroup(_)
                | Request::WriteRead { .. }
                | Request::ReadBlock { .. }
                | Request::RunFunction(_)
        )
    }

    /// Whether E0 is the answer.
    pub(super) fn is_only_done(self) -> bool {
        matches!(
            self,
            Request::WriteVariable(_)
                | Request::WriteGroup(_)
                | Request::MaskVariable(..)
                | Request::MaskGroup(..)
                | Request::MakeGroup
                | Request::RemoveGroups
                | Request::WriteBlock { .. }
                | Request::RenewSum(_)
        )
    }
}

fn id(number: usize) -> Option<u8> {
    u8::try_from(number).ok()
}
