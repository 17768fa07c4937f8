//! Requests, from their meaning.
use crate::{CurveNumber, FunctionNumber, GroupNumber, VariableNumber};

/// The six operations of a mask. Two pairs of them do the same, and each is a request of its own.
#[derive(Clone, Copy, Debug, PartialEq, Eq, Hash)]
#[repr(u8)]
pub enum Masking {
    /// Turns on the mask's bits.
    Set = 0x53,
    /// Turns on the mask's bits.
    Or = 0x4F,
    /// Turns off the mask's bits.
    Clear = 0x43,
    /// Inverts the mask's bits.
    Toggle = 0x54,
    /// Inverts the mask's bits.
    Xor = 0x58,
    /// Keeps only the mask's bits.
    And = 0x41,
}

impl Masking {
    /// All operations.
    pub const ALL: [Masking; 6] = [
        Masking::Set,
        Masking::Or,
        Masking::Clear,
        Masking::Toggle,
        Masking::Xor,
        Masking::And,
    ];

    /// The code on the wire.
    pub const fn code(self) -> u8 {
        self as u8
    }
}

/// A request of 01's table, by its meaning. The numbers and bytes may be anything: what can't be written is refused with 14, and what the
/// node doesn't take it answers with an error.
#[derive(Clone, Copy, Debug, PartialEq, Eq)]
pub enum Request<'a> {
    /// 00: the protocol version.
    Version,
    /// 02: the list of variables.
    ListVariables,
    /// 04: the list of groups.
    ListGroups,
    /// 06: the variables of a group.
    ShowGroup(GroupNumber),
    /// 08: the list of curves.
    ListCurves,
    /// 0A: a curve's sum.
    ReadSum(CurveNumber),
    /// 0C: the list of functions.
    ListFunctions,
    /// 10: a variable's value.
    ReadVariable(VariableNumber),
    /// 12: the values of a group's members.
    ReadGroup(GroupNumber),
    /// 20: a new value for a variable.
    WriteVariable(VariableNumber, &'a [u8]),
    /// 22: new values for a group's members, ascending, one behind the other.
    WriteGroup(GroupNumber, &'a [u8]),
    /// 24: a mask for a variable.
    MaskVariable(VariableNumber, Masking, &'a [u8]),
    /// 26: masks for a group's members, ascending, one behind the other.
    MaskGroup(GroupNumber, Masking, &'a [u8]),
    /// 28: a new value for one variable, and then the value of another or the same.
    WriteRead {
        /// The variable that is written.
        written: VariableNumber,
        /// The variable that is read after it.
        read: VariableNumber,
        /// The new value of the first.
        bytes: &'a [u8],
    },
    /// 30: a new group of these variables, a byte for each. They may stand in any order, and are sent sorted.
    MakeGroup(&'a [u8]),
    /// 32: all made groups are to be removed.
    RemoveGroups,
    /// 40: a block of a curve.
    ReadBlock {
        /// The curve.
        curve: CurveNumber,
        /// The number of the block, from 0.
        block: usize,
    },
    /// 41: new bytes for a block of a curve.
    WriteBlock {
        /// The curve.
        curve: CurveNumber,
        /// The number of the block, from 0.
        block: usize,
        /// Its new bytes, 1 to the block size.
        bytes: &'a [u8],
    },
    /// 42: a curve's sum is to be worked out anew.
    RenewSum(CurveNumber),
    /// 50: a function is to be run on this input.
    RunFunction(FunctionNumber, &'a [u8]),
}

/// A request as the archive takes it. What a request has no use for is 0 or empty.
pub(super) struct Numbers<'a> {
    pub(super) code: u8,
    pub(super) operation: u8,
    pub(super) number: usize,
    pub(super) other: usize,
    pub(super) block: usize,
    pub(super) bytes: &'a [u8],
}

impl<'a> Request<'a> {
    /// 01's code of this request.
    pub const fn code(&self) -> u8 {
        match self {
            Request::Version => 0x00,
            Request::ListVariables => 0x02,
            Request::ListGroups => 0x04,
            Request::ShowGroup(_) => 0x06,
            Request::ListCurves => 0x08,
            Request::ReadSum(_) => 0x0A,
            Request::ListFunctions => 0x0C,
            Request::ReadVariable(_) => 0x10,
            Request::ReadGroup(_) => 0x12,
            Request::WriteVariable(..) => 0x20,
            Request::WriteGroup(..) => 0x22,
            Request::MaskVariable(..) => 0x24,
            Request::MaskGroup(..) => 0x26,
            Request::WriteRead { .. } => 0x28,
            Request::MakeGroup(_) => 0x30,
            Request::RemoveGroups => 0x32,
            Request::ReadBlock { .. } => 0x40,
            Request::WriteBlock { .. } => 0x41,
            Request::RenewSum(_) => 0x42,
            Request::RunFunction(..) => 0x50,
        }
    }

    pub(super) fn numbers(&self) -> Numbers<'a> {
        let named = |number, bytes| Numbers {
            code: self.code(),
            operation: 0,
            number,
            other: 0,
            block: 0,
            bytes,
        };
        let none: &[u8] = &[];
        match *self {
            Request::Version
            | Request::ListVariables
            | Request::ListGroups
            | Request::ListCurves
            | Request::ListFunctions
            | Request::RemoveGroups => named(0, none),
            Request::ReadVariable(variable) => named(variable.0, none),
            Request::ShowGroup(group) | Request::ReadGroup(group) => named(group.0, none),
            Request::ReadSum(curve) | Request::RenewSum(curve) => named(curve.0, none),
            Request::WriteVariable(variable, bytes) => named(variable.0, bytes),
            Request::WriteGroup(group, bytes) => named(group.0, bytes),
            Request::MaskVariable(VariableNumber(number), operation, bytes)
            | Request::MaskGroup(GroupNumber(number), operation, bytes) => Numbers {
                operation: operation.code(),
                ..named(number, bytes)
            },
            Request::WriteRead {
                written,
                read,
                bytes,
            } => Numbers {
                other: read.0,
                ..named(written.0, bytes)
            },
            Request::MakeGroup(variables) => named(0, variables),
            Request::ReadBlock { curve, block } => Numbers {
                block,
                ..named(curve.0, none)
            },
            Request::WriteBlock {
                curve,
                block,
                bytes,
            } => Numbers {
                block,
                ..named(curve.0, bytes)
            },
            Request::RunFunction(function, input) => named(function.0, input),
        }
    }
}
