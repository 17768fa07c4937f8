//! What a board lends: its records, its group table, its address.
use std::ops::Range;

/// The most variables that a board may have.
pub const MOST_VARIABLES: usize = 64;
/// The most bytes that all variables together may have.
pub const MOST_VALUE_BYTES: usize = 4096;
/// The most curves that a board may have.
pub const MOST_CURVES: usize = 8;
/// The most blocks that a curve may have, and so all curves together.
pub const MOST_BLOCKS: usize = 65536;
/// The most bytes that all curves together may have.
pub const MOST_CURVE_BYTES: usize = 65536;
/// How many bytes a curve's sum has.
pub const SUM_SIZE: usize = 16;
/// The longest packet.
pub const MOST_PACKET: usize = 4104;
/// The least length of a reply buffer.
pub const REPLY_ROOM: usize = 4104;
/// The least length of a buffer for requests, on the asking side.
pub const REQUEST_ROOM: usize = 4104;

/// The number of a variable. Variables, groups, curves and functions are each numbered from 0 on their own.
#[derive(Clone, Copy, Debug, PartialEq, Eq, PartialOrd, Ord, Hash)]
pub struct VariableNumber(pub usize);

/// The number of a group.
#[derive(Clone, Copy, Debug, PartialEq, Eq, PartialOrd, Ord, Hash)]
pub struct GroupNumber(pub usize);

/// The number of a curve.
#[derive(Clone, Copy, Debug, PartialEq, Eq, PartialOrd, Ord, Hash)]
pub struct CurveNumber(pub usize);

/// The number of a function.
#[derive(Clone, Copy, Debug, PartialEq, Eq, PartialOrd, Ord, Hash)]
pub struct FunctionNumber(pub usize);

/// A variable's kind: plain bytes, unsigned or signed; big or little endian. A number has size 1, 2, 4 or 8.
#[derive(Clone, Copy, Debug, PartialEq, Eq)]
#[repr(u8)]
pub enum Kind {
    /// Plain bytes.
    Plain = 0,
    /// An unsigned number, big endian.
    UnsignedBig = 1,
    /// An unsigned number, little endian.
    UnsignedLittle = 2,
    /// A signed number, big endian.
    SignedBig = 3,
    /// A signed number, little endian.
    SignedLittle = 4,
}

impl Kind {
    /// All kinds, in the order of their numbers.
    pub const ALL: [Kind; 5] = [
        Kind::Plain,
        Kind::UnsignedBig,
        Kind::UnsignedLittle,
        Kind::SignedBig,
        Kind::SignedLittle,
    ];

    /// The number that stands for this kind in a variable record.
    pub const fn number(self) -> u8 {
        self as u8
    }
}

/// A variable record: type, size, kind.
///
/// The fields take any number; a record that breaks 01's table makes the board unusable.
#[repr(C)]
#[derive(Clone, Copy, Debug, PartialEq, Eq)]
pub struct Variable {
    /// The type: 0 read-only, 1 writable.
    pub writable: u8,
    /// The size: 1 to 127 bytes.
    pub size: u8,
    /// The number of its [`Kind`].
    pub kind: u8,
}

impl Variable {
    /// A read-only variable: messages read it, and only the board stores into it.
    pub const fn read_only(size: u8, kind: Kind) -> Variable {
        Variable {
            writable: 0,
            size,
            kind: kind.number(),
        }
    }

    /// A writable variable.
    pub const fn writable(size: u8, kind: Kind) -> Variable {
        Variable {
            writable: 1,
            size,
            kind: kind.number(),
        }
    }
}

/// A curve record. All curves of a board have at most 65,536 bytes together.
#[repr(C)]
#[derive(Clone, Copy, Debug, PartialEq, Eq)]
pub struct Curve {
    /// The type: 0 read-only, 1 writable.
    pub writable: u32,
    /// The block size: 1 to 4,096 bytes.
    pub block_size: u32,
    /// How many blocks: 1 to 65,536.
    pub blocks: u32,
}

impl Curve {
    /// A read-only curve of `blocks` blocks of `block_size` bytes.
    pub const fn read_only(block_size: u32, blocks: u32) -> Curve {
        Curve {
            writable: 0,
            block_size,
            blocks,
        }
    }

    /// A writable curve of `blocks` blocks of `block_size` bytes.
    pub const fn writable(block_size: u32, blocks: u32) -> Curve {
        Curve {
            writable: 1,
            block_size,
            blocks,
        }
    }

    /// The records as they are lent: three numbers to a curve.
    pub fn numbers(curves: &[Curve]) -> &[u32] {
        // SAFETY: a curve is three u32 in C's layout, so the slice is that many u32, borrowed as long.
        unsafe { std::slice::from_raw_parts(curves.as_ptr().cast(), curves.len() * 3) }
    }
}

/// A function record.
#[repr(C)]
#[derive(Clone, Copy, Debug, PartialEq, Eq)]
pub struct Function {
    /// The input: 0 to 15 bytes.
    pub input: u8,
    /// The output: 0 to 15 bytes.
    pub output: u8,
}

impl Function {
    /// The records as they are lent: two numbers to a function.
    pub fn numbers(functions: &[Function]) -> &[u8] {
        // SAFETY: a function is two u8 in C's layout, so the slice is that many u8, borrowed as long.
        unsafe { std::slice::from_raw_parts(functions.as_ptr().cast(), functions.len() * 2) }
    }
}

/// A board's table as it is lent.
///
/// [`Table::new`] lends whole records. The fields are open, so that any numbers can be handed to the proved code; a
/// record that is cut off makes the board unusable.
#[derive(Clone, Copy, Debug)]
pub struct Table<'a> {
    /// The variable records: 1 to 64, together at most 4,096 bytes.
    pub variables: &'a [Variable],
    /// Three numbers for each curve: type, block size, blocks. 0 to 8 curves.
    pub curves: &'a [u32],
    /// Two numbers for each function: input, output. 0 to 16 functions.
    pub functions: &'a [u8],
}

impl<'a> Table<'a> {
    /// The table of whole records.
    pub fn new(
        variables: &'a [Variable],
        curves: &'a [Curve],
        functions: &'a [Function],
    ) -> Table<'a> {
        Table {
            variables,
            curves: Curve::numbers(curves),
            functions: Function::numbers(functions),
        }
    }
}

/// The group table: the groups made by message, 0 to 5, each a non-empty set of declared variables.
///
/// 30 writes `sets[count]` and `count`, 32 sets `count` to 0, and other places stay.
#[repr(C)]
#[derive(Clone, Copy, Debug, PartialEq, Eq, Default)]
pub struct Groups {
    /// How many groups are made: 0 to 5.
    pub count: u64,
    /// `sets[i]` is the set of group 3 + i: bit n stands for variable n. Places from `count` on count for nothing.
    pub sets: [u64; 5],
}

impl Groups {
    /// No made groups.
    pub const NONE: Groups = Groups {
        count: 0,
        sets: [0; 5],
    };
}

/// Where a board listens.
#[derive(Clone, Copy, Debug, PartialEq, Eq)]
pub struct Address {
    /// The own address: 1 to 31.
    pub own: u8,
    /// The multicast byte: the most significant bit is address 248, the least is 255; the least is always set.
    pub multicast: u8,
}

/// A board with records of its own.
#[derive(Clone, Debug, PartialEq, Eq)]
pub struct Board {
    /// The variable records, in order of number.
    pub variables: Vec<Variable>,
    /// The curve records, in order of number.
    pub curves: Vec<Curve>,
    /// The function records, in order of number.
    pub functions: Vec<Function>,
    /// Where the board listens.
    pub address: Address,
}

impl Board {
    /// The records, to be lent.
    pub fn table(&self) -> Table<'_> {
        Table::new(&self.variables, &self.curves, &self.functions)
    }

    /// Where a variable's bytes stand in the store: they start where those before it end.
    pub fn place(&self, variable: VariableNumber) -> Option<Range<usize>> {
        let size = usize::from(self.variables.get(variable.0)?.size);
        let start = sizes(&self.variables[..variable.0]);
        Some(start..start + size)
    }

    /// The length of the variables' store. Past the most that 01 allows no length is right, and the most is given.
    pub fn values_length(&self) -> usize {
        sizes(&self.variables).min(MOST_VALUE_BYTES)
    }

    /// The length of the curves' store. Past the most that 01 allows no length is right, and the most is given.
    pub fn blocks_length(&self) -> usize {
        let bytes = self.curves.iter().fold(0u64, |sum, curve| {
            sum.saturating_add(u64::from(curve.block_size) * u64::from(curve.blocks))
        });
        bytes.min(MOST_CURVE_BYTES as u64) as usize
    }

    /// How many blocks the curves have together, and so how many lengths there are. Past the most that 01 allows no count is
    /// right, and the most is given.
    pub fn length_count(&self) -> usize {
        let blocks = self.curves.iter().map(|curve| u64::from(curve.blocks));
        let count = blocks.fold(0, u64::saturating_add);
        count.min(MOST_BLOCKS as u64) as usize
    }

    /// The length of the curves' sums, 16 bytes each. Past the most that 01 allows no length is right, and the most is given.
    pub fn sums_length(&self) -> usize {
        self.curves.len().min(MOST_CURVES) * SUM_SIZE
    }
}

fn sizes(variables: &[Variable]) -> usize {
    variables.iter().map(|v| usize::from(v.size)).sum()
}
