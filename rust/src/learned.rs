//! What is learned of a node.
use crate::{Curve, Function};

/// A node's table, as a gateway has learned it from the node's lists: its variables' sizes and types, its made groups, curves and functions.
///
/// [`Learned::new`] knows nothing yet. The fields take any number; where the table counts, one that breaks 01's limits is refused.
#[repr(C)]
#[derive(Clone, Copy, Debug, PartialEq, Eq)]
pub struct Learned {
    /// How many variables: 1 to 64.
    pub variables: u64,
    /// The writable variables, bit n for variable n. Bits past the last variable count for nothing.
    pub writable: u64,
    /// How many made groups: 0 to 5.
    pub groups: u64,
    /// How many curves: 0 to 8.
    pub curves: u64,
    /// How many functions: 0 to 16.
    pub functions: u64,
    /// The made groups: group 3 + g is `sets[g]`, with bit n for variable n.
    pub sets: [u64; 5],
    /// The curves' records.
    pub shapes: [Curve; 8],
    /// The variables' sizes in bytes.
    pub sizes: [u8; 64],
    /// The functions' records.
    pub calls: [Function; 16],
}

impl Learned {
    /// Nothing is known yet.
    pub const fn new() -> Learned {
        Learned {
            variables: 0,
            writable: 0,
            groups: 0,
            curves: 0,
            functions: 0,
            sets: [0; 5],
            shapes: [Curve::read_only(0, 0); 8],
            sizes: [0; 64],
            calls: [Function {
                input: 0,
                output: 0,
            }; 16],
        }
    }
}

impl Default for Learned {
    fn default() -> Learned {
        Learned::new()
    }
}
