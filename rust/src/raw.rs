//! The archive's exported functions as they are: a slice is a pointer and then the number of its elements.
//!
//! Duties that the safe functions of this crate keep, and that nothing checks here: every pointer is valid for its
//! length (it may be null only where the length is 0), and what is lent to be written overlaps nothing else that is lent.
use crate::{Groups, Learned, Variable, SUM_SIZE};
use std::mem::{align_of, size_of};

/// How a call ends, in numbers. What a kind has no use for is 0.
#[repr(C)]
#[derive(Clone, Copy, Debug, PartialEq, Eq)]
pub struct Told {
    /// One of the four below.
    pub kind: u8,
    /// 01's number of a local refusal.
    pub refusal: u8,
    /// Whether the function to be run is due an answer.
    pub due: bool,
    /// The number of the function to be run.
    pub function: usize,
    /// The place in the packet where that function's input starts.
    pub input: usize,
    /// How many bytes the reply has, or the input.
    pub length: usize,
}

impl Told {
    /// A reply.
    pub const REPLY: u8 = 0;
    /// Silence.
    pub const SILENCE: u8 = 1;
    /// A function to be run.
    pub const RUN: u8 = 2;
    /// A local refusal.
    pub const REFUSED: u8 = 3;
}

/// What bytes read as, signed.
#[repr(C)]
#[derive(Clone, Copy, Debug, PartialEq, Eq)]
pub struct ToldSigned {
    /// 0, or 01's number of the refusal.
    pub refusal: u64,
    /// The number, or 0 if refused.
    pub number: i64,
}

/// What bytes read as, unsigned.
#[repr(C)]
#[derive(Clone, Copy, Debug, PartialEq, Eq)]
pub struct ToldUnsigned {
    /// 0, or 01's number of the refusal.
    pub refusal: u64,
    /// The number, or 0 if refused.
    pub number: u64,
}

/// A sum.
#[repr(C)]
#[derive(Clone, Copy, Debug, PartialEq, Eq)]
pub struct ToldSum {
    /// Its bytes, in the order in which RFC 1321 prints a digest.
    pub bytes: [u8; SUM_SIZE],
}

/// How writing a request ended.
#[repr(C)]
#[derive(Clone, Copy, Debug, PartialEq, Eq)]
pub struct ToldAsked {
    /// 0, or the number of the refusal.
    pub refusal: u8,
    /// How many bytes the request has, or 0 if refused.
    pub length: usize,
}

/// What a reply says, in numbers. What a kind has no use for is 0.
#[repr(C)]
#[derive(Clone, Copy, Debug, PartialEq, Eq)]
pub struct ToldHeard {
    /// One of the fourteen below.
    pub kind: u8,
    /// The number of a local refusal.
    pub refusal: u8,
    /// The code of an error, E1 to E8, or a function's error byte.
    pub error: u8,
    /// The place in the reply from which what was heard stands.
    pub place: usize,
    /// How many bytes of it, or records of a list.
    pub length: usize,
}

impl ToldHeard {
    /// A local refusal.
    pub const REFUSED: u8 = 0;
    /// An error, E1 to E8.
    pub const ERROR: u8 = 1;
    /// E0: it is done.
    pub const DONE: u8 = 2;
    /// The version.
    pub const VERSION: u8 = 3;
    /// The variables, 03.
    pub const VARIABLES: u8 = 4;
    /// The groups, 05.
    pub const GROUPS: u8 = 5;
    /// The members of a group, 07.
    pub const MEMBERS: u8 = 6;
    /// The curves, 09.
    pub const CURVES: u8 = 7;
    /// The functions, 0D.
    pub const FUNCTIONS: u8 = 8;
    /// Values, 11 or 13.
    pub const VALUES: u8 = 9;
    /// A block, 41.
    pub const BLOCK: u8 = 10;
    /// A sum, 0B.
    pub const SUM: u8 = 11;
    /// A function's output, 51.
    pub const OUTPUT: u8 = 12;
    /// A function's error byte, 53.
    pub const FAILED: u8 = 13;
}

/// Where a variable's bytes stand in a reply.
#[repr(C)]
#[derive(Clone, Copy, Debug, PartialEq, Eq)]
pub struct ToldPlace {
    /// 0, or the number of the refusal.
    pub refusal: u8,
    /// The place of its first byte, or 0 if refused.
    pub place: usize,
    /// How many bytes it has, or 0 if refused.
    pub length: usize,
}

// The archive's layouts; a build in which they differ must not exist.
const _: () = {
    assert!(size_of::<usize>() == 4 || size_of::<usize>() == 8);
    assert!(size_of::<Variable>() == 3 && align_of::<Variable>() == 1);
    assert!(size_of::<Groups>() == 48 && align_of::<Groups>() == 8);
    assert!(
        size_of::<Told>() == 4 * size_of::<usize>() && align_of::<Told>() == size_of::<usize>()
    );
    assert!(size_of::<ToldSigned>() == 16 && align_of::<ToldSigned>() == 8);
    assert!(size_of::<ToldUnsigned>() == 16 && align_of::<ToldUnsigned>() == 8);
    assert!(size_of::<ToldSum>() == 16 && align_of::<ToldSum>() == 1);
    assert!(size_of::<Learned>() == 272 && align_of::<Learned>() == 8);
    assert!(size_of::<ToldAsked>() == 2 * size_of::<usize>());
    assert!(size_of::<ToldHeard>() == 3 * size_of::<usize>());
    assert!(size_of::<ToldPlace>() == 3 * size_of::<usize>());
};

extern "C" {
    /// [`crate::packet`] in numbers.
    pub fn bsmp_packet(
        variables: *const Variable,
        variable_count: usize,
        curves: *const u32,
        curve_numbers: usize,
        functions: *const u8,
        function_numbers: usize,
        groups: *mut Groups,
        own: u8,
        multicast: u8,
        busy: u64,
        values: *mut u8,
        values_length: usize,
        blocks: *mut u8,
        blocks_length: usize,
        lengths: *mut u16,
        length_count: usize,
        sums: *mut u8,
        sums_length: usize,
        packet: *const u8,
        packet_length: usize,
        reply: *mut u8,
        reply_room: usize,
    ) -> Told;

    /// [`crate::function_result`] in numbers; `output` counts only if not `failed`, `error` only if `failed`.
    pub fn bsmp_function_result(
        variables: *const Variable,
        variable_count: usize,
        curves: *const u32,
        curve_numbers: usize,
        functions: *const u8,
        function_numbers: usize,
        groups: *const Groups,
        values: *const u8,
        values_length: usize,
        blocks: *const u8,
        blocks_length: usize,
        lengths: *const u16,
        length_count: usize,
        sums: *const u8,
        sums_length: usize,
        function: usize,
        due: bool,
        failed: bool,
        error: u8,
        output: *const u8,
        output_length: usize,
        reply: *mut u8,
        reply_room: usize,
    ) -> Told;

    /// [`crate::board_store`] in numbers: 0, or the refusal's.
    pub fn bsmp_board_store(
        variables: *const Variable,
        variable_count: usize,
        curves: *const u32,
        curve_numbers: usize,
        functions: *const u8,
        function_numbers: usize,
        groups: *const Groups,
        values: *mut u8,
        values_length: usize,
        blocks: *const u8,
        blocks_length: usize,
        lengths: *const u16,
        length_count: usize,
        sums: *const u8,
        sums_length: usize,
        variable: usize,
        bytes: *const u8,
        bytes_length: usize,
    ) -> u8;

    /// [`crate::fresh_board`] in numbers: 0, or the refusal's.
    pub fn bsmp_fresh_board(
        variables: *const Variable,
        variable_count: usize,
        curves: *const u32,
        curve_numbers: usize,
        functions: *const u8,
        function_numbers: usize,
        groups: *const Groups,
        values: *const u8,
        values_length: usize,
        blocks: *const u8,
        blocks_length: usize,
        lengths: *mut u16,
        length_count: usize,
        sums: *mut u8,
        sums_length: usize,
    ) -> u8;

    /// [`crate::read_signed`] in numbers.
    pub fn bsmp_read_signed(
        variables: *const Variable,
        variable_count: usize,
        variable: usize,
        bytes: *const u8,
        bytes_length: usize,
    ) -> ToldSigned;

    /// [`crate::read_unsigned`] in numbers.
    pub fn bsmp_read_unsigned(
        variables: *const Variable,
        variable_count: usize,
        variable: usize,
        bytes: *const u8,
        bytes_length: usize,
    ) -> ToldUnsigned;

    /// [`crate::write_signed`] in numbers: 0, or the refusal's.
    pub fn bsmp_write_signed(
        variables: *const Variable,
        variable_count: usize,
        variable: usize,
        number: i64,
        buffer: *mut u8,
        buffer_length: usize,
    ) -> u8;

    /// [`crate::write_unsigned`] in numbers: 0, or the refusal's.
    pub fn bsmp_write_unsigned(
        variables: *const Variable,
        variable_count: usize,
        variable: usize,
        number: u64,
        buffer: *mut u8,
        buffer_length: usize,
    ) -> u8;

    /// [`crate::md5`] in numbers.
    pub fn bsmp_md5(message: *const u8, message_length: usize) -> ToldSum;
}

// The asking side: the archive libbsmp_ask.a.
extern "C" {
    /// [`crate::Gateway::ask`] in numbers. `code` is 01's of the request; `number` the variable, group, curve or function that it names; `other` the
    /// variable that 28 reads; `block` that of 40 and 41; `operation` that of 24 and 26. What a request has no use for counts for nothing.
    pub fn bsmp_ask_packet(
        destination: u8,
        code: u8,
        operation: u8,
        number: usize,
        other: usize,
        block: usize,
        bytes: *const u8,
        bytes_length: usize,
        packet: *mut u8,
        room: usize,
    ) -> ToldAsked;

    /// [`crate::Gateway::hear`] in numbers: a reply to such a request, heard and learned from.
    pub fn bsmp_hear_reply(
        learned: *mut Learned,
        destination: u8,
        code: u8,
        operation: u8,
        number: usize,
        other: usize,
        block: usize,
        bytes: *const u8,
        bytes_length: usize,
        reply: *const u8,
        reply_length: usize,
    ) -> ToldHeard;

    /// [`crate::Gateway::place`] in numbers.
    pub fn bsmp_hear_place(learned: *const Learned, group: usize, variable: usize) -> ToldPlace;

    /// A value's bytes as a number, by the kinds that the gateway supplies, one for each variable.
    pub fn bsmp_hear_signed(
        learned: *const Learned,
        kinds: *const u8,
        kind_count: usize,
        variable: usize,
        bytes: *const u8,
        bytes_length: usize,
    ) -> ToldSigned;

    /// The same for an unsigned one.
    pub fn bsmp_hear_unsigned(
        learned: *const Learned,
        kinds: *const u8,
        kind_count: usize,
        variable: usize,
        bytes: *const u8,
        bytes_length: usize,
    ) -> ToldUnsigned;

    /// A number as a variable's bytes: 0, or the number of the refusal.
    pub fn bsmp_ask_signed(
        learned: *const Learned,
        kinds: *const u8,
        kind_count: usize,
        variable: usize,
        number: i64,
        buffer: *mut u8,
        room: usize,
    ) -> u8;

    /// The same for an unsigned one.
    pub fn bsmp_ask_unsigned(
        learned: *const Learned,
        kinds: *const u8,
        kind_count: usize,
        variable: usize,
        number: u64,
        buffer: *mut u8,
        room: usize,
    ) -> u8;
}

#[cfg(test)]
mod tests {
    use super::*;

    // Offsets within a struct, which rustc 1.63 can't tell at compile time.
    #[test]
    fn fields_stand_where_the_archive_puts_them() {
        let told = Told {
            kind: 0,
            refusal: 0,
            due: false,
            function: 0,
            input: 0,
            length: 0,
        };
        let start = &told as *const Told as usize;
        let places = [
            &told.kind as *const u8 as usize,
            &told.refusal as *const u8 as usize,
            &told.due as *const bool as usize,
            &told.function as *const usize as usize,
            &told.input as *const usize as usize,
            &told.length as *const usize as usize,
        ];
        let word = size_of::<usize>();
        let right = [0, 1, 2, word, 2 * word, 3 * word];
        assert_eq!(places.map(|place| place - start), right);
    }

    #[test]
    fn fields_of_the_asking_side_stand_where_the_archive_puts_them() {
        let word = size_of::<usize>();
        let asked = ToldAsked {
            refusal: 0,
            length: 0,
        };
        let start = &asked as *const ToldAsked as usize;
        let places = [
            &asked.refusal as *const u8 as usize,
            &asked.length as *const usize as usize,
        ];
        assert_eq!(places.map(|place| place - start), [0, word]);
        let heard = ToldHeard {
            kind: 0,
            refusal: 0,
            error: 0,
            place: 0,
            length: 0,
        };
        let start = &heard as *const ToldHeard as usize;
        let places = [
            &heard.kind as *const u8 as usize,
            &heard.refusal as *const u8 as usize,
            &heard.error as *const u8 as usize,
            &heard.place as *const usize as usize,
            &heard.length as *const usize as usize,
        ];
        assert_eq!(places.map(|place| place - start), [0, 1, 2, word, 2 * word]);
        let learned = Learned::new();
        let start = &learned as *const Learned as usize;
        let places = [
            &learned.variables as *const u64 as usize,
            &learned.writable as *const u64 as usize,
            &learned.groups as *const u64 as usize,
            &learned.curves as *const u64 as usize,
            &learned.functions as *const u64 as usize,
            learned.sets.as_ptr() as usize,
            learned.shapes.as_ptr() as usize,
            learned.sizes.as_ptr() as usize,
            learned.calls.as_ptr() as usize,
        ];
        assert_eq!(
            places.map(|place| place - start),
            [0, 8, 16, 24, 32, 40, 80, 176, 240]
        );
    }
}
