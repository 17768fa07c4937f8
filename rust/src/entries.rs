//! The nine entries over what a board lends. Nothing is allocated. Each takes anything, and refuses by number.
use crate::outcome::done;
use crate::raw;
use crate::{
    Address, FunctionNumber, Groups, Outcome, Ran, Refusal, Table, Variable, VariableNumber,
    SUM_SIZE,
};

// Calls an exported function that takes the table first, each list of its records with its length.
macro_rules! with_table {
    ($function:path, $table:expr, $($rest:expr),* $(,)?) => {
        $function(
            $table.variables.as_ptr(),
            $table.variables.len(),
            $table.curves.as_ptr(),
            $table.curves.len(),
            $table.functions.as_ptr(),
            $table.functions.len(),
            $($rest),*
        )
    };
}

/// Carries out one packet and writes the reply, if one is due.
///
/// `values` is the variables' store and `blocks` the curves' store, each of exactly the length that the records add up
/// to. `lengths` has one number for each block, curve after curve: how many bytes the block has, 1 to its curve's block
/// size. A block write sets it, and a block read returns that many. `sums` has 16 bytes for each curve, its sum: 0A reads
/// it, 42 renews it, and a block write leaves it stale. Bit n of `busy` marks variable n as busy, so that it is neither
/// read nor written. Refusals 1 to 6.
#[allow(clippy::too_many_arguments)]
pub fn packet<'packet, 'reply>(
    table: &Table,
    groups: &mut Groups,
    address: Address,
    busy: u64,
    values: &mut [u8],
    blocks: &mut [u8],
    lengths: &mut [u16],
    sums: &mut [u8],
    packet: &'packet [u8],
    reply: &'reply mut [u8],
) -> Outcome<'packet, 'reply> {
    // SAFETY: each pointer is a slice's or a reference's, with its length; Rust's borrows keep what is written apart.
    let told = unsafe {
        with_table!(
            raw::bsmp_packet,
            table,
            groups,
            address.own,
            address.multicast,
            busy,
            values.as_mut_ptr(),
            values.len(),
            blocks.as_mut_ptr(),
            blocks.len(),
            lengths.as_mut_ptr(),
            lengths.len(),
            sums.as_mut_ptr(),
            sums.len(),
            packet.as_ptr(),
            packet.len(),
            reply.as_mut_ptr(),
            reply.len(),
        )
    };
    Outcome::told(told, packet, reply)
}

/// Hands in a function's result and whether an answer was due; writes reply 51 or 53, or stays silent if none was due.
///
/// Refusals 1, 3, 7 and 8; 8 only for a successful result.
#[allow(clippy::too_many_arguments)]
pub fn function_result<'reply>(
    table: &Table,
    groups: &Groups,
    values: &[u8],
    blocks: &[u8],
    lengths: &[u16],
    sums: &[u8],
    function: FunctionNumber,
    due: bool,
    ran: Ran,
    reply: &'reply mut [u8],
) -> Outcome<'static, 'reply> {
    let (failed, error, output) = ran.numbers();
    // SAFETY: as for `packet`.
    let told = unsafe {
        with_table!(
            raw::bsmp_function_result,
            table,
            groups,
            values.as_ptr(),
            values.len(),
            blocks.as_ptr(),
            blocks.len(),
            lengths.as_ptr(),
            lengths.len(),
            sums.as_ptr(),
            sums.len(),
            function.0,
            due,
            failed,
            error,
            output.as_ptr(),
            output.len(),
            reply.as_mut_ptr(),
            reply.len(),
        )
    };
    Outcome::told(told, &[], reply)
}

/// Stores a new value into any variable, read-only or busy too; only those bytes change. Refusals 1, 9 and 10.
#[allow(clippy::too_many_arguments)]
pub fn board_store(
    table: &Table,
    groups: &Groups,
    values: &mut [u8],
    blocks: &[u8],
    lengths: &[u16],
    sums: &[u8],
    variable: VariableNumber,
    bytes: &[u8],
) -> Result<(), Refusal> {
    // SAFETY: as for `packet`.
    let refusal = unsafe {
        with_table!(
            raw::bsmp_board_store,
            table,
            groups,
            values.as_mut_ptr(),
            values.len(),
            blocks.as_ptr(),
            blocks.len(),
            lengths.as_ptr(),
            lengths.len(),
            sums.as_ptr(),
            sums.len(),
            variable.0,
            bytes.as_ptr(),
            bytes.len(),
        )
    };
    done(refusal.into(), ())
}

/// Makes all blocks full, works out the sums of all curves from them, and writes nothing else. Refusal 1.
///
/// For a board that is switched on, before its first packet. There is to be one length for each block; what it is doesn't
/// matter.
///
/// ```
/// use cruachvel::{fresh_board, md5, Curve, Groups, Kind, Table, Variable};
///
/// let variables = [Variable::writable(1, Kind::Plain)];
/// let curves = [Curve::read_only(4, 2), Curve::writable(1, 3)];
/// let table = Table::new(&variables, &curves, &[]);
/// let (blocks, mut lengths, mut sums) = (b"heat 40 spi", [0; 2 + 3], [0; 2 * 16]);
/// fresh_board(&table, &Groups::NONE, &[0], blocks, &mut lengths, &mut sums)?;
/// assert_eq!(lengths, [4, 4, 1, 1, 1]);
/// assert_eq!(sums[..], [md5(b"heat 40 "), md5(b"spi")].concat());
/// # Ok::<(), cruachvel::Refusal>(())
/// ```
pub fn fresh_board(
    table: &Table,
    groups: &Groups,
    values: &[u8],
    blocks: &[u8],
    lengths: &mut [u16],
    sums: &mut [u8],
) -> Result<(), Refusal> {
    // SAFETY: as for `packet`.
    let refusal = unsafe {
        with_table!(
            raw::bsmp_fresh_board,
            table,
            groups,
            values.as_ptr(),
            values.len(),
            blocks.as_ptr(),
            blocks.len(),
            lengths.as_mut_ptr(),
            lengths.len(),
            sums.as_mut_ptr(),
            sums.len(),
        )
    };
    done(refusal.into(), ())
}

/// Reads a signed variable's bytes as a number. Refusals 1, 9, 11 and 10, in this order.
///
/// The sign is the top bit of the most significant byte: n bytes with unsigned value u mean u, or u - 2^(8n) if
/// u >= 2^(8n-1).
pub fn read_signed(
    variables: &[Variable],
    variable: VariableNumber,
    bytes: &[u8],
) -> Result<i64, Refusal> {
    let told = read(raw::bsmp_read_signed, variables, variable, bytes);
    done(told.refusal, told.number)
}

/// Reads an unsigned variable's bytes as a number. Refusals 1, 9, 11 and 10, in this order.
pub fn read_unsigned(
    variables: &[Variable],
    variable: VariableNumber,
    bytes: &[u8],
) -> Result<u64, Refusal> {
    let told = read(raw::bsmp_read_unsigned, variables, variable, bytes);
    done(told.refusal, told.number)
}

/// Writes a number as a signed variable's bytes: the only bytes that read as it. Refusals 1, 9, 11, 10 and 12.
pub fn write_signed(
    variables: &[Variable],
    variable: VariableNumber,
    number: i64,
    buffer: &mut [u8],
) -> Result<(), Refusal> {
    write(raw::bsmp_write_signed, variables, variable, number, buffer)
}

/// Writes a number as an unsigned variable's bytes: the only bytes that read as it. Refusals 1, 9, 11, 10 and 12.
pub fn write_unsigned(
    variables: &[Variable],
    variable: VariableNumber,
    number: u64,
    buffer: &mut [u8],
) -> Result<(), Refusal> {
    write(
        raw::bsmp_write_unsigned,
        variables,
        variable,
        number,
        buffer,
    )
}

/// The sum that curves have, of any bytes: MD5 by RFC 1321, in the order in which the RFC prints a digest.
///
/// So a program that sent a curve can tell whether it arrived.
///
/// ```
/// let digest = cruachvel::md5(b"message digest");
/// let printed: String = digest.iter().map(|byte| format!("{:02x}", byte)).collect();
/// assert_eq!(printed, "f96b697d7cb7938d525a2f31aaf161d0"); // as the RFC's own suite has it
/// ```
pub fn md5(message: &[u8]) -> [u8; SUM_SIZE] {
    // SAFETY: as for `packet`.
    unsafe { raw::bsmp_md5(message.as_ptr(), message.len()) }.bytes
}

// One of the two readings.
fn read<T>(
    entry: unsafe extern "C" fn(*const Variable, usize, usize, *const u8, usize) -> T,
    variables: &[Variable],
    variable: VariableNumber,
    bytes: &[u8],
) -> T {
    let (number, count) = (variable.0, variables.len());
    // SAFETY: as for `packet`.
    unsafe {
        entry(
            variables.as_ptr(),
            count,
            number,
            bytes.as_ptr(),
            bytes.len(),
        )
    }
}

// One of the two ways back.
fn write<N>(
    entry: unsafe extern "C" fn(*const Variable, usize, usize, N, *mut u8, usize) -> u8,
    variables: &[Variable],
    variable: VariableNumber,
    number: N,
    buffer: &mut [u8],
) -> Result<(), Refusal> {
    // SAFETY: as for `packet`.
    let refusal = unsafe {
        entry(
            variables.as_ptr(),
            variables.len(),
            variable.0,
            number,
            buffer.as_mut_ptr(),
            buffer.len(),
        )
    };
    done(refusal.into(), ())
}
