//! The node: packets, function results, board stores and fresh boards.
#![forbid(unsafe_code)]

use super::board::{Address, Board, Groups, Table};
use super::codes::*;
use super::message::{Answer, Node};
use super::reply::{sum, Reply};

const PACKET_LEAST: usize = 2;
const PACKET_MOST: usize = 4104;
const REPLY_BUFFER_LEAST: usize = 4104;
const MULTICAST_FIRST: u8 = 248;

/// What a call ends in: a reply of n bytes, silence, a function to be run, or a local refusal.
/// The input of a function to be run stands in the packet from place 5 on.
#[derive(Clone, Copy, Debug, PartialEq, Eq)]
pub enum Outcome {
    Reply(usize),
    Silent,
    Run {
        function: usize,
        input: usize,
        due: bool,
    },
    Refused(u8),
}

/// How a function ran; a failure carries the error byte of reply 53.
#[derive(Clone, Copy, Debug, PartialEq, Eq)]
pub enum Ran {
    Well,
    Failed(u8),
}

/// Carries out one packet; refusals 1 to 6.
#[allow(clippy::too_many_arguments)]
#[inline(never)] // so that tools/packet-speed can count what it costs
pub fn packet(
    table: &Table,
    groups: &mut Groups,
    address: Address,
    busy: u64,
    values: &mut [u8],
    blocks: &mut [u8],
    lengths: &mut [u16],
    sums: &mut [u8],
    request: &[u8],
    reply: &mut [u8],
) -> Outcome {
    let board = match Board::usable(table, groups, values, blocks, lengths, sums) {
        Some(board) => board,
        None => return Outcome::Refused(BOARD_UNUSABLE),
    };
    let due = match answer_due(address, reply.len(), request) {
        Ok(due) => due,
        Err(refusal) => return Outcome::Refused(refusal),
    };
    let mut node = Node {
        board: &board,
        groups,
        busy,
        values,
        blocks,
        lengths,
        sums,
    };
    match node.carry_out(&request[1..request.len() - 1]) {
        Ok(Answer::Run { function, input }) => Outcome::Run {
            function,
            input,
            due,
        },
        _ if !due => Outcome::Silent,
        Ok(answer) => Outcome::Reply(node.write_answer(answer, reply)),
        Err(error) => Outcome::Reply(Reply::whole(reply, error, &[])),
    }
}

/// Answers with a function's result, if an answer was due; refusals 1, 3, 7, 8.
#[allow(clippy::too_many_arguments)]
pub fn function_result(
    table: &Table,
    groups: &Groups,
    values: &[u8],
    blocks: &[u8],
    lengths: &[u16],
    sums: &[u8],
    function: usize,
    due: bool,
    ran: Ran,
    output: &[u8],
    reply: &mut [u8],
) -> Outcome {
    let board = match Board::usable(table, groups, values, blocks, lengths, sums) {
        Some(board) => board,
        None => return Outcome::Refused(BOARD_UNUSABLE),
    };
    if reply.len() < REPLY_BUFFER_LEAST {
        return Outcome::Refused(REPLY_BUFFER_SHORT);
    }
    let declared = match board.functions().nth(function) {
        Some((_, output)) => usize::from(output),
        None => return Outcome::Refused(NO_SUCH_FUNCTION),
    };
    if ran == Ran::Well && output.len() != declared {
        return Outcome::Refused(OUTPUT_LENGTH);
    }
    if !due {
        return Outcome::Silent;
    }
    Outcome::Reply(match ran {
        Ran::Well => Reply::whole(reply, FUNCTION_OUTPUT, output),
        Ran::Failed(error) => Reply::whole(reply, FUNCTION_ERROR, &[error]),
    })
}

/// Stores a new value into any variable; refusals 1, 9, 10.
#[allow(clippy::too_many_arguments)]
pub fn board_store(
    table: &Table,
    groups: &Groups,
    values: &mut [u8],
    blocks: &[u8],
    lengths: &[u16],
    sums: &[u8],
    variable: usize,
    bytes: &[u8],
) -> Result<(), u8> {
    let board =
        Board::usable(table, groups, values, blocks, lengths, sums).ok_or(BOARD_UNUSABLE)?;
    if variable >= board.layout.variables.len() {
        return Err(NO_SUCH_VARIABLE);
    }
    let set = 1 << variable;
    if bytes.len() != board.layout.length(set) {
        return Err(WRONG_BYTE_COUNT);
    }
    for piece in board.layout.pieces(set) {
        values[piece].copy_from_slice(bytes);
    }
    Ok(())
}

/// Makes every block full and works out every curve's sum, as a fresh board does; refusal 1.
pub fn fresh_board(
    table: &Table,
    groups: &Groups,
    values: &[u8],
    blocks: &[u8],
    lengths: &mut [u16],
    sums: &mut [u8],
) -> Result<(), u8> {
    let board =
        Board::to_be_filled(table, groups, values, blocks, lengths, sums).ok_or(BOARD_UNUSABLE)?;
    for curve in board.curves() {
        curve.fill(lengths);
        curve.renew_sum(blocks, lengths, sums);
    }
    Ok(())
}

/// Whether the packet is to be answered; refusals 2 to 6.
fn answer_due(address: Address, reply_length: usize, request: &[u8]) -> Result<bool, u8> {
    if !(1..=31).contains(&address.own) || address.multicast & 1 == 0 {
        return Err(BAD_ADDRESS);
    }
    if reply_length < REPLY_BUFFER_LEAST {
        return Err(REPLY_BUFFER_SHORT);
    }
    if !(PACKET_LEAST..=PACKET_MOST).contains(&request.len()) {
        return Err(PACKET_LENGTH);
    }
    if sum(request) != 0 {
        return Err(CHECKSUM);
    }
    let destination = request[0];
    if destination == address.own {
        return Ok(true);
    }
    if destination >= MULTICAST_FIRST && (address.multicast >> (255 - destination)) & 1 == 1 {
        return Ok(false);
    }
    Err(NOT_FOR_THIS_BOARD)
}
