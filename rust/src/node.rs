//! A node that owns its board and its state.
use crate::{
    entries, Board, FunctionNumber, Groups, Outcome, Ran, Refusal, Variable, VariableNumber,
};
use std::ops::Range;

/// A board's state, which one call leaves to the next.
#[derive(Clone, Debug, PartialEq, Eq)]
pub struct State {
    /// The variables' store: the bytes of one variable start where those before it end.
    pub values: Vec<u8>,
    /// The curves' store, block after block, each in the room of a full one. Bytes past a block's length are stale.
    pub blocks: Vec<u8>,
    /// How many bytes each block has, curve after curve, block after block: 1 to its curve's block size.
    pub lengths: Vec<u16>,
    /// The curves' sums, 16 bytes each. A sum may be stale: it is that of what the curve held when it was worked out last.
    pub sums: Vec<u8>,
    /// The group table.
    pub groups: Groups,
}

impl State {
    /// All bytes 0 and no made groups, with stores of the lengths that the board's records add up to, all blocks full, and
    /// the sums that curves of zeros have. For a board that is refused lengths and sums are 0 too.
    pub fn fresh(board: &Board) -> State {
        let mut state = State {
            values: vec![0; board.values_length()],
            blocks: vec![0; board.blocks_length()],
            lengths: vec![0; board.length_count()],
            sums: vec![0; board.sums_length()],
            groups: Groups::NONE,
        };
        // Refused it changes nothing, and every call on the board will say so.
        let _ = state.freshen(board);
        state
    }

    fn freshen(&mut self, board: &Board) -> Result<(), Refusal> {
        entries::fresh_board(
            &board.table(),
            &self.groups,
            &self.values,
            &self.blocks,
            &mut self.lengths,
            &mut self.sums,
        )
    }
}

/// A BSMP node: one packet and a board's state give one outcome and the next state.
///
/// Board, state and busy marks are open to the board's own program. Whatever it puts there is taken; a board that
/// breaks 01's table is refused by each call.
///
/// The reply buffer is the caller's, so that a reply can be held while the node is used:
///
/// ```
/// use cruachvel::{Address, Board, Kind, Node, Outcome, Variable, VariableNumber, REPLY_ROOM};
///
/// let probe = VariableNumber(0);
/// let mut node = Node::new(Board {
///     variables: vec![Variable::read_only(2, Kind::SignedBig)],
///     curves: vec![],
///     functions: vec![],
///     address: Address { own: 5, multicast: 0x01 },
/// });
/// let mut reply = [0; REPLY_ROOM];
///
/// node.store_signed(probe, -3)?;
/// let outcome = node.packet(&[0x05, 0x10, 0x00, 0x01, 0x00, 0xEA], &mut reply);
/// node.store_signed(probe, 4)?;
/// assert_eq!(node.value_signed(probe), Ok(4));
/// assert_eq!(outcome, Outcome::Reply(&[0x00, 0x11, 0x00, 0x02, 0xFF, 0xFD, 0xF1]));
/// # Ok::<(), cruachvel::Refusal>(())
/// ```
///
/// A function's input is held likewise, and stands in the packet:
///
/// ```
/// # use cruachvel::{Address, Board, Function, Kind, Node, Outcome, Ran, Variable, REPLY_ROOM};
/// # let mut node = Node::new(Board {
/// #     variables: vec![Variable::read_only(2, Kind::SignedBig)],
/// #     curves: vec![],
/// #     functions: vec![Function { input: 1, output: 1 }],
/// #     address: Address { own: 5, multicast: 0x01 },
/// # });
/// # let mut reply = [0; REPLY_ROOM];
/// let packet = [0x05, 0x50, 0x00, 0x02, 0x00, 0x06, 0xA3];
/// let mut outcome = node.packet(&packet, &mut reply);
/// if let Outcome::Run { function, input, due } = outcome {
///     outcome = node.function_result(function, due, Ran::Gave(&[input[0] + 1]), &mut reply);
/// }
/// assert_eq!(outcome, Outcome::Reply(&[0x00, 0x51, 0x00, 0x01, 0x07, 0xA7]));
/// ```
///
/// Each curve has a sum, by which the line sees whether a download arrived. 0A reads it; a block write leaves it stale, and
/// 42 renews it. A block is as long as the last write made it, and the sum is of that many bytes:
///
/// ```
/// # use cruachvel::{md5, Address, Board, Curve, Kind, Node, Outcome, Variable, REPLY_ROOM};
/// let mut node = Node::new(Board {
///     variables: vec![Variable::read_only(2, Kind::SignedBig)],
///     curves: vec![Curve::writable(4, 1)],
///     functions: vec![],
///     address: Address { own: 5, multicast: 0x01 },
/// });
/// let mut reply = [0; REPLY_ROOM];
/// let block = [0x05, 0x41, 0x00, 0x07, 0x00, 0x00, 0x00, 0x57, 0x41, 0x53, 0x48, 0x80]; // WASH
/// node.packet(&block, &mut reply);
/// assert_eq!(node.state.sums, md5(&[0; 4]));
/// node.packet(&[0x05, 0x42, 0x00, 0x01, 0x00, 0xB8], &mut reply);
/// assert_eq!(node.state.sums, md5(b"WASH"));
/// if let Outcome::Reply(told) = node.packet(&[0x05, 0x0A, 0x00, 0x01, 0x00, 0xF0], &mut reply) {
///     assert_eq!(told[4..20], md5(b"WASH"));
/// }
///
/// let block = [0x05, 0x41, 0x00, 0x06, 0x00, 0x00, 0x00, 0x44, 0x52, 0x59, 0xC5]; // DRY
/// node.packet(&block, &mut reply);
/// assert_eq!(node.state.lengths, [3]);
/// node.packet(&[0x05, 0x42, 0x00, 0x01, 0x00, 0xB8], &mut reply);
/// assert_eq!(node.state.sums, md5(b"DRY"));
/// ```
#[derive(Clone, Debug, PartialEq, Eq)]
pub struct Node {
    /// The board.
    pub board: Board,
    /// Its state.
    pub state: State,
    /// Busy marks, bit n for variable n. As long as one is set, messages neither read nor write that variable, alone or in
    /// a group: they get E8. So a value that the board renews in several goes is never sent in halves. The board's own
    /// calls go by no mark.
    pub busy: u64,
}

// One of the two entries that write a number as a variable's bytes.
type Write<N> = fn(&[Variable], VariableNumber, N, &mut [u8]) -> Result<(), Refusal>;

impl Node {
    /// A node whose stores hold zeros.
    pub fn new(board: Board) -> Node {
        let state = State::fresh(&board);
        Node::with_state(board, state)
    }

    /// A node that starts from a given state, its lengths and sums too: [`Node::fresh`] sets both.
    pub fn with_state(board: Board, state: State) -> Node {
        Node {
            board,
            state,
            busy: 0,
        }
    }

    /// Makes all blocks full and works out all sums: once before the first packet of a node that was given stores. A board
    /// that changes curve bytes itself later sets that block's length too, and has the sum renewed by a packet of its own
    /// (42), since this would fill the other blocks with their stale bytes. Refusal 1.
    pub fn fresh(&mut self) -> Result<(), Refusal> {
        self.state.freshen(&self.board)
    }

    /// Carries out one packet. Refusals 1 to 6.
    pub fn packet<'packet, 'reply>(
        &mut self,
        packet: &'packet [u8],
        reply: &'reply mut [u8],
    ) -> Outcome<'packet, 'reply> {
        entries::packet(
            &self.board.table(),
            &mut self.state.groups,
            self.board.address,
            self.busy,
            &mut self.state.values,
            &mut self.state.blocks,
            &mut self.state.lengths,
            &mut self.state.sums,
            packet,
            reply,
        )
    }

    /// Hands in a function's result and whether an answer was due. Refusals 1, 3, 7 and 8.
    pub fn function_result<'reply>(
        &self,
        function: FunctionNumber,
        due: bool,
        ran: Ran,
        reply: &'reply mut [u8],
    ) -> Outcome<'static, 'reply> {
        entries::function_result(
            &self.board.table(),
            &self.state.groups,
            &self.state.values,
            &self.state.blocks,
            &self.state.lengths,
            &self.state.sums,
            function,
            due,
            ran,
            reply,
        )
    }

    /// Stores a new value into any variable, read-only or busy too. Refusals 1, 9 and 10.
    pub fn store(&mut self, variable: VariableNumber, bytes: &[u8]) -> Result<(), Refusal> {
        entries::board_store(
            &self.board.table(),
            &self.state.groups,
            &mut self.state.values,
            &self.state.blocks,
            &self.state.lengths,
            &self.state.sums,
            variable,
            bytes,
        )
    }

    /// Stores a number into a signed variable. Refusals 1, 9, 11 and 12, in this order.
    pub fn store_signed(&mut self, variable: VariableNumber, number: i64) -> Result<(), Refusal> {
        self.store_number(entries::write_signed, variable, number)
    }

    /// Stores a number into an unsigned variable. Refusals 1, 9, 11 and 12, in this order.
    pub fn store_unsigned(&mut self, variable: VariableNumber, number: u64) -> Result<(), Refusal> {
        self.store_number(entries::write_unsigned, variable, number)
    }

    /// The current value of a signed variable as a number. Refusals 1, 9 and 11, in this order.
    pub fn value_signed(&self, variable: VariableNumber) -> Result<i64, Refusal> {
        self.read_signed(variable, self.value(variable)?)
    }

    /// The current value of an unsigned variable as a number. Refusals 1, 9 and 11, in this order.
    pub fn value_unsigned(&self, variable: VariableNumber) -> Result<u64, Refusal> {
        self.read_unsigned(variable, self.value(variable)?)
    }

    /// The current value of a variable as bytes. Refusals 1 and 9, in this order.
    pub fn value(&self, variable: VariableNumber) -> Result<&[u8], Refusal> {
        Ok(&self.state.values[self.place(variable)?])
    }

    /// Where a variable's bytes stand in the store of values. Refusals 1 and 9, in this order.
    pub fn place(&self, variable: VariableNumber) -> Result<Range<usize>, Refusal> {
        self.usable()?;
        self.board.place(variable).ok_or(Refusal::NoSuchVariable)
    }

    /// Reads a signed variable's bytes, as a reply carries them, as a number. Refusals 1, 9, 11 and 10, in this order.
    pub fn read_signed(&self, variable: VariableNumber, bytes: &[u8]) -> Result<i64, Refusal> {
        entries::read_signed(&self.board.variables, variable, bytes)
    }

    /// Reads an unsigned variable's bytes, as a reply carries them, as a number. Refusals 1, 9, 11 and 10, in this order.
    pub fn read_unsigned(&self, variable: VariableNumber, bytes: &[u8]) -> Result<u64, Refusal> {
        entries::read_unsigned(&self.board.variables, variable, bytes)
    }

    // The number is written where it is to stand; that is a store, as a refused writing leaves its buffer as it was.
    fn store_number<N>(
        &mut self,
        write: Write<N>,
        variable: VariableNumber,
        number: N,
    ) -> Result<(), Refusal> {
        let place = self.place(variable)?;
        let bytes = &mut self.state.values[place];
        write(&self.board.variables, variable, number, bytes)
    }

    // Without room for a reply, a function's result is refused with 1 if the board is unusable, and else with 3.
    fn usable(&self) -> Result<(), Refusal> {
        match self.function_result(FunctionNumber(0), false, Ran::Failed(0), &mut []) {
            Outcome::Refused(Refusal::ReplyBufferShort) => Ok(()),
            _ => Err(Refusal::BoardUnusable),
        }
    }
}
