//! A board with the second node's entries over it, and what every call must keep to.
use suite::packets::{message, packet};
use suite::second::{self, Address, Groups, Outcome, Ran, Table, Variable};
use suite::whatif::bytes::bytes;

pub const REPLY: usize = 4104;
pub const UNTOUCHED: u8 = 0xA5;

pub fn variable(writable: u8, size: u8, kind: u8) -> Variable {
    Variable {
        writable,
        size,
        kind,
    }
}

/// A board and its state, with all that a call lends.
#[derive(Clone, Debug)]
pub struct Bench {
    pub variables: Vec<Variable>,
    pub curves: Vec<u32>,
    pub functions: Vec<u8>,
    pub groups: Groups,
    pub address: Address,
    pub busy: u64,
    pub values: Vec<u8>,
    pub blocks: Vec<u8>,
    pub lengths: Vec<u16>,
    pub sums: Vec<u8>,
    pub reply: Vec<u8>,
}

/// What must stay as it is when an error or a refusal ends a call.
#[derive(Clone, Debug, PartialEq, Eq)]
pub struct State {
    pub values: Vec<u8>,
    pub blocks: Vec<u8>,
    pub lengths: Vec<u16>,
    pub sums: Vec<u8>,
    pub groups: Groups,
}

impl Bench {
    /// Board A, fresh.
    pub fn a() -> Bench {
        Bench {
            variables: vec![variable(0, 4, 3), variable(1, 1, 0), variable(1, 2, 2)],
            curves: vec![1, 4, 2],
            functions: vec![1, 2],
            groups: Groups {
                count: 0,
                sets: [0; 5],
            },
            address: Address {
                own: 5,
                multicast: 0x81,
            },
            busy: 0,
            values: vec![0xFF, 0xFF, 0xFF, 0xFD, 0x5A, 0x34, 0x12],
            blocks: vec![0; 8],
            lengths: vec![4, 4],
            sums: hex("7DEA362B3FAC8E00956A4952A3D4F474"),
            reply: vec![UNTOUCHED; REPLY],
        }
    }

    /// A board with these records, full blocks, and stores and sums of the right lengths,
    /// filled 1, 2, 3 and on: so its sums are stale.
    pub fn with(variables: &[Variable], curves: &[u32], functions: &[u8]) -> Bench {
        let values: usize = variables.iter().map(|v| usize::from(v.size)).sum();
        let blocks: u32 = curves.chunks_exact(3).map(|c| c[1] * c[2]).sum();
        let filled = |length: usize| (1..=length).map(|n| n as u8).collect();
        Bench {
            variables: variables.to_vec(),
            curves: curves.to_vec(),
            functions: functions.to_vec(),
            values: filled(values),
            blocks: filled(blocks as usize),
            lengths: full(curves),
            sums: filled(16 * (curves.len() / 3)),
            ..Bench::a()
        }
    }

    pub fn state(&self) -> State {
        State {
            values: self.values.clone(),
            blocks: self.blocks.clone(),
            lengths: self.lengths.clone(),
            sums: self.sums.clone(),
            groups: self.groups,
        }
    }

    /// Calls with a fresh reply buffer; gives the outcome and the reply.
    pub fn outcome(&mut self, request: &[u8]) -> (Outcome, Vec<u8>) {
        self.reply.fill(UNTOUCHED);
        let table = table(&self.variables, &self.curves, &self.functions);
        let outcome = second::packet(
            &table,
            &mut self.groups,
            self.address,
            self.busy,
            &mut self.values,
            &mut self.blocks,
            &mut self.lengths,
            &mut self.sums,
            request,
            &mut self.reply,
        );
        (outcome, self.replied(outcome))
    }

    // The reply. Whatever the outcome, no byte past it is written, and only a Reply writes one.
    fn replied(&self, outcome: Outcome) -> Vec<u8> {
        let length = match outcome {
            Outcome::Reply(n) => n,
            _ => 0,
        };
        let (reply, rest) = self.reply.split_at(length);
        assert!(rest.iter().all(|&b| b == UNTOUCHED));
        reply.to_vec()
    }

    /// Sends a command to the board's own address; gives the reply's command and payload.
    pub fn ask(&mut self, command: u8, payload: &[u8]) -> (u8, Vec<u8>) {
        let request = wire(self.address.own, command, payload);
        let (outcome, reply) = self.outcome(&request);
        assert_eq!(outcome, Outcome::Reply(reply.len()), "{:02X?}", request);
        let sum = reply.iter().fold(0u8, |sum, &b| sum.wrapping_add(b));
        assert_eq!(sum, 0, "all its bytes sum to 0 modulo 256");
        assert_eq!(reply[0], 0, "a reply goes to destination 0");
        let size = usize::from(reply[2]) << 8 | usize::from(reply[3]);
        assert_eq!(size, reply.len() - 5, "SIZE");
        (reply[1], reply[4..reply.len() - 1].to_vec())
    }

    /// Sends a command that ends in a wire error and changes no byte.
    pub fn error(&mut self, command: u8, payload: &[u8]) -> u8 {
        let before = self.state();
        let (error, empty) = self.ask(command, payload);
        assert!((0xE1..=0xE8).contains(&error), "{:02X} is no error", error);
        assert!(empty.is_empty(), "each an empty payload");
        assert_eq!(self.state(), before, "an error changes no byte");
        error
    }

    /// Sends a packet that is refused and changes no byte.
    pub fn refused(&mut self, request: &[u8]) -> u8 {
        let before = self.state();
        let outcome = self.outcome(request).0;
        assert_eq!(self.state(), before, "a refusal changes no byte");
        match outcome {
            Outcome::Refused(number) => number,
            other => panic!("not refused: {:?}", other),
        }
    }

    /// Hands in a function's result, with a fresh reply buffer.
    pub fn result(&mut self, function: usize, due: bool, ran: Ran, output: &[u8]) -> Outcome {
        self.reply.fill(UNTOUCHED);
        let table = table(&self.variables, &self.curves, &self.functions);
        let outcome = second::function_result(
            &table,
            &self.groups,
            &self.values,
            &self.blocks,
            &self.lengths,
            &self.sums,
            function,
            due,
            ran,
            output,
            &mut self.reply,
        );
        self.replied(outcome);
        outcome
    }

    pub fn store(&mut self, number: usize, bytes: &[u8]) -> Result<(), u8> {
        let table = table(&self.variables, &self.curves, &self.functions);
        second::board_store(
            &table,
            &self.groups,
            &mut self.values,
            &self.blocks,
            &self.lengths,
            &self.sums,
            number,
            bytes,
        )
    }

    /// Makes every block full and works out every sum; a refusal changes no byte.
    pub fn fresh(&mut self) -> Result<(), u8> {
        let before = self.state();
        let table = table(&self.variables, &self.curves, &self.functions);
        let result = second::fresh_board(
            &table,
            &self.groups,
            &self.values,
            &self.blocks,
            &mut self.lengths,
            &mut self.sums,
        );
        assert!(result.is_ok() || self.state() == before);
        result
    }

    /// Whether all entries that look at the whole board find it unusable.
    pub fn unusable(&mut self) -> bool {
        let unusable = self.unusable_as_lent();
        assert_eq!(unusable, self.clone().fresh() == Err(1));
        unusable
    }

    /// Whether all but a fresh board find it unusable: that one sets the lengths, so it takes
    /// whatever stands there.
    pub fn unusable_as_lent(&mut self) -> bool {
        let before = self.state();
        let packet = self.outcome(&wire(5, 0x00, &[])).0 == Outcome::Refused(1);
        let result = self.result(99, true, Ran::Failed(0), &[]) == Outcome::Refused(1);
        let store = self.store(99, &[]) == Err(1);
        assert!(self.state() == before, "a refusal changes no byte");
        assert!(packet == result && result == store);
        packet
    }
}

/// The lengths of these curves' blocks, all full.
pub fn full(curves: &[u32]) -> Vec<u16> {
    let of_curve = |curve: &[u32]| vec![curve[1] as u16; curve[2] as usize];
    curves.chunks_exact(3).flat_map(of_curve).collect()
}

fn table<'a>(variables: &'a [Variable], curves: &'a [u32], functions: &'a [u8]) -> Table<'a> {
    Table {
        variables,
        curves,
        functions,
    }
}

/// A packet: destination, command, SIZE, payload, checksum.
pub fn wire(destination: u8, command: u8, payload: &[u8]) -> Vec<u8> {
    packet(destination, &message(command, payload))
}

pub fn hex(text: &str) -> Vec<u8> {
    bytes(text).expect("hex")
}
