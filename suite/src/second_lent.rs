//! What a board lends to the second node, and its entries over it.
use crate::lent::Lent;
use crate::second;
use cruachvel::{Groups, Variable};

/// Everything that a board lends to a call, in memory of its own.
pub struct SecondLent {
    /// The board as it was at first: of it, calls see the records and the address.
    pub lent: Lent,
    pub variables: Vec<second::Variable>,
    groups: second::Groups,
    pub values: Vec<u8>,
    pub blocks: Vec<u8>,
    pub lengths: Vec<u16>,
    pub sums: Vec<u8>,
    /// For a reply, or for the bytes of a number.
    pub buffer: Vec<u8>,
}

/// The variable records as the second node takes them.
pub fn variables(lent: &Lent) -> Vec<second::Variable> {
    let variable = |record: &Variable| second::Variable {
        writable: record.writable,
        size: record.size,
        kind: record.kind,
    };
    lent.variables.iter().map(variable).collect()
}

pub fn groups(lent: &Lent) -> second::Groups {
    second::Groups {
        count: lent.groups.count,
        sets: lent.groups.sets,
    }
}

pub fn address(lent: &Lent) -> second::Address {
    second::Address {
        own: lent.address.own,
        multicast: lent.address.multicast,
    }
}

fn table<'a>(variables: &'a [second::Variable], lent: &'a Lent) -> second::Table<'a> {
    second::Table {
        variables,
        curves: &lent.curves,
        functions: &lent.functions,
    }
}

impl SecondLent {
    /// What this board lends, and an empty buffer.
    pub fn new(lent: &Lent) -> SecondLent {
        SecondLent {
            variables: variables(lent),
            groups: groups(lent),
            values: lent.values.clone(),
            blocks: lent.blocks.clone(),
            lengths: lent.lengths.clone(),
            sums: lent.sums.clone(),
            lent: lent.clone(),
            buffer: Vec::new(),
        }
    }

    /// The second node's packet.
    pub fn packet(&mut self, busy: u64, request: &[u8]) -> second::Outcome {
        second::packet(
            &table(&self.variables, &self.lent),
            &mut self.groups,
            address(&self.lent),
            busy,
            &mut self.values,
            &mut self.blocks,
            &mut self.lengths,
            &mut self.sums,
            request,
            &mut self.buffer,
        )
    }

    /// The second node's function result.
    pub fn function_result(
        &mut self,
        function: usize,
        due: bool,
        ran: second::Ran,
        output: &[u8],
    ) -> second::Outcome {
        second::function_result(
            &table(&self.variables, &self.lent),
            &self.groups,
            &self.values,
            &self.blocks,
            &self.lengths,
            &self.sums,
            function,
            due,
            ran,
            output,
            &mut self.buffer,
        )
    }

    /// The second node's board store.
    pub fn board_store(&mut self, variable: usize, bytes: &[u8]) -> Result<(), u8> {
        second::board_store(
            &table(&self.variables, &self.lent),
            &self.groups,
            &mut self.values,
            &self.blocks,
            &self.lengths,
            &self.sums,
            variable,
            bytes,
        )
    }

    /// The second node's fresh board: every block is full, and every curve's sum is worked out.
    pub fn fresh_board(&mut self) -> Result<(), u8> {
        second::fresh_board(
            &table(&self.variables, &self.lent),
            &self.groups,
            &self.values,
            &self.blocks,
            &mut self.lengths,
            &mut self.sums,
        )
    }

    /// The group table as it is by now.
    pub fn groups(&self) -> Groups {
        Groups {
            count: self.groups.count,
            sets: self.groups.sets,
        }
    }
}
