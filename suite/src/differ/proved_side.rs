//! The proved node's side.
use super::calls::{Call, Entry};
use super::Ending;
use crate::guard::{Edge, Guarded};
use crate::lent::{Lent, MOST_LENT};
use crate::second;
use crate::second_lent::SecondLent;
use cruachvel::{Address, FunctionNumber, Groups, Ran, Table, Variable, VariableNumber};

pub(super) struct Records {
    pub(super) variables: Guarded<Variable>,
    pub(super) curves: Guarded<u32>,
    pub(super) functions: Guarded<u8>,
}

impl Records {
    fn table(&self) -> Table<'_> {
        Table {
            variables: &self.variables,
            curves: &self.curves,
            functions: &self.functions,
        }
    }
}

// The proved side. All that is lent to it stands at guard pages.
pub(super) struct Proved {
    pub(super) edge: Edge,
    pub(super) records: Records,
    pub(super) groups: Guarded<Groups>,
    address: Address,
    pub(super) values: Guarded<u8>,
    pub(super) blocks: Guarded<u8>,
    pub(super) lengths: Guarded<u16>,
    pub(super) sums: Guarded<u8>,
    pub(super) given: Guarded<u8>,
    pub(super) buffer: Guarded<u8>,
}

impl Proved {
    pub(super) fn new() -> Proved {
        Proved {
            edge: Edge::End,
            records: Records {
                variables: Guarded::new(256),
                curves: Guarded::new(64),
                functions: Guarded::new(64),
            },
            groups: Guarded::new(1),
            address: Address {
                own: 0,
                multicast: 0,
            },
            values: Guarded::new(MOST_LENT),
            blocks: Guarded::new(MOST_LENT),
            lengths: Guarded::new(MOST_LENT),
            sums: Guarded::new(MOST_LENT),
            given: Guarded::new(MOST_LENT),
            buffer: Guarded::new(MOST_LENT),
        }
    }

    pub(super) fn take(&mut self, edge: Edge, lent: &Lent) {
        self.edge = edge;
        self.records.variables.put(edge, &lent.variables);
        self.records.curves.put(edge, &lent.curves);
        self.records.functions.put(edge, &lent.functions);
        self.groups.put(edge, &[lent.groups]);
        self.address = lent.address;
        self.values.put(edge, &lent.values);
        self.blocks.put(edge, &lent.blocks);
        self.lengths.put(edge, &lent.lengths);
        self.sums.put(edge, &lent.sums);
        self.buffer.put(edge, &[]);
    }

    pub(super) fn call(&mut self, entry: &Entry) -> Ending {
        let variables = &self.records.variables;
        match *entry {
            Entry::Packet { busy, .. } => self.packet(busy),
            Entry::Result { function, due, ran } => self.result(function, due, ran),
            Entry::Store { variable } => self.store(variable),
            Entry::Fresh => self.fresh(),
            Entry::ReadSigned { variable } => Ending::of_result(
                cruachvel::read_signed(variables, VariableNumber(variable), &self.given),
                Ending::Signed,
            ),
            Entry::ReadUnsigned { variable } => Ending::of_result(
                cruachvel::read_unsigned(variables, VariableNumber(variable), &self.given),
                Ending::Unsigned,
            ),
            Entry::WriteSigned { variable, number } => Ending::of_result(
                cruachvel::write_signed(
                    variables,
                    VariableNumber(variable),
                    number,
                    &mut self.buffer,
                ),
                |()| Ending::Done,
            ),
            Entry::WriteUnsigned { variable, number } => Ending::of_result(
                cruachvel::write_unsigned(
                    variables,
                    VariableNumber(variable),
                    number,
                    &mut self.buffer,
                ),
                |()| Ending::Done,
            ),
        }
    }

    fn packet(&mut self, busy: u64) -> Ending {
        let outcome = cruachvel::packet(
            &self.records.table(),
            &mut self.groups[0],
            self.address,
            busy,
            &mut self.values,
            &mut self.blocks,
            &mut self.lengths,
            &mut self.sums,
            &self.given,
            &mut self.buffer,
        );
        Ending::of(outcome, &self.given)
    }

    fn result(&mut self, function: usize, due: bool, ran: second::Ran) -> Ending {
        let ran = match ran {
            second::Ran::Well => Ran::Gave(&self.given),
            second::Ran::Failed(error) => Ran::Failed(error),
        };
        let outcome = cruachvel::function_result(
            &self.records.table(),
            &self.groups[0],
            &self.values,
            &self.blocks,
            &self.lengths,
            &self.sums,
            FunctionNumber(function),
            due,
            ran,
            &mut self.buffer,
        );
        Ending::of(outcome, &[])
    }

    fn store(&mut self, variable: usize) -> Ending {
        let stored = cruachvel::board_store(
            &self.records.table(),
            &self.groups[0],
            &mut self.values,
            &self.blocks,
            &self.lengths,
            &self.sums,
            VariableNumber(variable),
            &self.given,
        );
        Ending::of_result(stored, |()| Ending::Done)
    }

    fn fresh(&mut self) -> Ending {
        let fresh = cruachvel::fresh_board(
            &self.records.table(),
            &self.groups[0],
            &self.values,
            &self.blocks,
            &mut self.lengths,
            &mut self.sums,
        );
        Ending::of_result(fresh, |()| Ending::Done)
    }
}

impl Proved {
    // Everything that a call leaves, beside how it ended.
    pub(super) fn differing(
        &self,
        second: &SecondLent,
        call: &Call,
        told: &Ending,
        ending: &Ending,
    ) -> Option<&'static str> {
        [
            ("how the call ended", told == ending),
            (
                "the reply or number buffer",
                self.buffer[..] == second.buffer[..],
            ),
            ("the group table", self.groups[0] == second.groups()),
            ("the variables' store", self.values[..] == second.values[..]),
            ("the curves' store", self.blocks[..] == second.blocks[..]),
            (
                "the blocks' lengths",
                self.lengths[..] == second.lengths[..],
            ),
            ("the curves' sums", self.sums[..] == second.sums[..]),
            ("the bytes given", self.given[..] == call.given[..]),
        ]
        .iter()
        .find_map(|&(what, same)| if same { None } else { Some(what) })
    }
}
