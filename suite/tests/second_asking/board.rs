//! A board with the second node over it, and what it holds as the right answer to a request.
use crate::gateway::NODE;
use suite::random::Random;
use suite::second::{self, Address, Groups, Outcome, Ran, Table, Variable};
use suite::second_asking::{Heard, Learned, Request};

const ADDRESS: Address = Address {
    own: NODE,
    multicast: 0x81,
};

/// A board and its state.
pub struct Board {
    pub variables: Vec<Variable>,
    pub curves: Vec<u32>,
    pub functions: Vec<u8>,
    pub groups: Groups,
    pub values: Vec<u8>,
    pub blocks: Vec<u8>,
    pub lengths: Vec<u16>,
    pub sums: Vec<u8>,
}

impl Board {
    pub fn drawn(random: &mut Random) -> Board {
        let count = random.choose(&[1, 2, 3, 9, 64]);
        let variables: Vec<_> = (0..count).map(|_| drawn_variable(random)).collect();
        let mut curves = vec![];
        for _ in 0..random.below(9) {
            let block_size = random.within(1, 9) as u32;
            curves.extend([random.below(2) as u32, block_size]);
            curves.push(random.choose(&[1, 2, 3, 300]));
        }
        let numbers = 2 * random.below(17);
        let functions = (0..numbers).map(|_| random.below(16) as u8).collect();
        let values = variables.iter().map(|v| usize::from(v.size)).sum();
        let bytes: u32 = curves.chunks_exact(3).map(|c| c[1] * c[2]).sum();
        let blocks: u32 = curves.chunks_exact(3).map(|c| c[2]).sum();
        let mut board = Board {
            values: random.bytes(values),
            blocks: random.bytes(bytes as usize),
            lengths: vec![0; blocks as usize],
            sums: vec![0; 16 * (curves.len() / 3)],
            groups: Groups {
                count: 0,
                sets: [0; 5],
            },
            variables,
            curves,
            functions,
        };
        board.fresh();
        board
    }

    fn fresh(&mut self) {
        let table = table(&self.variables, &self.curves, &self.functions);
        let fresh = second::fresh_board(
            &table,
            &self.groups,
            &self.values,
            &self.blocks,
            &mut self.lengths,
            &mut self.sums,
        );
        assert_eq!(fresh, Ok(()));
    }

    /// The reply to a packet; a function that is to be run gives this result.
    pub fn answer(&mut self, busy: u64, packet: &[u8], ran: Ran) -> Vec<u8> {
        let table = table(&self.variables, &self.curves, &self.functions);
        let mut reply = vec![0; 4104];
        let outcome = second::packet(
            &table,
            &mut self.groups,
            ADDRESS,
            busy,
            &mut self.values,
            &mut self.blocks,
            &mut self.lengths,
            &mut self.sums,
            packet,
            &mut reply,
        );
        match outcome {
            Outcome::Reply(length) => reply[..length].to_vec(),
            Outcome::Run { function, .. } => self.result(function, ran),
            other => panic!("{:?}", other),
        }
    }

    fn result(&self, function: usize, ran: Ran) -> Vec<u8> {
        let mut reply = vec![0; 4104];
        let outcome = second::function_result(
            &table(&self.variables, &self.curves, &self.functions),
            &self.groups,
            &self.values,
            &self.blocks,
            &self.lengths,
            &self.sums,
            function,
            true,
            ran,
            &self.output(function),
            &mut reply,
        );
        match outcome {
            Outcome::Reply(length) => reply[..length].to_vec(),
            other => panic!("{:?}", other),
        }
    }

    fn output(&self, function: usize) -> Vec<u8> {
        vec![function as u8; usize::from(self.functions[2 * function + 1])]
    }

    /// What a gateway should know of it.
    pub fn table(&self) -> Learned {
        let pair = |record: &[u8]| (record[0], record[1]);
        let triple = |record: &[u32]| (record[0], record[1], record[2]);
        let variables = self.variables.iter().map(|v| (v.writable == 1, v.size));
        Learned {
            variables: variables.collect(),
            groups: self.groups.sets[..self.groups.count as usize].to_vec(),
            curves: self.curves.chunks_exact(3).map(triple).collect(),
            functions: self.functions.chunks_exact(2).map(pair).collect(),
        }
    }

    pub fn members(&self, group: usize) -> Vec<usize> {
        let belongs = |&number: &usize| match group {
            0 => true,
            1 => self.variables[number].writable == 0,
            2 => self.variables[number].writable == 1,
            _ => self.groups.sets[group - 3] >> number & 1 == 1,
        };
        (0..self.variables.len()).filter(belongs).collect()
    }

    pub fn group_count(&self) -> usize {
        3 + self.groups.count as usize
    }

    /// How many bytes these variables have together.
    pub fn size(&self, variables: &[usize]) -> usize {
        let size = |&number: &usize| usize::from(self.variables[number].size);
        variables.iter().map(size).sum()
    }

    /// Each of these variables with its bytes.
    pub fn values(&self, variables: &[usize]) -> Vec<(usize, Vec<u8>)> {
        let start = |number: usize| {
            let before = self.variables[..number].iter();
            before.map(|v| usize::from(v.size)).sum::<usize>()
        };
        let bytes = |number: usize| self.values[start(number)..start(number + 1)].to_vec();
        let value = |&number: &usize| (number, bytes(number));
        variables.iter().map(value).collect()
    }

    /// A block's bytes, as many as its length says.
    pub fn block(&self, curve: usize, block: usize) -> Vec<u8> {
        let before = &self.curves[..3 * curve];
        let blocks: u32 = before.chunks_exact(3).map(|c| c[2]).sum();
        let bytes: u32 = before.chunks_exact(3).map(|c| c[1] * c[2]).sum();
        let start = bytes as usize + block * self.curves[3 * curve + 1] as usize;
        let length = self.lengths[blocks as usize + block];
        self.blocks[start..start + usize::from(length)].to_vec()
    }

    /// What the board holds, as the right answer to a request that met no error.
    pub fn held(&self, request: Request, ran: Ran) -> Heard {
        let table = self.table();
        match request {
            Request::Version => Heard::Version([2, 20, 0]),
            Request::ListVariables => Heard::Variables(table.variables),
            Request::ListGroups => {
                let told = |group| self.told(group);
                Heard::Groups((0..self.group_count()).map(told).collect())
            }
            Request::ShowGroup(group) => {
                let members = self.members(group);
                Heard::Members(members.iter().map(|&number| number as u8).collect())
            }
            Request::ListCurves => Heard::Curves(table.curves),
            Request::ReadSum(curve) => {
                let sum = &self.sums[16 * curve..16 * (curve + 1)];
                Heard::Sum(sum.try_into().expect("16 bytes"))
            }
            Request::ListFunctions => Heard::Functions(table.functions),
            Request::ReadVariable(number) => Heard::Values(self.values(&[number])),
            Request::WriteRead { read, .. } => Heard::Values(self.values(&[read])),
            Request::ReadGroup(group) => Heard::Values(self.values(&self.members(group))),
            Request::ReadBlock { curve, block } => Heard::Block(self.block(curve, block)),
            Request::RunFunction(function) => match ran {
                Ran::Well => Heard::Output(self.output(function)),
                Ran::Failed(error) => Heard::Failed(error),
            },
            _ => Heard::Done,
        }
    }

    fn told(&self, group: usize) -> (bool, u8) {
        let members = self.members(group);
        let all_writable = members.iter().all(|&n| self.variables[n].writable == 1);
        (group != 1 && all_writable, members.len() as u8)
    }
}

fn drawn_variable(random: &mut Random) -> Variable {
    Variable {
        writable: u8::from(!random.once_in(3)),
        size: random.choose(&[1, 1, 2, 4, 8]),
        kind: random.below(5) as u8,
    }
}

fn table<'a>(variables: &'a [Variable], curves: &'a [u32], functions: &'a [u8]) -> Table<'a> {
    Table {
        variables,
        curves,
        functions,
    }
}
