//! Demand 3 on compiled code: what a board answers shows nothing of a variable that was not read. Two boards that differ in one variable's
//! bytes get the same calls; their answers are equal until that variable is read, and then differ exactly if its bytes do.
use cruachvel::{Outcome, Ran};
use suite::boards::usable;
use suite::lent::Lent;
use suite::packets::{message, packet, Drawer};
use suite::random::Random;

const PAIRS: usize = 600;
const MOST_CALLS: usize = 120;

/// One board, in two states that differ in the bytes of `variable` alone; so they have equal blocks, lengths and sums.
#[derive(Clone)]
struct Twins {
    left: Lent,
    right: Lent,
    variable: usize,
}

/// What became of a pair: the variable was read and told them apart, or the calls made them equal, or neither.
#[derive(Clone, Copy, PartialEq, Eq)]
enum End {
    ToldApart,
    MadeEqual,
    NeverRead,
}

/// A call that is made on both.
enum Call {
    Packet {
        busy: u64,
        request: Vec<u8>,
    },
    Result {
        function: usize,
        due: bool,
        output: Vec<u8>,
    },
    Store {
        variable: usize,
        bytes: Vec<u8>,
    },
    Fresh,
}

impl Twins {
    fn new(random: &mut Random) -> Twins {
        let mut left = usable(random);
        while left.blocks.len() > 4096 {
            left = usable(random);
        }
        let variable = random.below(left.variables.len());
        let mut right = left.clone();
        let place = right.place(variable);
        right.values[place.start + random.below(place.len())] ^= random.within(1, 255) as u8;
        Twins {
            left,
            right,
            variable,
        }
    }

    fn bytes_differ(&self) -> bool {
        let place = self.left.place(self.variable);
        self.left.values[place.clone()] != self.right.values[place]
    }

    // Whatever happens, only that variable may tell the two states apart.
    fn differ_there_alone(&self) {
        let mut right = self.right.clone();
        let place = self.left.place(self.variable);
        right.values[place.clone()].copy_from_slice(&self.left.values[place]);
        assert_eq!(
            self.left, right,
            "more than variable {} differs",
            self.variable
        );
    }

    // Whether an answered message, which no error stopped, reads the variable: 10, 12, and 28's second.
    fn reads_it(&self, request: &[u8], answer: u8) -> bool {
        let named = |place: usize| usize::from(request[place]);
        match (request[1], answer) {
            (0x10, 0x11) => named(4) == self.variable,
            (0x28, 0x11) => named(5) == self.variable,
            (0x12, 0x13) => {
                let sets = self.left.group_sets(&self.left.groups);
                sets[named(4)] >> self.variable & 1 == 1
            }
            _ => false,
        }
    }

    // The packet on both; true if it told them apart, as only a read of the variable may.
    fn packet(&mut self, busy: u64, request: &[u8]) -> bool {
        let (mut one, mut other) = ([0; 4104], [0; 4104]);
        let left = self.left.packet(busy, request, &mut one);
        let right = self.right.packet(busy, request, &mut other);
        let read = match left {
            Outcome::Reply(reply) => self.reads_it(request, reply[1]),
            _ => false,
        };
        let apart = left != right;
        let expected = read && self.bytes_differ();
        assert_eq!(
            apart, expected,
            "variable {}: {:02X?} ended in {:02X?} and {:02X?}",
            self.variable, request, left, right
        );
        apart
    }

    // True if the call told the two apart.
    fn call(&mut self, call: &Call) -> bool {
        match call {
            Call::Packet { busy, request } => self.packet(*busy, request),
            Call::Result {
                function,
                due,
                output,
            } => {
                let (mut one, mut other) = ([0; 4104], [0; 4104]);
                let left = self
                    .left
                    .function_result(*function, *due, Ran::Gave(output), &mut one);
                let right =
                    self.right
                        .function_result(*function, *due, Ran::Gave(output), &mut other);
                assert_eq!(left, right);
                false
            }
            Call::Store { variable, bytes } => {
                let left = self.left.board_store(*variable, bytes);
                assert_eq!(left, self.right.board_store(*variable, bytes));
                false
            }
            Call::Fresh => {
                assert_eq!(self.left.fresh_board(), self.right.fresh_board());
                false
            }
        }
    }

    fn run(&mut self, random: &mut Random) -> End {
        for _ in 0..random.within(1, MOST_CALLS) {
            let call = self.draw(random);
            let apart = self.call(&call);
            self.differ_there_alone();
            if apart {
                return End::ToldApart;
            }
        }
        if self.bytes_differ() {
            End::NeverRead
        } else {
            End::MadeEqual
        }
    }

    fn draw(&self, random: &mut Random) -> Call {
        match random.below(40) {
            0 => self.draw_read(random),
            1 => {
                let variable = random.below(self.left.variables.len());
                let size = self.left.variables[variable].size;
                let bytes = random.bytes(size.into());
                Call::Store { variable, bytes }
            }
            2 => Call::Fresh,
            3 | 4 => {
                let function = random.below(self.left.functions.len() / 2 + 1);
                let record = self.left.functions.chunks_exact(2).nth(function);
                let output = random.bytes(record.map_or(0, |record| record[1].into()));
                let due = random.once_in(2);
                Call::Result {
                    function,
                    due,
                    output,
                }
            }
            _ => {
                let (lent, groups) = (&self.left, &self.left.groups);
                let (request, draft) = Drawer {
                    random,
                    lent,
                    groups,
                }
                .packet();
                let busy = draft.busy;
                Call::Packet { busy, request }
            }
        }
    }

    // A message that reads the variable, if the destination lets it be answered.
    fn draw_read(&self, random: &mut Random) -> Call {
        let variable = self.variable as u8;
        let message = random
            .choose(&[
                &message(0x10, &[variable])[..],
                &message(0x12, &[0]),
                &message(0x12, &[1]),
                &message(0x12, &[2]),
            ])
            .to_vec();
        let destination = random.choose(&[self.left.address.own, 255]);
        let request = packet(destination, &message);
        Call::Packet { busy: 0, request }
    }
}

#[test]
fn answers_show_nothing_of_a_variable_that_was_not_read() {
    let mut random = Random::new(11);
    let ends: Vec<End> = (0..PAIRS)
        .map(|_| Twins::new(&mut random).run(&mut random))
        .collect();
    for end in [End::ToldApart, End::MadeEqual, End::NeverRead] {
        let count = ends.iter().filter(|one| **one == end).count();
        assert!(
            count > PAIRS / 50,
            "only {} pairs of {} ended so",
            count,
            PAIRS
        );
    }
}

#[test]
fn a_read_tells_a_single_bit_apart() {
    let mut random = Random::new(12);
    for _ in 0..100 {
        let mut twins = Twins::new(&mut random);
        let place = twins.left.place(twins.variable);
        twins.right = twins.left.clone();
        twins.right.values[place.start + random.below(place.len())] ^= 1 << random.below(8);
        let own = twins.left.address.own;
        let request = packet(own, &message(0x10, &[twins.variable as u8]));
        assert!(
            twins.packet(!(1 << twins.variable), &request),
            "variable {}",
            twins.variable
        );
    }
}

// Whatever bytes a busy variable has, be they half of a value, no packet shows or changes them. The same packets without the mark do.
#[test]
fn half_a_value_never_travels() {
    let mut random = Random::new(13);
    let mut stopped = 0;
    for _ in 0..PAIRS {
        let mut twins = Twins::new(&mut random);
        let place = twins.left.place(twins.variable);
        let bytes = twins.left.values[place.clone()].to_vec();
        for _ in 0..random.within(1, MOST_CALLS) {
            let call = match random.below(4) {
                0 => twins.draw_read(&mut random),
                _ => twins.draw(&mut random),
            };
            if let Call::Packet { busy, request } = call {
                let mark = 1 << twins.variable;
                let shown = twins.clone().packet(busy & !mark, &request);
                assert!(!twins.packet(busy | mark, &request), "{:02X?}", request);
                assert_eq!(twins.left.values[place.clone()], bytes);
                twins.differ_there_alone();
                stopped += u32::from(shown);
            }
        }
    }
    assert!(stopped > 1000, "only {} reads were stopped", stopped);
}
