//! Both nodes on one board: what a packet is answered.
use crate::differ::Ending;
use crate::lent::Lent;
use crate::random::Random;
use crate::second;
use crate::second_lent::SecondLent;
use cruachvel::{Groups, Learned, Ran, MOST_PACKET};

/// What a function that is to be run comes to.
#[derive(Clone, Debug)]
pub(super) struct Worked {
    pub(super) ran: second::Ran,
    bytes: [u8; 15],
}

impl Worked {
    pub(super) fn draw(random: &mut Random) -> Worked {
        let failed = second::Ran::Failed(random.byte());
        let ran = random.choose(&[second::Ran::Well, second::Ran::Well, failed]);
        let mut bytes = [0; 15];
        random.fill(&mut bytes);
        Worked { ran, bytes }
    }

    /// The output, of the length that the function declares.
    pub(super) fn output(&self, lent: &Lent, function: usize) -> &[u8] {
        &self.bytes[..usize::from(lent.functions[2 * function + 1])]
    }
}

/// The board, lent to the proved node and to the second node.
pub(super) struct Nodes {
    pub(super) proved: Lent,
    second: SecondLent,
    reply: Vec<u8>,
}

impl Nodes {
    pub(super) fn new(lent: &Lent) -> Nodes {
        let mut second = SecondLent::new(lent);
        second.buffer = vec![0; MOST_PACKET];
        Nodes {
            proved: lent.clone(),
            second,
            reply: vec![0; MOST_PACKET],
        }
    }

    pub(super) fn groups(&self) -> &Groups {
        &self.proved.groups
    }

    /// The board's own table.
    pub(super) fn table(&self) -> Learned {
        super::tables::of_board(&self.proved, &self.proved.groups)
    }

    /// The reply to a packet, if there is one.
    pub(super) fn answer(
        &mut self,
        busy: u64,
        packet: &[u8],
        worked: &Worked,
    ) -> Result<Option<Vec<u8>>, String> {
        let told = Ending::of(self.proved.packet(busy, packet, &mut self.reply), packet);
        let ending = Ending::of_second(self.second.packet(busy, packet));
        let reply = self.agreed(told.clone(), ending)?;
        match told {
            Ending::Run { function, due, .. } => self.result(function, due, worked),
            _ => Ok(reply),
        }
    }

    fn result(
        &mut self,
        function: usize,
        due: bool,
        worked: &Worked,
    ) -> Result<Option<Vec<u8>>, String> {
        let output = worked.output(&self.proved, function);
        let ran = match worked.ran {
            second::Ran::Well => Ran::Gave(output),
            second::Ran::Failed(error) => Ran::Failed(error),
        };
        let told = self
            .proved
            .function_result(function, due, ran, &mut self.reply);
        let told = Ending::of(told, &[]);
        let second = &mut self.second;
        let ending = second.function_result(function, due, worked.ran, output);
        self.agreed(told, Ending::of_second(ending))
    }

    // The reply, or none, if the nodes agree on how a call ended, and on values and groups after it.
    fn agreed(&self, told: Ending, ending: Ending) -> Result<Option<Vec<u8>>, String> {
        let length = match told {
            Ending::Reply(length) => length,
            _ => 0,
        };
        let reply = &self.reply[..length];
        let agreed = told == ending
            && reply == &self.second.buffer[..length]
            && self.proved.values == self.second.values
            && self.proved.groups == self.second.groups();
        if !agreed {
            return Err(format!("the nodes differ: {:?}, {:?}", told, ending));
        }
        Ok(Some(reply)
            .filter(|reply| !reply.is_empty())
            .map(<[u8]>::to_vec))
    }

    /// Whether the curves with their lengths and sums are the same on both nodes.
    pub(super) fn agree(&self) -> bool {
        self.proved.blocks == self.second.blocks
            && self.proved.lengths == self.second.lengths
            && self.proved.sums == self.second.sums
    }
}
