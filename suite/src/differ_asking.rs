//! Both asking sides on one line with both nodes, exchange after exchange: what they write, hear and learn is compared, also with what the
//! board itself holds.
mod asides;
pub(crate) mod asked;
mod both;
mod damage;
mod digest;
mod drawn;
mod held;
mod meant;
mod met;
mod nodes;
mod numbers;
mod places;
mod proved_side;
mod replies;
mod said;
pub(crate) mod second_side;
pub(crate) mod tables;
mod tally;
mod ways;
mod wild;

use crate::boards;
use crate::differ::digest::Digest;
use crate::guard::Edge;
use crate::random::Random;
use crate::second_asking::Heard;
use asked::Asked;
use both::Hearing;
use cruachvel::Learned;
use drawn::{draw, Drawn};
use held::held;
use meant::Before;
use nodes::{Nodes, Worked};
use proved_side::Proved;
use tables::Table;
use tally::Source;
pub use tally::Tally;

/// A run of both sides over boards and requests that follow from a seed.
pub struct DifferAsking {
    seed: u64,
    random: Random,
    proved: Proved,
    pub tally: Tally,
    digest: Option<Digest>,
}

/// A board with its nodes, what is known of it, and the last reply that came from there.
struct Line {
    nodes: Nodes,
    table: Table,
    last: Vec<u8>,
}

impl DifferAsking {
    pub fn new(seed: u64) -> DifferAsking {
        DifferAsking {
            seed,
            random: Random::new(seed),
            proved: Proved::new(),
            tally: Tally::new(),
            digest: None,
        }
    }

    /// The same, with a number for all that the proved side tells and leaves.
    pub fn with_digest(seed: u64) -> DifferAsking {
        DifferAsking {
            digest: Some(Digest::new()),
            ..DifferAsking::new(seed)
        }
    }

    /// Of all calls so far: what was told, written and learned.
    pub fn digest(&self) -> Option<u64> {
        self.digest.as_ref().map(|digest| digest.0)
    }

    /// Goes on, board after board, until there were that many exchanges in all, or until something differs. The last board is learned to the
    /// end, so there may be a few more.
    pub fn run(&mut self, exchanges: u64) -> Result<(), String> {
        while self.tally.exchanges < exchanges {
            self.board(exchanges).map_err(|what| {
                let agreed = self.tally.exchanges;
                format!("seed {}, after {} exchanges: {}", self.seed, agreed, what)
            })?;
        }
        Ok(())
    }

    // One board, learned from nothing, and some requests to it.
    fn board(&mut self, exchanges: u64) -> Result<(), String> {
        let lent = boards::usable(&mut self.random);
        self.proved.edge = self.random.choose(&[Edge::Start, Edge::End]);
        let mut line = Line {
            nodes: Nodes::new(&lent),
            table: Table::of(Learned::new()),
            last: vec![0x00, 0xE1, 0x00, 0x00, 0x1F],
        };
        self.learn(&mut line)?;
        let large = lent.blocks.len() + 2 * lent.lengths.len() > 8192;
        let most = if large { 20 } else { 400 };
        for _ in 0..self.random.within(1, most) {
            if self.tally.exchanges < exchanges {
                self.step(&mut line)?;
            }
        }
        if line.nodes.agree() {
            Ok(())
        } else {
            Err("the nodes differ in curves, lengths or sums".to_string())
        }
    }

    // The lists, those of the groups behind that of the variables.
    fn learn(&mut self, line: &mut Line) -> Result<(), String> {
        line.table = Table::of(Learned::new());
        let own = line.nodes.proved.address.own;
        let groups = 3 + line.nodes.groups().count as usize;
        let mut lists = vec![Asked::new(own, 0x02)];
        lists.extend((0..groups).map(|number| Asked {
            number,
            ..Asked::new(own, 0x06)
        }));
        for code in [0x04, 0x08, 0x0C] {
            let place = self.random.below(lists.len() + 1);
            lists.insert(place, Asked::new(own, code));
        }
        for asked in lists {
            let mut drawn = Drawn::plain(asked);
            drawn.busy = self.random.number();
            self.exchange(line, &drawn)?;
        }
        self.tally.nodes += 1;
        if line.table.raw != line.nodes.table() {
            return Err(different_table(line));
        }
        Ok(())
    }

    // One request, and some replies to it that the nodes didn't give.
    fn step(&mut self, line: &mut Line) -> Result<(), String> {
        let drawn = draw(&mut self.random, &line.nodes.proved, line.nodes.groups());
        let reply = self.exchange(line, &drawn)?;
        let own = tables::known(&line.nodes.table());
        // A list of variables forgets the made groups, and what a multicast packet did to them wasn't heard.
        let forgets = match &reply {
            Some(reply) => reply[1] == 0x03,
            None => true,
        };
        if forgets && line.table.known.groups != own.groups {
            self.learn(line)?;
        }
        if line.table.known != own {
            return Err(different_table(line));
        }
        self.aside(line, &drawn.asked, reply.as_deref())?;
        if let Some(reply) = reply {
            line.last = reply;
        }
        Ok(())
    }

    // The request is written, answered and heard; the reply, if there is one.
    fn exchange(&mut self, line: &mut Line, drawn: &Drawn) -> Result<Option<Vec<u8>>, String> {
        let packet = match self.write(drawn)? {
            Some(packet) => packet,
            None => return Ok(None),
        };
        let before = Before::of(&line.nodes.proved);
        let worked = Worked::draw(&mut self.random);
        let reply = match line.nodes.answer(drawn.busy, &packet, &worked)? {
            Some(reply) => reply,
            None => return Ok(None),
        };
        let asked = &drawn.asked;
        let Hearing { heard, after } = self.hear(&line.table, asked, &reply, Source::Node)?;
        let lent = &line.nodes.proved;
        let (right, became) = match reply[1] {
            error @ 0xE1..=0xE8 => (Heard::Error(error), before.stayed(lent)),
            _ => (held(lent, asked, &worked), before.became(lent, asked)),
        };
        if heard != Ok(right) || !became {
            return Err(format!(
                "the board holds something else, or isn't as it was asked for: {:02X?}\nreply {:02X?}\nboard {:02X?}",
                drawn, reply, lent
            ));
        }
        line.table = after;
        self.tally.note_exchange(asked, reply[1]);
        if let (0x12, Ok(Heard::Values(values))) = (asked.code, &heard) {
            self.values_stand(&line.table, asked.number, values, &reply)?;
        }
        Ok(Some(reply))
    }

    // Each member's value stands in the reply where the table says.
    fn values_stand(
        &mut self,
        table: &Table,
        group: usize,
        values: &[(usize, Vec<u8>)],
        reply: &[u8],
    ) -> Result<(), String> {
        for (variable, bytes) in values {
            let told = self.proved.place(&table.raw, group, *variable);
            let stands = reply.get(told.place..told.place + told.length);
            if told.refusal != 0 || stands != Some(bytes) {
                return Err(format!(
                    "variable {} of group {} doesn't stand at {:?}: {:02X?}",
                    variable, group, told, reply
                ));
            }
        }
        Ok(())
    }
}

fn different_table(line: &Line) -> String {
    format!(
        "the table learned is not the node's: {:?}\nthe node's: {:?}",
        line.table.raw,
        line.nodes.table()
    )
}
