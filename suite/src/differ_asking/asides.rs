//! Replies that the nodes didn't give to a request, tables that aren't the node's, and the calls beside hearing.
use super::asked::Asked;
use super::drawn::draw;
use super::tables::Table;
use super::tally::Source;
use super::wild::wild;
use super::{damage, numbers, places, replies, DifferAsking, Line};
use crate::differ::calls::some_number;

/// The longest reply that is damaged at every byte often; longer ones are so now and then.
const SHORT: usize = 48;

impl DifferAsking {
    /// One such thing, after a request that was answered so. What is learned from it is forgotten again.
    pub(super) fn aside(
        &mut self,
        line: &Line,
        asked: &Asked,
        reply: Option<&[u8]>,
    ) -> Result<(), String> {
        match (self.random.below(10), reply) {
            (0 | 1, Some(reply)) => {
                let damaged = damage::damaged(&mut self.random, reply);
                self.hear(&line.table, asked, &damaged, Source::Damaged)?;
                self.sweep(line, asked, reply)
            }
            (2, Some(reply)) => self.of_another(line, asked, reply),
            (3, Some(reply)) => self.elsewhere(line, asked, reply),
            (4, Some(reply)) => {
                let table = Table::of(wild(&mut self.random, &line.table.raw));
                self.hear(&table, asked, reply, Source::Wild).map(drop)
            }
            (5, _) => self.place(line),
            (6, _) => self.number(line),
            (7, _) => {
                let table = Table::of(wild(&mut self.random, &line.table.raw));
                self.nearly(&table, asked)
            }
            (8, _) if self.random.once_in(2) => {
                let reply = replies::noise(&mut self.random, asked);
                self.hear(&line.table, asked, &reply, Source::Noise)
                    .map(drop)
            }
            _ => self.nearly(&line.table, asked),
        }
    }

    fn nearly(&mut self, table: &Table, asked: &Asked) -> Result<(), String> {
        let reply = replies::nearly(&mut self.random, &table.known, asked);
        self.hear(table, asked, &reply, Source::Nearly).map(drop)
    }

    // Every byte of the reply is changed once, and the reply is cut off behind each.
    fn sweep(&mut self, line: &Line, asked: &Asked, reply: &[u8]) -> Result<(), String> {
        let seldom = if reply.len() <= SHORT { 32 } else { 1024 };
        if !self.random.once_in(seldom) {
            return Ok(());
        }
        for damaged in damage::each(&mut self.random, reply) {
            self.hear(&line.table, asked, &damaged, Source::Damaged)?;
        }
        Ok(())
    }

    // The reply to another request, or this reply to a request that is like it but for a number.
    fn of_another(&mut self, line: &Line, asked: &Asked, reply: &[u8]) -> Result<(), String> {
        let mut other = asked.clone();
        match self.random.below(4) {
            0 => {
                return self
                    .hear(&line.table, asked, &line.last, Source::Other)
                    .map(drop)
            }
            1 => other = draw(&mut self.random, &line.nodes.proved, line.nodes.groups()).asked,
            2 => {
                let wrapped = other.number.wrapping_add(256);
                other.number = self.random.choose(&[other.number ^ 1, wrapped]);
                other.other ^= 1;
            }
            _ => {
                let wrapped = other.block.wrapping_add(65_536);
                other.block = self.random.choose(&[other.block ^ 1, wrapped]);
            }
        }
        self.hear(&line.table, &other, reply, Source::Other)
            .map(drop)
    }

    // The reply, had the request gone to another destination: a multicast one is never answered.
    fn elsewhere(&mut self, line: &Line, asked: &Asked, reply: &[u8]) -> Result<(), String> {
        let mut other = asked.clone();
        other.destination = if self.random.once_in(2) {
            self.random.within(248, 255) as u8
        } else {
            self.random.choose(&[0, 1, 31, 32, 247, 5])
        };
        let hearing = self.hear(&line.table, &other, reply, Source::Other)?;
        if other.is_multicast() {
            self.tally.multicast += 1;
            if hearing.heard != Err(13) {
                return Err(format!(
                    "a reply to a multicast request is heard: {:?}",
                    other
                ));
            }
        }
        Ok(())
    }

    // The node's table, or another one.
    fn some_table(&mut self, line: &Line) -> Table {
        if self.random.once_in(2) {
            return line.table.clone();
        }
        Table::of(wild(&mut self.random, &line.table.raw))
    }

    fn place(&mut self, line: &Line) -> Result<(), String> {
        let table = self.some_table(line);
        let groups = 3 + table.known.groups.len();
        let group = some_number(&mut self.random, groups);
        let variable = some_number(&mut self.random, table.known.variables.len());
        let told = self.proved.place(&table.raw, group, variable);
        let right = places::by_hand(&table.known, group, variable);
        if told != right || self.proved.table[0] != table.raw {
            return Err(format!(
                "variable {} of group {} stands at {:?}, by hand at {:?}: {:02X?}",
                variable, group, told, right, table.raw
            ));
        }
        self.tally.places[usize::from(told.refusal)] += 1;
        if let Some(digest) = &mut self.digest {
            digest.place(&told);
        }
        Ok(())
    }

    fn number(&mut self, line: &Line) -> Result<(), String> {
        let variables = &line.nodes.proved.variables;
        let by_board = self.random.once_in(2);
        let table = if by_board {
            line.table.clone()
        } else {
            self.some_table(line)
        };
        let board = Some(&variables[..]).filter(|_| by_board);
        let call = numbers::draw(&mut self.random, &table.known, board);
        let told = numbers::proved(&mut self.proved, &table, &call);
        let second = numbers::second(&table.known, &call);
        let node = board.map(|variables| numbers::node(variables, &call));
        if told != second
            || node.as_ref().map_or(false, |node| told != *node)
            || self.proved.table[0] != table.raw
        {
            return Err(format!(
                "{:02X?} gives {:02X?}, on the second side {:02X?}, on the node {:02X?}: {:02X?}",
                call, told, second, node, table.raw
            ));
        }
        self.tally.numbers[usize::from(told.refusal)] += 1;
        if let Some(digest) = &mut self.digest {
            digest.told(&told);
        }
        Ok(())
    }
}
