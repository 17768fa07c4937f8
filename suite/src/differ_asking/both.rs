//! A call on both sides: all that it tells and leaves is compared.
use super::asked::{Asked, Unwritable};
use super::drawn::Drawn;
use super::tables::{self, Table};
use super::tally::Source;
use super::{said, second_side, DifferAsking};
use crate::second_asking::Heard;
use cruachvel::raw::ToldHeard;

/// What both sides heard in a reply, and the table after it.
pub(super) struct Hearing {
    pub(super) heard: Result<Heard, u8>,
    pub(super) after: Table,
}

impl DifferAsking {
    /// Both sides write the request; its packet, if it can be written.
    pub(super) fn write(&mut self, drawn: &Drawn) -> Result<Option<Vec<u8>>, String> {
        let blank = vec![self.random.byte(); drawn.room];
        self.proved.buffer.put(self.proved.edge, &blank);
        let told = self.proved.ask(&drawn.asked);
        let packet = second_side::ask(&drawn.asked, drawn.room);
        let mut right = blank;
        let (refusal, length) = match &packet {
            Ok(packet) => {
                right[..packet.len()].copy_from_slice(packet);
                (0, packet.len())
            }
            Err(refusal) => (*refusal, 0),
        };
        let same = (told.refusal, told.length) == (refusal, length)
            && self.proved.buffer[..] == right[..]
            && self.proved.bytes[..] == drawn.asked.bytes[..]
            && is_by_hand(&drawn.asked, refusal);
        if !same {
            return Err(format!(
                "the requests differ: {:02X?}\nproved side {:?}, second side {:02X?}",
                drawn, told, packet
            ));
        }
        self.tally.note_written(drawn, refusal, length);
        if let Some(digest) = &mut self.digest {
            digest.asked(&told, &self.proved.buffer);
        }
        Ok(packet.ok())
    }

    /// Both sides hear a reply with this table.
    pub(super) fn hear(
        &mut self,
        table: &Table,
        asked: &Asked,
        reply: &[u8],
        source: Source,
    ) -> Result<Hearing, String> {
        let told = self.proved.hear(&table.raw, asked, reply);
        let mut known = table.known.clone();
        let heard = second_side::hear(&mut known, asked, reply);
        let raw = match &heard {
            Ok(heard) => tables::taught(table, heard, &known),
            Err(_) => table.raw,
        };
        let hearing = Hearing {
            heard,
            after: Table { raw, known },
        };
        if !self.is_left(&told, &hearing, table, asked, reply) {
            return Err(format!(
                "the sides hear different things: {:02X?}\nreply {:02X?}\ntable {:02X?}\n\
                 proved side {:?}, table {:02X?}\nsecond side {:02X?}, table {:02X?}",
                asked, reply, table, told, self.proved.table[0], hearing.heard, hearing.after
            ));
        }
        self.tally.note_heard(source, &told);
        if let Ok(heard) = &hearing.heard {
            let after = &hearing.after;
            self.tally.note_learned(asked, heard, table, after);
        }
        if let Some(digest) = &mut self.digest {
            digest.heard(&told, &self.proved.table[0]);
        }
        Ok(hearing)
    }

    // Whether the proved side told and left what the second side heard, and nothing of a reply to a multicast request.
    fn is_left(
        &self,
        told: &ToldHeard,
        hearing: &Hearing,
        table: &Table,
        asked: &Asked,
        reply: &[u8],
    ) -> bool {
        let Hearing { heard, after } = hearing;
        let (right, bytes) = said::told(heard);
        let shown = reply.get(told.place..).unwrap_or(&[]);
        let left = &self.proved.table[0];
        *told == right
            && shown.starts_with(&bytes)
            && *left == after.raw
            && (*left == table.raw || tables::known(left) == after.known)
            && self.proved.bytes[..] == asked.bytes[..]
            && self.proved.reply[..] == *reply
            && !(asked.is_multicast() && heard.is_ok())
    }
}

// 14 is given exactly for these reasons, after 2 and 3.
fn is_by_hand(asked: &Asked, refusal: u8) -> bool {
    match refusal {
        0 => Unwritable::of(asked).is_none(),
        14 => Unwritable::of(asked).is_some(),
        _ => true,
    }
}
