//! A packet taken apart, as far as its bytes go.
use super::bytes::checksum;
use super::commands::{Command, Field, Rest};

/// A request or a reply: destination, message, checksum.
#[derive(Clone, Copy, Debug)]
pub struct Packet<'a>(pub &'a [u8]);

impl<'a> Packet<'a> {
    pub fn destination(self) -> Option<u8> {
        self.0.first().copied()
    }

    pub fn checksum(self) -> Option<u8> {
        self.0.get(1..)?.last().copied()
    }

    /// The sum of all bytes, which is 0 where the checksum is right.
    pub fn sum(self) -> u8 {
        checksum(self.0).wrapping_neg()
    }

    pub fn message(self) -> &'a [u8] {
        self.0.get(1..self.0.len().max(2) - 1).unwrap_or(&[])
    }

    pub fn code(self) -> Option<u8> {
        self.message().first().copied()
    }

    pub fn command(self) -> Option<&'static Command> {
        Command::of(self.code()?)
    }

    /// The bytes of SIZE, of which one may be missing.
    pub fn size_bytes(self) -> &'a [u8] {
        let message = self.message();
        &message[message.len().min(1)..message.len().min(3)]
    }

    pub fn size(self) -> Option<usize> {
        two_bytes(self.size_bytes())
    }

    pub fn payload(self) -> &'a [u8] {
        self.message().get(3..).unwrap_or(&[])
    }

    /// Whether SIZE is the number of bytes that follow.
    pub fn is_whole(self) -> bool {
        self.size() == Some(self.payload().len())
    }

    /// The payload's front field by field, as far as it goes, and what follows it.
    pub fn fields(self, command: &Command) -> (Vec<(Field, &'a [u8])>, &'a [u8]) {
        let mut rest = self.payload();
        let mut fields = Vec::new();
        for field in command.front {
            let (bytes, after) = rest.split_at(field.width().min(rest.len()));
            fields.push((*field, bytes));
            rest = after;
        }
        (fields, rest)
    }

    /// What the payload has in place of this field, if it is there as a whole.
    pub fn field(self, wanted: Field) -> Option<usize> {
        let (fields, _) = self.fields(self.command()?);
        let (field, bytes) = fields.into_iter().find(|(field, _)| *field == wanted)?;
        match field {
            Field::Block => two_bytes(bytes),
            _ => bytes.first().copied().map(usize::from),
        }
    }

    /// What follows the payload's front.
    pub fn rest(self) -> &'a [u8] {
        self.command()
            .map_or(self.payload(), |command| self.fields(command).1)
    }

    /// The variables that 30 names, in their order; none for other commands.
    pub fn members(self) -> &'a [u8] {
        match self.command() {
            Some(command) if command.rest == Rest::Members => self.payload(),
            _ => &[],
        }
    }
}

fn two_bytes(bytes: &[u8]) -> Option<usize> {
    match bytes {
        [high, low] => Some(u16::from_be_bytes([*high, *low]).into()),
        _ => None,
    }
}
