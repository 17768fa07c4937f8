//! What belongs to one reply, among the bytes that come.
use cruachvel::MOST_PACKET;

/// A reply in the making.
pub struct Framing {
    // The request, until it was heard from an adapter that hears itself. A reply goes to 0 and a request never does, so they are not confused.
    echo: Vec<u8>,
    bytes: Vec<u8>,
}

impl Framing {
    /// For the reply to this request.
    pub fn new(request: &[u8]) -> Framing {
        Framing {
            echo: request.to_vec(),
            bytes: Vec::new(),
        }
    }

    /// Takes bytes that came.
    pub fn take(&mut self, bytes: &[u8]) {
        // One byte more than a packet may have, so that a longer one is seen to be longer.
        let room = (MOST_PACKET + 1 + self.echo.len()).saturating_sub(self.bytes.len());
        self.bytes
            .extend_from_slice(&bytes[..bytes.len().min(room)]);
        if !self.echo.is_empty() && self.bytes.starts_with(&self.echo) {
            self.bytes.drain(..self.echo.len());
            self.echo.clear();
        }
    }

    pub fn is_empty(&self) -> bool {
        self.bytes.is_empty()
    }

    /// Whether a whole packet is there by its SIZE, or more than a packet can be. What is the beginning of an echo is neither.
    pub fn is_whole(&self) -> bool {
        if !self.bytes.is_empty() && self.echo.starts_with(&self.bytes) {
            return false;
        }
        match self.bytes[..] {
            [_, _, high, low, ..] => {
                let size = usize::from(u16::from_be_bytes([high, low]));
                self.bytes.len() >= size + 5 || self.bytes.len() > MOST_PACKET
            }
            _ => false,
        }
    }

    /// The bytes that came.
    pub fn bytes(self) -> Vec<u8> {
        self.bytes
    }
}

#[cfg(test)]
mod tests {
    use super::Framing;

    const REQUEST: [u8; 6] = [0x05, 0x10, 0x00, 0x01, 0x00, 0xEA];
    const REPLY: [u8; 9] = [0x00, 0x11, 0x00, 0x04, 0xFF, 0xFF, 0xFF, 0xFD, 0xF1];

    // Whether the reply is whole after each piece, and what it is in the end.
    fn framed(pieces: &[&[u8]]) -> (Vec<bool>, Vec<u8>) {
        let mut framing = Framing::new(&REQUEST);
        let take = |piece: &&[u8]| {
            framing.take(piece);
            framing.is_whole()
        };
        let whole = pieces.iter().map(take).collect();
        (whole, framing.bytes())
    }

    #[test]
    fn a_reply_is_whole_by_its_size() {
        assert_eq!(framed(&[&REPLY]), (vec![true], REPLY.to_vec()));
        let pieces = framed(&[&REPLY[..1], &REPLY[1..4], &REPLY[4..8], &REPLY[8..]]);
        assert_eq!(pieces, (vec![false, false, false, true], REPLY.to_vec()));
        let empty = [0x00, 0xE0, 0x00, 0x00, 0x20];
        assert_eq!(framed(&[&empty]), (vec![true], empty.to_vec()));
        assert_eq!(framed(&[&empty[..4]]).0, [false]);
    }

    #[test]
    fn more_than_a_reply_is_kept_and_seen() {
        let more = [&REPLY[..], &[0x55]].concat();
        assert_eq!(framed(&[&more]), (vec![true], more));
        let (whole, bytes) = framed(&[&[0xFF; 4000], &[0xFF; 4000]]);
        assert_eq!((whole, bytes.len() > 4104), (vec![false, true], true));
    }

    #[test]
    fn an_echo_is_left_out() {
        let both = [&REQUEST[..], &REPLY].concat();
        assert_eq!(framed(&[&both]), (vec![true], REPLY.to_vec()));
        let pieces = framed(&[&both[..3], &both[3..6], &both[6..8], &both[8..]]);
        assert_eq!(pieces, (vec![false, false, false, true], REPLY.to_vec()));
        assert_eq!(framed(&[&REQUEST]), (vec![false], vec![]));
        let twice = [&REQUEST[..], &REQUEST].concat();
        assert_eq!(framed(&[&twice]), (vec![true], REQUEST.to_vec()));
    }
}
