//! The second asking side, for requests in numbers: a code or an operation that 01's table lacks is nothing that it has a word for.
use super::asked::Asked;
use crate::second_asking::{self, Heard, Learned, Request};

const REPLY_DOES_NOT_FIT: u8 = 13;
const CANNOT_BE_WRITTEN: u8 = 14;

/// The packet of a request.
pub(crate) fn ask(asked: &Asked, room: usize) -> Result<Vec<u8>, u8> {
    match asked.request() {
        Some(request) => second_asking::ask(asked.destination, request, &asked.bytes, room),
        // After 2 and 3, which don't look at the request.
        None => second_asking::ask(asked.destination, Request::Version, &[], room)
            .and(Err(CANNOT_BE_WRITTEN)),
    }
}

/// What a reply says; the table is then as it leaves it.
pub(crate) fn hear(known: &mut Learned, asked: &Asked, reply: &[u8]) -> Result<Heard, u8> {
    let request = match asked.request() {
        Some(request) => request,
        // After 2, 4 and 5, which don't look at the request; the version's answer doesn't look at the table.
        None => {
            return second_asking::hear(known, asked.destination, Request::Version, reply)
                .and(Err(REPLY_DOES_NOT_FIT))
        }
    };
    let heard = second_asking::hear(known, asked.destination, request, reply);
    if let Ok(heard) = &heard {
        second_asking::learn(known, request, &asked.bytes, heard);
    }
    heard
}

/// Whether a table keeps 01's limits.
pub(super) fn is_usable(known: &Learned) -> bool {
    const BUSY: [u8; 5] = [0x00, 0xE8, 0x00, 0x00, 0x18];
    second_asking::hear(known, 1, Request::ReadVariable(0), &BUSY).is_ok()
}
