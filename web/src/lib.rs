//! What the page what-if.html asks: whatif's session over the portable edition of the node, with texts going in and JSON coming out.
//!
//! A text is put at the place that `room` gives; then one of the questions below is asked of it. The answer is the place and the length of
//! a JSON text. All words are whatif's, so that the page and the program say the same.
mod board;
mod questions;
mod told;

use std::cell::RefCell;
use suite::whatif::{board_file, Session};

// What the page and this code hand to each other, and the session that goes on between questions.
struct Desk {
    text: Vec<u8>,
    answer: String,
    session: Session,
}

thread_local! {
    static DESK: RefCell<Desk> = RefCell::new(Desk {
        text: Vec::new(),
        answer: String::new(),
        session: Session::new(board::board_a()),
    });
}

/// Where the page puts a text of this many bytes.
#[no_mangle]
pub extern "C" fn room(length: usize) -> *mut u8 {
    DESK.with(|desk| {
        let text = &mut desk.borrow_mut().text;
        text.clear();
        text.resize(length, 0);
        text.as_mut_ptr()
    })
}

// Answers the text that was put there: the place of the answer in the high 32 bits, its length in the low ones.
fn answered(answer: impl FnOnce(&mut Session, &str) -> String) -> u64 {
    DESK.with(|desk| {
        let desk = &mut *desk.borrow_mut();
        let text = String::from_utf8_lossy(&desk.text);
        desk.answer = answer(&mut desk.session, &text);
        (desk.answer.as_ptr() as u64) << 32 | desk.answer.len() as u64
    })
}

/// Starts anew on the board that a board file describes. After a mistake in it the old session goes on.
#[no_mangle]
pub extern "C" fn begin() -> u64 {
    answered(|session, text| match board_file::parse(text) {
        Ok(setting) => {
            *session = Session::new(setting);
            "{}".to_string()
        }
        Err(mistake) => told::board_mistake(&mistake),
    })
}

/// Runs a line as whatif takes it.
#[no_mangle]
pub extern "C" fn tell() -> u64 {
    answered(|session, line| told::line(session, line, false))
}

/// Runs a line; if it is a packet, with its checksum added.
#[no_mangle]
pub extern "C" fn tell_summed() -> u64 {
    answered(|session, line| told::line(session, line, true))
}

/// Decodes a reply that was captured; the first line is its request, if that is known.
#[no_mangle]
pub extern "C" fn decode() -> u64 {
    answered(|session, text| told::reply(&session.setting, text))
}

/// What the board of the session has and holds now.
#[no_mangle]
pub extern "C" fn things() -> u64 {
    answered(|session, _| board::things(&session.setting))
}

/// The words that a board file's lines consist of, for a form.
#[no_mangle]
pub extern "C" fn form() -> u64 {
    answered(|_, text| match board_file::parse(text) {
        Ok(setting) => board::form(&setting),
        Err(mistake) => told::board_mistake(&mistake),
    })
}

/// What the page starts with: its version, how calls are written, the boards and the questions of the handbook.
#[no_mangle]
pub extern "C" fn about() -> u64 {
    answered(|_, _| questions::about())
}
