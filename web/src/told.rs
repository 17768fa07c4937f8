//! What is said of a line, a reply or a board file.
use suite::whatif::board_file::Mistake;
use suite::whatif::bytes::{placed, Wrong};
use suite::whatif::call::Line;
use suite::whatif::json::{object, string};
use suite::whatif::{captured, Session, Setting, Sheet};

/// A line that is run, explained as a text and as facts; else what is wrong with it.
pub fn line(session: &mut Session, line: &str, sum: bool) -> String {
    session.sum = sum;
    match session.tell(line) {
        Ok(sheet) => told(&sheet),
        Err(message) => mistake(&message, wrong_digit(line)),
    }
}

/// A reply that was captured, explained; the first line is its request, if it isn't empty.
pub fn reply(setting: &Setting, text: &str) -> String {
    let (request, reply) = text.split_once('\n').unwrap_or(("", text));
    let request = match placed(request) {
        Ok(bytes) => Some(bytes).filter(|bytes| !bytes.is_empty()),
        Err(wrong) => return request_mistake(&wrong),
    };
    match placed(reply) {
        Ok(bytes) => told(&captured(&bytes, request.as_deref(), setting)),
        Err(wrong) => mistake(&wrong.message, Some(wrong.place)),
    }
}

// It is told in which of both fields it stands.
fn request_mistake(wrong: &Wrong) -> String {
    object([
        ("mistake", string(&wrong.message)),
        ("place", wrong.place.to_string()),
        ("field", string("request")),
    ])
}

fn told(sheet: &Sheet) -> String {
    object([("facts", sheet.json()), ("text", string(&sheet.lines()))])
}

fn mistake(message: &str, place: Option<usize>) -> String {
    let place = place.map(|place| ("place", place.to_string()));
    object([("mistake", string(message))].into_iter().chain(place))
}

/// What is wrong with a board file, in words as whatif says it, and the line as a number, if it is one.
pub fn board_mistake(wrong: &Mistake) -> String {
    let line = (wrong.line > 0).then(|| ("line", wrong.line.to_string()));
    let message = string(&wrong.to_string());
    object([("mistake", message)].into_iter().chain(line))
}

// Where in a line, from 1, something stands that is no byte; only where the line is bytes and nothing else.
fn wrong_digit(line: &str) -> Option<usize> {
    let bytes = line.trim_start();
    let keyword = bytes.split_whitespace().next()?;
    if Line::starts(keyword) || !bytes.starts_with(|letter: char| letter.is_ascii_hexdigit()) {
        return None;
    }
    let before = line.chars().count() - bytes.chars().count();
    placed(bytes).err().map(|wrong| before + wrong.place)
}
