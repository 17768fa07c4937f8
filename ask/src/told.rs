//! What is said on standard output, for a reader or in JSON.
use crate::failure::Failure;
use crate::line::plain;
use crate::termios;
use std::io::{self, ErrorKind, Write};
use suite::whatif::json;

/// Names with values that are JSON already.
pub type Facts = Vec<(&'static str, String)>;

/// Something that was found or done.
pub struct Item {
    /// For a reader, in lines.
    pub text: String,
    /// The value alone, if there is one.
    pub value: Option<String>,
    pub facts: Facts,
}

/// Tells what was found, in the form that was asked for.
pub struct Teller {
    pub json: bool,
    pub quiet: bool,
    // Each object starts with them.
    pub head: Facts,
    // Whether a line of progress stands on standard error.
    progress: bool,
    terminal: bool,
}

impl Teller {
    pub fn new(json: bool, quiet: bool, head: Facts) -> Teller {
        Teller {
            json,
            quiet,
            head,
            progress: false,
            terminal: termios::is_terminal(&io::stderr()),
        }
    }

    pub fn tell(&mut self, item: Item) -> Result<(), Failure> {
        self.end_progress();
        match (self.json, self.quiet) {
            (true, _) => self.object(item.facts),
            (false, true) => item.value.map_or(Ok(()), |value| put(&value)),
            (false, false) => put(&item.text),
        }
    }

    /// What went wrong, for programs alone.
    pub fn failed(&mut self, failure: &Failure) -> Result<(), Failure> {
        self.end_progress();
        match self.json {
            true => self.object(failure.facts()),
            false => Ok(()),
        }
    }

    fn object(&self, facts: Facts) -> Result<(), Failure> {
        let head = self.head.iter().map(|(name, value)| (*name, value.clone()));
        put(&json::object(head.chain(facts)))
    }

    /// A note on standard error.
    pub fn note(&mut self, message: &str) {
        if !self.quiet {
            self.end_progress();
            complain(message);
        }
    }

    /// How far a curve has come: each block at a terminal, and else each tenth.
    pub fn progress(&mut self, curve: usize, done: usize, all: usize) {
        if self.quiet {
            return;
        }
        let text = format!("ask: curve {}: {} of {} blocks", curve, done, all);
        if self.terminal {
            let _ = write!(io::stderr(), "\r{}", text);
            self.progress = true;
        } else if done == all || done * 10 / all > (done - 1) * 10 / all {
            let _ = writeln!(io::stderr(), "{}", text);
        }
    }

    fn end_progress(&mut self) {
        if self.progress {
            let _ = writeln!(io::stderr());
            self.progress = false;
        }
    }
}

/// Where nobody reads errors either, the exit status is all that is left.
pub fn complain(message: &str) {
    if !message.is_empty() {
        let _ = writeln!(io::stderr(), "ask: {}", message);
    }
}

/// Puts a line on standard output.
pub fn put(text: &str) -> Result<(), Failure> {
    let mut output = io::stdout();
    let put = writeln!(output, "{}", text).and_then(|()| output.flush());
    put.map_err(|error| match error.kind() {
        ErrorKind::BrokenPipe => Failure::Unread,
        _ => Failure::Broken(format!("standard output: {}", plain(&error))),
    })
}
