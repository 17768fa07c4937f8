//! whatif: what the node does if it gets a packet or another call, and why; src/whatif/help.txt says what it takes.
use std::io::{self, BufRead, Write};
use std::path::Path;
use std::process::exit;
use suite::boards::board_a;
use suite::whatif::arguments::{usage, wanted, Wanted};
use suite::whatif::{board_file, bytes, captured, Session, Setting, Sheet, HELP, VERSION};

const BOARD_FILES: &str = include_str!("../../../docs/BOARD-FILE.md");

// How the program ends early: what it says and its exit status.
type Stop = (String, i32);

fn main() {
    let asked = wanted(std::env::args_os().skip(1));
    let asked = asked.map_err(|message| (format!("{}\n{}", message, usage()), 2));
    if let Err((message, status)) = asked.and_then(run) {
        complain(&message);
        exit(status);
    }
}

// Where nobody reads errors either, the exit status is all that is left. A reader that went away is told nothing.
fn complain(message: &str) {
    if !message.is_empty() {
        let _ = writeln!(io::stderr(), "whatif: {}", message);
    }
}

fn unreadable(place: &str, message: impl std::fmt::Display) -> Stop {
    (format!("{}: {}", place, message), 1)
}

fn unwritable(error: io::Error) -> Stop {
    match error.kind() {
        io::ErrorKind::BrokenPipe => (String::new(), 1),
        _ => (error.to_string(), 1),
    }
}

fn run(wanted: Wanted) -> Result<(), Stop> {
    let mut output = io::stdout();
    if wanted.help {
        return write!(output, "{}{}", HELP, BOARD_FILES).map_err(unwritable);
    }
    if wanted.version {
        return writeln!(output, "whatif {}", VERSION).map_err(unwritable);
    }
    let mut session = Session::new(setting(&wanted)?);
    session.sum = wanted.sum;
    let mut teller = Teller {
        json: wanted.json,
        met: false,
        output,
    };
    let request = wanted.request.as_deref().map(bytes::bytes).transpose();
    let request = request.map_err(|message| unreadable("--request", message))?;
    for reply in &wanted.replies {
        let reply = bytes::bytes(reply).map_err(|message| unreadable("--reply", message))?;
        teller.put(&captured(&reply, request.as_deref(), &session.setting))?;
    }
    for (place, line) in &wanted.lines {
        let told = session.tell(line);
        let sheet = told.map_err(|message| unreadable(&format!("argument {}", place), message))?;
        teller.put(&sheet)?;
    }
    if wanted.replies.is_empty() && wanted.lines.is_empty() {
        return lines(&mut session, &mut teller);
    }
    Ok(())
}

fn setting(wanted: &Wanted) -> Result<Setting, Stop> {
    let mut setting = match &wanted.board {
        Some(path) => board_file::read(Path::new(path)).map_err(|message| (message, 1))?,
        None => Setting::new(board_a(), 0),
    };
    setting.busy = wanted.busy.unwrap_or(setting.busy);
    Ok(setting)
}

// Writes explanations, for a reader with a blank line between them.
struct Teller {
    json: bool,
    met: bool,
    output: io::Stdout,
}

impl Teller {
    fn put(&mut self, sheet: &Sheet) -> Result<(), Stop> {
        let text = match (self.json, self.met) {
            (true, _) => sheet.json(),
            (false, true) => "\n".to_string() + &sheet.lines(),
            (false, false) => sheet.lines(),
        };
        self.met = true;
        self.output.write_all(text.as_bytes()).map_err(unwritable)
    }
}

// The lines of standard input. A mistake ends it, but at a terminal, where the line can be given anew.
fn lines(session: &mut Session, teller: &mut Teller) -> Result<(), Stop> {
    let terminal = is_terminal();
    let mut input = io::stdin().lock().lines();
    for place in 1.. {
        if terminal {
            let _ = write!(io::stderr(), "whatif> ");
        }
        let line = match input.next() {
            Some(line) => line.map_err(|error| unreadable(&format!("line {}", place), error))?,
            None => break,
        };
        let said = line.split('#').next().unwrap_or_default();
        if said.trim().is_empty() {
            continue;
        }
        match session.tell(said) {
            Ok(sheet) => teller.put(&sheet)?,
            Err(message) if terminal => complain(&message),
            Err(message) => return Err(unreadable(&format!("line {}", place), message)),
        }
    }
    if terminal {
        let _ = writeln!(io::stderr());
    }
    Ok(())
}

extern "C" {
    fn isatty(file: i32) -> i32;
}

fn is_terminal() -> bool {
    // It takes any number, and looks at nothing else.
    unsafe { isatty(0) == 1 }
}
