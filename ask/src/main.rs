//! ask: asks a BSMP node on a serial line; help.txt says what it takes.
//!
//! Requests are written and replies judged by the proved library. Here is what 01 leaves to others: the line, waiting, asking again, and words.
mod arguments;
mod asker;
mod board;
mod failure;
mod framing;
mod line;
mod run;
mod termios;
mod told;
mod uses;
mod values;

use arguments::{usage, wanted, Asking, Wanted, HELP};
use asker::Asker;
use board::Board;
use cruachvel::Gateway;
use failure::Failure;
use line::Line;
use run::Run;
use std::process::exit;
use suite::whatif::json;
use told::{complain, put, Teller};

fn main() {
    let ended = match wanted(std::env::args_os().skip(1)) {
        Ok(Wanted::Help) => put(HELP.trim_end()),
        Ok(Wanted::Version) => put(concat!("ask ", env!("CARGO_PKG_VERSION"))),
        Ok(Wanted::Asking(asking)) => ask(&asking),
        Err(message) => Err(Failure::Misused(format!("{}\n{}", message, usage()))),
    };
    if let Err(failure) = ended {
        complain(&failure.message());
        exit(failure.status());
    }
}

fn ask(asking: &Asking) -> Result<(), Failure> {
    let head = vec![
        ("use", json::string(asking.wanted.name())),
        ("address", asking.address.to_string()),
    ];
    let mut teller = Teller::new(asking.options.json, asking.options.quiet, head);
    let ended = carry_out(asking, &mut teller);
    if let Err(failure) = &ended {
        teller.failed(failure)?;
    }
    ended
}

fn carry_out(asking: &Asking, teller: &mut Teller) -> Result<(), Failure> {
    let options = &asking.options;
    let board = options.board.as_deref().map(Board::read).transpose();
    let board = board.map_err(Failure::Broken)?;
    let line = Line::open(&asking.device, &options.settings).map_err(Failure::Broken)?;
    let mut gateway = Gateway::new(asking.address);
    gateway.kinds = board.as_ref().map(Board::kinds).unwrap_or_default();
    let mut run = Run {
        asker: Asker::new(line, gateway, options),
        teller,
        board,
        options,
        multicast: asking.address >= 248,
    };
    run.carry_out(&asking.wanted)
}
