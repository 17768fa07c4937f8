//! The serial line.
use crate::framing::Framing;
use crate::termios::{self, Termios};
use cruachvel::MOST_PACKET;
use std::ffi::OsStr;
use std::fs::{File, OpenOptions};
use std::io::{self, ErrorKind, Read, Write};
use std::os::unix::fs::OpenOptionsExt;
use std::time::{Duration, Instant};

/// The speeds that a line may have.
pub const SPEEDS: [u32; 16] = [
    1200, 2400, 4800, 9600, 19200, 38400, 57600, 115200, 230400, 460800, 500000, 921600, 1000000,
    2000000, 3000000, 4000000,
];

#[derive(Clone, Copy, Debug, PartialEq, Eq)]
pub enum Parity {
    None,
    Even,
    Odd,
}

/// How a line is to be set. A byte has eight bits.
#[derive(Clone, Copy, Debug, PartialEq, Eq)]
pub struct Settings {
    pub baud: u32,
    pub parity: Parity,
    pub stop: u8,
}

impl Settings {
    // The time of two bytes on the line, with start, parity and stop bits.
    fn two_bytes(&self) -> Duration {
        let bits = 9 + u32::from(self.stop) + u32::from(self.parity != Parity::None);
        Duration::from_secs(2) * bits / self.baud
    }

    fn apply(&self, settings: &mut Termios) -> io::Result<()> {
        termios::make_raw(settings);
        let mut flags = settings.c_cflag;
        flags &= !(termios::CSTOPB | termios::CRTSCTS | termios::PARENB | termios::PARODD);
        flags |= termios::CLOCAL | termios::CREAD;
        if self.stop == 2 {
            flags |= termios::CSTOPB;
        }
        if self.parity != Parity::None {
            flags |= termios::PARENB;
            settings.c_iflag |= termios::INPCK; // a byte whose parity is wrong comes as 0, and the checksum tells
        }
        if self.parity == Parity::Odd {
            flags |= termios::PARODD;
        }
        settings.c_cflag = flags;
        settings.c_cc[termios::VMIN] = 1;
        settings.c_cc[termios::VTIME] = 0;
        termios::set_speed(settings, self.baud)
    }
}

/// An open line. Its settings are put back in the end.
pub struct Line {
    name: String,
    file: File,
    before: Termios,
    two_bytes: Duration,
}

impl Line {
    /// Opens a line; else what is wrong with it.
    pub fn open(device: &OsStr, settings: &Settings) -> Result<Line, String> {
        let name = device.to_string_lossy().into_owned();
        let named = |error: io::Error| format!("{}: {}", name, plain(&error));
        let file = OpenOptions::new()
            .read(true)
            .write(true)
            .custom_flags(termios::O_NOCTTY | termios::O_NONBLOCK)
            .open(device)
            .map_err(named)?;
        let before =
            termios::settings(&file).map_err(|_| format!("{}: it is no serial line", name))?;
        termios::lock(&file).map_err(|error| match error.kind() {
            ErrorKind::WouldBlock => format!("{}: another ask is using it", name),
            _ => named(error),
        })?;
        let mut raw = before;
        let set = settings.apply(&mut raw);
        set.and_then(|()| termios::set(&file, termios::TCSAFLUSH, &raw))
            .map_err(|error| {
                let reason = plain(&error);
                format!(
                    "{}: can't be set to {} baud: {}",
                    name, settings.baud, reason
                )
            })?;
        Ok(Line {
            name,
            file,
            before,
            two_bytes: settings.two_bytes(),
        })
    }

    /// Drops what comes until the line has been silent for so long; an error if that takes as long as `most`.
    pub fn drain(&mut self, silence: Duration, most: Duration) -> Result<(), String> {
        let end = Instant::now() + silence + most;
        let mut silent_since = Instant::now();
        let mut dropped = [0; 4096];
        loop {
            let silent = silent_since.elapsed();
            if silent >= silence {
                return Ok(());
            }
            if self.read(&mut dropped, silence - silent)? > 0 {
                silent_since = Instant::now();
            }
            if Instant::now() > end {
                let silence = silence.as_millis();
                let name = &self.name;
                return Err(format!(
                    "{}: the line is never silent for {} ms: something else is sending",
                    name, silence
                ));
            }
        }
    }

    /// Sends a packet, and waits until it has left.
    pub fn send(&mut self, packet: &[u8]) -> Result<(), String> {
        let mut rest = packet;
        while !rest.is_empty() {
            match self.file.write(rest) {
                Ok(count) => rest = &rest[count..],
                Err(error) if is_for_later(&error) => {
                    self.wait(termios::POLLOUT, Duration::from_secs(1))?;
                }
                Err(error) => return Err(self.broken(&error)),
            }
        }
        termios::drained(&self.file).map_err(|error| self.broken(&error))
    }

    /// What comes in reply to a request: nothing, if the first byte doesn't come within `first`; else all up to a silence, or until a packet is
    /// whole by its SIZE.
    pub fn receive(
        &mut self,
        request: &[u8],
        first: Duration,
        silence: Duration,
    ) -> Result<Vec<u8>, String> {
        let (mut framing, mut piece) = (Framing::new(request), [0; MOST_PACKET]);
        let end = Instant::now() + first;
        loop {
            let left = match framing.is_empty() {
                true => end.saturating_duration_since(Instant::now()),
                false => silence + self.two_bytes,
            };
            let count = self.read(&mut piece, left)?;
            framing.take(&piece[..count]);
            let early = framing.is_empty() && Instant::now() < end;
            if framing.is_whole() || (count == 0 && !early) {
                return Ok(framing.bytes());
            }
        }
    }

    // Reads what comes within this time; nothing if nothing does.
    fn read(&mut self, bytes: &mut [u8], most: Duration) -> Result<usize, String> {
        let end = Instant::now() + most;
        loop {
            match self.file.read(bytes) {
                Ok(0) => return Err(format!("{}: the line hung up", self.name)),
                Ok(count) => return Ok(count),
                Err(error) if is_for_later(&error) => (),
                Err(error) => return Err(self.broken(&error)),
            }
            let left = end.saturating_duration_since(Instant::now());
            if left == Duration::ZERO {
                return Ok(0);
            }
            self.wait(termios::POLLIN, left)?;
        }
    }

    // Reading or writing then tells what it was that came.
    fn wait(&self, events: i16, most: Duration) -> Result<(), String> {
        let milliseconds = most.as_micros().saturating_add(999) / 1000;
        let milliseconds = i32::try_from(milliseconds).unwrap_or(i32::MAX);
        match termios::wait(&self.file, events, milliseconds) {
            Ok(_) => Ok(()),
            Err(error) if is_for_later(&error) => Ok(()),
            Err(error) => Err(self.broken(&error)),
        }
    }

    fn broken(&self, error: &io::Error) -> String {
        const EIO: i32 = 5;
        match error.raw_os_error() {
            Some(EIO) => format!("{}: the line hung up", self.name),
            _ => format!("{}: {}", self.name, plain(error)),
        }
    }
}

impl Drop for Line {
    fn drop(&mut self) {
        // Where that can't be done, there is nobody to tell.
        let _ = termios::set(&self.file, termios::TCSADRAIN, &self.before);
    }
}

fn is_for_later(error: &io::Error) -> bool {
    matches!(error.kind(), ErrorKind::WouldBlock | ErrorKind::Interrupted)
}

/// An error without its number.
pub fn plain(error: &io::Error) -> String {
    let text = error.to_string();
    match text.split_once(" (os error") {
        Some((words, _)) => words.to_string(),
        None => text,
    }
}
