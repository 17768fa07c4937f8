//! The arguments; help.txt says what they are.
use crate::line::{Parity, Settings, SPEEDS};
use crate::uses::Use;
use std::ffi::{OsStr, OsString};
use std::os::unix::ffi::OsStrExt;
use std::time::Duration;

pub const HELP: &str = include_str!("help.txt");

/// The options, as far as they were given.
#[derive(Clone, Debug, PartialEq, Eq)]
pub struct Options {
    pub board: Option<OsString>,
    pub settings: Settings,
    pub timeout: Duration,
    pub retries: u32,
    pub silence: Duration,
    pub gap: Duration,
    pub every: Option<Duration>,
    pub count: Option<u64>,
    pub json: bool,
    pub quiet: bool,
}

impl Options {
    fn new() -> Options {
        Options {
            board: None,
            settings: Settings {
                baud: 115200,
                parity: Parity::None,
                stop: 1,
            },
            timeout: Duration::from_millis(500),
            retries: 2,
            silence: Duration::from_millis(50),
            gap: Duration::from_millis(2),
            every: None,
            count: None,
            json: false,
            quiet: false,
        }
    }
}

/// What the arguments ask for.
#[derive(Clone, Debug, PartialEq, Eq)]
pub enum Wanted {
    Help,
    Version,
    Asking(Box<Asking>),
}

#[derive(Clone, Debug, PartialEq, Eq)]
pub struct Asking {
    pub options: Options,
    pub device: OsString,
    pub address: u8,
    pub wanted: Use,
}

/// What the arguments ask for, or what is wrong with them. After help or version nothing is looked at.
pub fn wanted(arguments: impl Iterator<Item = OsString>) -> Result<Wanted, String> {
    let (mut options, mut words) = (Options::new(), Vec::new());
    let mut arguments = arguments;
    while let Some(argument) = arguments.next() {
        if !is_option(&argument) {
            words.push(argument);
            continue;
        }
        let (name, mut attached) = cut(&argument);
        match name.as_str() {
            "--help" | "-h" => return Ok(Wanted::Help),
            "--version" => return Ok(Wanted::Version),
            "--json" => options.json = true,
            "--quiet" => options.quiet = true,
            _ if options.takes(&name) => {
                let operand = attached.take().or_else(|| arguments.next());
                let operand =
                    operand.ok_or_else(|| format!("{} takes something after it", name))?;
                options.set(&name, operand)?;
            }
            _ => return Err(format!("{} is no option", name)),
        }
        if attached.is_some() {
            return Err(format!("{} takes nothing after it", name));
        }
    }
    asking(options, words)
}

/// What is said after a mistake in the arguments: the first line of the help.
pub fn usage() -> &'static str {
    HELP.lines().next().unwrap_or_default()
}

fn asking(options: Options, words: Vec<OsString>) -> Result<Wanted, String> {
    let mut words = words.into_iter();
    let device = words.next().ok_or("the device is missing")?;
    let address = text(words.next().ok_or("the node's address is missing")?);
    let number = whole(&address).and_then(|number| u8::try_from(number).ok());
    let number = number.ok_or_else(|| {
        format!(
            "an address is 1 to 31, or 248 to 255 for a multicast, and not {:?}",
            address
        )
    })?;
    let wanted = Use::of(words.collect())?;
    let watches = matches!(wanted, Use::Watch(_));
    if !watches && (options.every.is_some() || options.count.is_some()) {
        return Err("--every and --count are for watch alone".to_string());
    }
    Ok(Wanted::Asking(Box::new(Asking {
        options,
        device,
        address: number,
        wanted,
    })))
}

// -3 is a number.
fn is_option(argument: &OsStr) -> bool {
    match *argument.as_bytes() {
        [b'-', next, ..] => !next.is_ascii_digit(),
        [b'-'] => true,
        _ => false,
    }
}

// --name=operand as its name and its operand.
fn cut(argument: &OsStr) -> (String, Option<OsString>) {
    let bytes = argument.as_bytes();
    let end = bytes.iter().position(|byte| *byte == b'=');
    let name = OsStr::from_bytes(&bytes[..end.unwrap_or(bytes.len())]);
    let operand = end.map(|end| OsStr::from_bytes(&bytes[end + 1..]).to_os_string());
    (name.to_string_lossy().into_owned(), operand)
}

pub fn text(word: OsString) -> String {
    word.to_string_lossy().into_owned()
}

/// A number in decimal, or in hex after 0x.
pub fn whole(word: &str) -> Option<usize> {
    match word.strip_prefix("0x").or_else(|| word.strip_prefix("0X")) {
        Some(digits) if digits.starts_with('+') => None,
        Some(digits) => usize::from_str_radix(digits, 16).ok(),
        None if word.starts_with('+') => None,
        None => word.parse().ok(),
    }
}

impl Options {
    fn takes(&self, name: &str) -> bool {
        const TAKE: [&str; 9] = [
            "--board",
            "--baud",
            "--parity",
            "--stop",
            "--timeout",
            "--retries",
            "--silence",
            "--gap",
            "--every",
        ];
        TAKE.contains(&name) || name == "--count"
    }

    fn set(&mut self, name: &str, operand: OsString) -> Result<(), String> {
        let word = operand.to_string_lossy().into_owned();
        let wrong = |what: &str| Err(format!("{} {:?}: {}", name, word, what));
        let number = whole(&word);
        match name {
            "--board" => self.board = Some(operand),
            "--baud" => match SPEEDS.iter().find(|speed| Some(**speed as usize) == number) {
                Some(speed) => self.settings.baud = *speed,
                None => return wrong("not a speed in baud that a serial line has"),
            },
            "--parity" => {
                self.settings.parity = match word.as_str() {
                    "none" => Parity::None,
                    "even" => Parity::Even,
                    "odd" => Parity::Odd,
                    _ => return wrong("the parity is none, even or odd"),
                }
            }
            "--stop" => match number {
                Some(1) => self.settings.stop = 1,
                Some(2) => self.settings.stop = 2,
                _ => return wrong("there are 1 or 2 stop bits"),
            },
            "--retries" => match number.and_then(|number| u32::try_from(number).ok()) {
                Some(number) if number <= 1000 => self.retries = number,
                _ => return wrong("not a number from 0 to 1000"),
            },
            "--count" => match number {
                Some(number) if number > 0 => self.count = Some(number as u64),
                _ => return wrong("not a number from 1 on"),
            },
            "--every" => match duration(&word) {
                Some(every) => self.every = Some(every),
                None => return wrong("a time is a number of ms, s or m, such as 250ms, 1s or 5m"),
            },
            _ => {
                let least = usize::from(name != "--gap");
                let time = match number {
                    Some(number) if (least..=60_000).contains(&number) => {
                        Duration::from_millis(number as u64)
                    }
                    _ => {
                        let range = format!("not a number of milliseconds from {} to 60000", least);
                        return wrong(&range);
                    }
                };
                match name {
                    "--timeout" => self.timeout = time,
                    "--silence" => self.silence = time,
                    _ => self.gap = time,
                }
            }
        }
        Ok(())
    }
}

fn duration(word: &str) -> Option<Duration> {
    let digits = word.find(|letter: char| !letter.is_ascii_digit())?;
    let (number, unit) = word.split_at(digits);
    let milliseconds = match unit {
        "ms" => 1,
        "s" => 1000,
        "m" => 60_000,
        _ => return None,
    };
    let number: u32 = number.parse().ok()?;
    Some(Duration::from_millis(u64::from(number) * milliseconds))
}

#[cfg(test)]
mod tests {
    use super::*;

    fn of(words: &str) -> Result<Wanted, String> {
        wanted(words.split_whitespace().map(OsString::from))
    }

    fn asking(words: &str) -> Asking {
        match of(words) {
            Ok(Wanted::Asking(asking)) => *asking,
            other => panic!("{:?}", other),
        }
    }

    #[test]
    fn options_may_stand_anywhere_and_numbers_may_be_negative() {
        let asked = asking("--baud 9600 /dev/x 5 write --parity=even 0 -3 --stop 2");
        assert_eq!(asked.wanted, Use::Write(vec![(0, "-3".to_string())]));
        let settings = Settings {
            baud: 9600,
            parity: Parity::Even,
            stop: 2,
        };
        assert_eq!((asked.address, asked.options.settings), (5, settings));
        let watched = asking("x 0x1F watch 0 1 --every 250ms --count 3").options;
        assert_eq!(watched.every, Some(Duration::from_millis(250)));
        assert_eq!(watched.count, Some(3));
    }

    #[test]
    fn what_is_wrong_is_said() {
        let wrong = [
            ("", "the device is missing"),
            ("/dev/x", "the node's address is missing"),
            (
                "x 256 list",
                "an address is 1 to 31, or 248 to 255 for a multicast, and not \"256\"",
            ),
            ("x 5", "what to do is missing"),
            (
                "x 5 list --every 1s",
                "--every and --count are for watch alone",
            ),
            (
                "x 5 list --baud 12345",
                "--baud \"12345\": not a speed in baud that a serial line has",
            ),
            (
                "x 5 list --timeout 0",
                "--timeout \"0\": not a number of milliseconds from 1 to 60000",
            ),
            (
                "x 5 watch 0 --every 1",
                "--every \"1\": a time is a number of ms, s or m, such as 250ms, 1s or 5m",
            ),
            ("x 5 list --retries", "--retries takes something after it"),
            ("x 5 list --json=1", "--json takes nothing after it"),
            ("x 5 list --fast", "--fast is no option"),
        ];
        for (words, message) in wrong {
            assert_eq!(of(words), Err(message.to_string()), "{}", words);
        }
    }

    #[test]
    fn the_help_has_every_option() {
        let options = Options::new();
        let lines = HELP.lines().filter_map(|line| line.strip_prefix("  --"));
        for line in lines {
            let name = format!("--{}", line.split(' ').next().unwrap_or_default());
            let plain = ["--json", "--quiet", "--version", "--help"];
            let takes = line.split(' ').nth(1) != Some("");
            assert_eq!(options.takes(&name), takes, "{}", name);
            assert!(takes || plain.contains(&name.as_str()), "{}", name);
        }
    }
}
