//! The arguments of whatif; help.txt says what they are.
use super::call::variables;
use super::HELP;
use std::ffi::{OsStr, OsString};
use std::os::unix::ffi::OsStrExt;

/// What the arguments ask for.
#[derive(Clone, Debug, Default, PartialEq, Eq)]
pub struct Wanted {
    pub help: bool,
    pub version: bool,
    pub board: Option<OsString>,
    pub busy: Option<u64>,
    pub sum: bool,
    pub json: bool,
    pub replies: Vec<String>,
    /// What the replies are answers to.
    pub request: Option<String>,
    /// Lines, each with the place of its argument, from 1.
    pub lines: Vec<(usize, String)>,
}

/// What the arguments ask for, or what is wrong with them. After help or version nothing is looked at.
pub fn wanted(arguments: impl Iterator<Item = OsString>) -> Result<Wanted, String> {
    let mut wanted = Wanted::default();
    let mut arguments = arguments.enumerate();
    while let Some((place, argument)) = arguments.next() {
        if !argument.as_bytes().starts_with(b"-") {
            let line = argument.to_string_lossy().into_owned();
            wanted.lines.push((place + 1, line));
            continue;
        }
        let (name, attached) = cut(&argument);
        let mut option = Named {
            name: name.to_string_lossy().into_owned(),
            attached,
        };
        wanted.take(&mut option, || arguments.next().map(|(_, next)| next))?;
        option.end()?;
        if wanted.help || wanted.version {
            return Ok(wanted);
        }
    }
    let short = |(_, line): &(usize, String)| line.len() <= 2;
    if wanted.lines.len() > 1 && wanted.lines.iter().all(short) {
        return Err("each argument is a whole line: put it in quotes".to_string());
    }
    if wanted.request.is_some() && wanted.replies.is_empty() {
        return Err("--request takes a --reply beside it".to_string());
    }
    Ok(wanted)
}

/// What is said after a mistake in the arguments: the first line of the help.
pub fn usage() -> &'static str {
    HELP.lines().next().unwrap_or_default()
}

// --name=operand as its name and its operand.
fn cut(argument: &OsStr) -> (&OsStr, Option<OsString>) {
    let bytes = argument.as_bytes();
    match bytes.iter().position(|byte| *byte == b'=') {
        None => (argument, None),
        Some(place) => {
            let operand = OsStr::from_bytes(&bytes[place + 1..]).to_os_string();
            (OsStr::from_bytes(&bytes[..place]), Some(operand))
        }
    }
}

// An option, with the operand that is attached to it until it is taken.
struct Named {
    name: String,
    attached: Option<OsString>,
}

impl Named {
    fn operand(&mut self, next: impl FnOnce() -> Option<OsString>) -> Result<OsString, String> {
        let operand = self.attached.take().or_else(next);
        operand.ok_or_else(|| format!("{} takes something after it", self.name))
    }

    fn end(&self) -> Result<(), String> {
        match self.attached {
            None => Ok(()),
            Some(_) => Err(format!("{} takes nothing after it", self.name)),
        }
    }
}

impl Wanted {
    fn take(
        &mut self,
        option: &mut Named,
        next: impl FnOnce() -> Option<OsString>,
    ) -> Result<(), String> {
        match option.name.as_str() {
            "--help" | "-h" => self.help = true,
            "--version" => self.version = true,
            "--sum" => self.sum = true,
            "--json" => self.json = true,
            "--board" => self.board = Some(option.operand(next)?),
            "--busy" => {
                let busy = variables(&option.operand(next)?.to_string_lossy());
                self.busy = Some(busy.map_err(|message| format!("--busy: {}", message))?);
            }
            "--reply" => {
                let reply = option.operand(next)?.to_string_lossy().into_owned();
                self.replies.push(reply);
            }
            "--request" => {
                let request = option.operand(next)?.to_string_lossy().into_owned();
                self.request = Some(request);
            }
            name => return Err(format!("{} is no option", name)),
        }
        Ok(())
    }
}
