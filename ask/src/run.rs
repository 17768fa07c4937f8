//! Each use carried out.
mod changes;
mod curves;
mod listing;
mod multicast;
mod reading;
mod watching;

use crate::arguments::Options;
use crate::asker::Asker;
use crate::board::Board;
use crate::failure::Failure;
use crate::told::{Facts, Teller};
use crate::uses::Use;
use cruachvel::{Learned, Refusal, VariableNumber};
use suite::whatif::bytes::hex;
use suite::whatif::json;

pub struct Run<'a> {
    pub asker: Asker,
    pub teller: &'a mut Teller,
    pub board: Option<Board>,
    pub options: &'a Options,
    pub multicast: bool,
}

// What there is to learn before a request, and to hold against the board file.
#[derive(Clone, Copy, PartialEq, Eq)]
enum Needed {
    Variables,
    Group(usize),
    Curves,
    Functions,
}

// What there is to learn for a use, and whether its replies can't be read without; else it is learned only to be held against a board file.
fn needed(wanted: &Use) -> Option<(Needed, bool)> {
    match wanted {
        Use::List | Use::Version => None,
        Use::Read(_) | Use::Watch(_) | Use::WriteRead { .. } => Some((Needed::Variables, true)),
        Use::Write(_) | Use::Mask(..) | Use::MakeGroup(_) | Use::RemoveGroups => {
            Some((Needed::Variables, false))
        }
        Use::Group(group) => Some((Needed::Group(*group), true)),
        Use::WriteGroup(group, _) | Use::MaskGroup(group, ..) => {
            Some((Needed::Group(*group), false))
        }
        Use::Block(..) | Use::Download(..) | Use::Upload(..) | Use::Sum(_) => {
            Some((Needed::Curves, true))
        }
        Use::WriteBlock(..) | Use::Renew(_) => Some((Needed::Curves, false)),
        Use::Run(..) => Some((Needed::Functions, true)),
    }
}

fn named(sort: &'static str, number: usize) -> Facts {
    vec![(sort, number.to_string())]
}

fn text_fact(bytes: &[u8]) -> String {
    json::string(&hex(bytes))
}

fn numbers(list: impl Iterator<Item = usize>) -> String {
    let words: Vec<String> = list.map(|number| number.to_string()).collect();
    words.join(" ")
}

fn array(list: impl Iterator<Item = usize>) -> String {
    json::array(list.map(|number| number.to_string()))
}

impl Run<'_> {
    pub fn carry_out(&mut self, wanted: &Use) -> Result<(), Failure> {
        if self.multicast {
            return self.tell_all(wanted);
        }
        if let Some((needed, always)) = needed(wanted) {
            if always || self.board.is_some() {
                self.learn(needed)?;
            }
        }
        match wanted {
            Use::List => self.list(),
            Use::Version => self.version(),
            Use::Read(variables) => self.read(variables),
            Use::Watch(variables) => self.watch(variables),
            Use::Group(group) => self.group(*group),
            Use::WriteRead {
                written,
                read,
                value,
            } => self.write_read(*written, *read, value),
            Use::MakeGroup(variables) => self.make_group(variables),
            Use::Block(curve, block) => self.block(*curve, *block),
            Use::Download(curve, file) => self.download(*curve, file),
            Use::Upload(curve, file) => self.upload(*curve, file),
            Use::Sum(curve) => self.sum(*curve),
            Use::Run(function, input) => self.run(*function, input),
            Use::Write(_)
            | Use::WriteGroup(..)
            | Use::Mask(..)
            | Use::MaskGroup(..)
            | Use::RemoveGroups
            | Use::WriteBlock(..)
            | Use::Renew(_) => self.changes(wanted),
        }
    }

    fn learn(&mut self, needed: Needed) -> Result<(), Failure> {
        let (asker, teller) = (&mut self.asker, &mut *self.teller);
        asker.learn_variables(teller)?;
        match needed {
            Needed::Variables => (),
            Needed::Group(group) => asker.learn_group(teller, group)?,
            Needed::Curves => asker.learn_curves(teller)?,
            Needed::Functions => asker.learn_functions(teller)?,
        }
        self.held(|board, learned| match needed {
            Needed::Curves => board.other_curves(learned),
            Needed::Functions => board.other_functions(learned),
            Needed::Variables | Needed::Group(_) => None,
        })
    }

    // Holds the variables that were learned against the board file, and what else is said.
    fn held(&self, also: impl Fn(&Board, &Learned) -> Option<String>) -> Result<(), Failure> {
        let (board, gateway) = match &self.board {
            Some(board) => (board, &self.asker.gateway),
            None => return Ok(()),
        };
        let learned = &gateway.learned;
        let variables = board.other_variables(learned);
        if let Some(other) = variables.or_else(|| also(board, learned)) {
            return Err(Failure::OtherBoard(other));
        }
        // A kind that doesn't go with its size spoils the readings of all.
        let first = vec![0; learned.sizes[0].into()];
        match gateway.number(VariableNumber(0), &first) {
            Err(refusal @ Refusal::BoardUnusable) => {
                let number = refusal.number();
                let message = format!("its kinds are refused with {}, {}", number, refusal);
                Err(Failure::Broken(format!("{}: {}", board.name, message)))
            }
            _ => Ok(()),
        }
    }
}
