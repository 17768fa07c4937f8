//! Runs a case on a node and holds what it says against what came of it.
use super::file::{expanded, Act, Case};
use super::nodes::Node;
use super::Boards;
use crate::lent::{members, Lent};
use crate::whatif::bytes::hex;
use crate::whatif::call::Call;
use crate::whatif::changes::changes;
use crate::whatif::ended::Came;
use crate::whatif::gateway::known_line;
use crate::whatif::things::{curve, group, listed, value};
use crate::whatif::{rule_of, Rule, Setting};

/// What an act came to.
#[derive(Debug)]
pub struct Ran {
    /// The outcome, as a line of the file says it.
    pub outcome: String,
    /// The step of the wire errors that decided, if one did.
    pub step: Option<u8>,
    /// Why a gateway refused it, if it did.
    pub reason: Option<String>,
    pub changes: Vec<String>,
}

/// Runs a case; else every line of it that is not so.
pub fn run(case: &Case, boards: &Boards, node: Node) -> Result<Vec<Ran>, Vec<String>> {
    let place = |message: String| vec![format!("line {}: {}", case.line, message)];
    let mut setting = case.setting(boards).map_err(place)?;
    let (mut all, mut wrong) = (Vec::new(), Vec::new());
    for act in &case.acts {
        setting.busy = act.busy.unwrap_or(setting.busy);
        let before = setting.clone();
        let came = node(&mut setting, &act.call);
        let rule = rule_of(&act.call, &came, &before);
        let ran = Ran {
            outcome: came.line(),
            step: rule.step(),
            reason: match (rule, &act.call) {
                (Rule::Refusal(_, _, reason), Call::Ask(_) | Call::Hear(..)) => Some(reason),
                _ => None,
            },
            changes: changes(&before, &setting),
        };
        wrong.extend(differences(act, &ran, &setting, node));
        all.push(ran);
    }
    if wrong.is_empty() {
        Ok(all)
    } else {
        Err(wrong)
    }
}

// The lines of an act that are not so, with what is.
fn differences(act: &Act, ran: &Ran, after: &Setting, node: Node) -> Vec<String> {
    if act.expected.is_empty() {
        return vec![format!(
            "line {}: the call has no outcome; it ends in: {}",
            act.line, ran.outcome
        )];
    }
    let mut wrong = Vec::new();
    for (place, (line, said)) in act.expected.iter().enumerate() {
        let so = if place == 0 {
            Some(ran.outcome.clone())
        } else {
            state_line(said, ran, after, node)
        };
        match so {
            Some(so) if Ok(&so) == expanded(said).as_ref() => (),
            Some(so) => wrong.push(format!(
                "line {}: it says {:?}, and it is {:?}",
                line, said, so
            )),
            None => wrong.push(format!("line {}: {:?} can't be found out", line, said)),
        }
    }
    wrong
}

// What a line about the state has to say.
fn state_line(said: &str, ran: &Ran, setting: &Setting, node: Node) -> Option<String> {
    let after = &setting.lent;
    let words: Vec<&str> = said.split_whitespace().collect();
    let place = |word: usize| words.get(word)?.parse::<usize>().ok();
    let tail = match words[0] {
        "step" => {
            return Some(
                ran.step
                    .map_or("no step".to_string(), |step| format!("step {}", step)),
            )
        }
        "unchanged" if ran.changes.is_empty() => return Some("unchanged".to_string()),
        "unchanged" => return Some(ran.changes.join("; ")),
        "group" => {
            let found = group(after, place(1)?);
            found.map_or("none".to_string(), |group| listed(members(group.set)))
        }
        "block" => return block_line(after, place(1)?, place(2)?),
        "length" => {
            let (number, block) = (place(1)?, place(2)?);
            let length = length(after, number, block)?;
            return Some(format!("length {} {} {}", number, block, length));
        }
        "variable" => hex(variable(after, place(1)?)?),
        "sum" => hex(sum(after, place(1)?)?),
        "reads" => number(setting, place(1)?, node)?.to_string(),
        "known" => return known(setting, &words),
        _ => return None,
    };
    Some(
        format!("{} {} {}", words[0], words[1], tail)
            .trim()
            .to_string(),
    )
}

// What the gateway knows: all variables, curves or functions, or a group.
fn known(setting: &Setting, words: &[&str]) -> Option<String> {
    let seen = setting.seen();
    match words {
        ["known", "group", number, ..] => {
            let found = group(&seen, number.parse().ok()?);
            let members = found.map_or("none".to_string(), |group| listed(members(group.set)));
            Some(format!("known group {} {}", number, members))
        }
        ["known", sort, ..] => Some(format!("known {} {}", sort, known_line(&seen, sort)?)),
        _ => None,
    }
}

fn variable(lent: &Lent, number: usize) -> Option<&[u8]> {
    lent.variables.get(number)?;
    Some(value(lent, number))
}

fn sum(lent: &Lent, number: usize) -> Option<&[u8]> {
    curve(lent, number)?;
    Some(lent.sum(number))
}

// The number that a variable's bytes mean to this node.
fn number(setting: &Setting, number: usize, node: Node) -> Option<i128> {
    let bytes = variable(&setting.lent, number)?;
    let read = |signed| {
        let call = Call::Read {
            signed,
            variable: number,
            bytes: bytes.to_vec(),
        };
        match node(&mut setting.clone(), &call) {
            Came::Number(number) => Some(number),
            _ => None,
        }
    };
    read(true).or_else(|| read(false))
}

// What a block holds: as many of its bytes as its length says.
fn block_line(lent: &Lent, number: usize, block: usize) -> Option<String> {
    let start = block.checked_mul(curve(lent, number)?.size)?;
    let length = length(lent, number, block)?;
    let room = lent.curve_room(number).get(start..)?;
    let bytes = room.get(..length.into())?;
    Some(format!("block {} {} {}", number, block, hex(bytes)))
}

fn length(lent: &Lent, number: usize, block: usize) -> Option<u16> {
    lent.curve_lengths(number).get(block).copied()
}
