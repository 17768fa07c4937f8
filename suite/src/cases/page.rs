//! docs/WHAT-IF.md, made from the cases and from what they came to.
use super::file::{Act, Case};
use super::run::Ran;
use crate::lent::members;
use crate::whatif::bytes::bytes;
use crate::whatif::call::Call;
use crate::whatif::commands::reply_name;
use crate::whatif::packet::Packet;
use crate::whatif::things::{busy_text, listed};
use cruachvel::Refusal;

const HEAD: &str = "# What does the node do if

Questions about the node, each with calls, what the proved code makes of them, and the sentence of 01, or of a change request, that decides.
Bytes are in hex; `00*9` stands for nine of them. Board A is that of 01; the other boards stand in `boards/`, and `BOARD-FILE.md` says how to read them.

The last chapter is about a gateway that asks the node: `ask` is what it is told to send, and where; `hear` a reply to what it asked last. It
has learned the board as it is at first, and has its kinds; `forget` leaves it with nothing. Its numbers are decimal.

This page is made from `what-if.cases` by the program `cases` of the test suite. The tests run every case on the proved code and compare
this page with what it would say today. `tools/whatif` explains any other packet; its commands below are run at the top of the repository.
";

/// The page. There is a list of what came of it for each case.
pub fn page(cases: &[Case], ran: &[Vec<Ran>]) -> String {
    let mut page = HEAD.to_string();
    put_contents(&mut page, cases);
    let mut section = "";
    for (place, (case, ran)) in cases.iter().zip(ran).enumerate() {
        if case.section != section {
            section = &case.section;
            page += &format!("\n## {}\n", section);
        }
        put_case(&mut page, place + 1, case, ran);
    }
    page
}

fn put_contents(page: &mut String, cases: &[Case]) {
    let mut section = "";
    for (place, case) in cases.iter().enumerate() {
        if case.section != section {
            section = &case.section;
            *page += &format!("\n**{}**\n\n", section);
        }
        let heading = format!("{}. {}", place + 1, case.question);
        *page += &format!("- [{}](#{})\n", heading, anchor(&heading));
    }
}

// The name that a heading gets in a rendered page.
fn anchor(heading: &str) -> String {
    let kept = heading
        .chars()
        .filter(|letter| letter.is_alphanumeric() || matches!(letter, ' ' | '-'));
    kept.map(|letter| if letter == ' ' { '-' } else { letter })
        .collect::<String>()
        .to_lowercase()
}

fn put_case(page: &mut String, number: usize, case: &Case, ran: &[Ran]) {
    *page += &format!(
        "\n### {}. {}\n\n{}\n\n",
        number,
        case.question,
        case.answer.join(" ")
    );
    *page += &format!("{}\n", board_line(case));
    *page += "\n| Call | Outcome | After it |\n|---|---|---|\n";
    for (act, ran) in case.acts.iter().zip(ran) {
        *page += &format!(
            "| {} | {} | {} |\n",
            call_text(act),
            outcome_text(act, ran),
            after_text(act, ran)
        );
    }
    if let Some(command) = command(case) {
        *page += &format!("\n    {}\n", command);
    }
    for (_, quote) in &case.says {
        *page += &format!("\n> {}\n", quote);
    }
}

fn board_line(case: &Case) -> String {
    let name = if case.board == "a" {
        "Board A".to_string()
    } else {
        format!("Board [{0}](boards/{0}.board)", case.board)
    };
    let with: Vec<String> = case.with.iter().map(|line| format!("`{}`", line)).collect();
    if with.is_empty() {
        return name + ".";
    }
    format!("{} with {}.", name, with.join(", "))
}

fn call_text(act: &Act) -> String {
    let call = match (act.call.words().0, act.text.as_str()) {
        (keyword, "") => keyword.to_string(),
        (keyword, text) => format!("{} `{}`", keyword, text),
    };
    match act.busy.unwrap_or(0) {
        0 => call,
        busy => format!("{} while {}", call, busy_text(busy)),
    }
}

// The outcome as the case writes it, with the name of its code.
fn outcome_text(act: &Act, ran: &Ran) -> String {
    let said = act
        .expected
        .first()
        .map_or(ran.outcome.as_str(), |(_, said)| said);
    let (keyword, rest) = ran.outcome.split_once(' ').unwrap_or((&ran.outcome, ""));
    let step = ran
        .step
        .map_or(String::new(), |step| format!(", step {}", step));
    match keyword {
        "reply" => {
            let code = bytes(rest).ok().and_then(|reply| Packet(&reply).code());
            format!("`{}`: {}{}", said, code.map_or("", reply_name), step)
        }
        "refused" => {
            let refusal = rest.parse().ok().and_then(Refusal::of);
            let reason = ran.reason.as_ref();
            let reason = reason.map_or(String::new(), |reason| format!("; {}", reason));
            format!(
                "`{}`: {}{}",
                said,
                refusal.map_or("", Refusal::words),
                reason
            )
        }
        _ => format!("`{}`{}", said, step),
    }
}

fn after_text(act: &Act, ran: &Ran) -> String {
    let reads = act
        .expected
        .iter()
        .filter_map(|(_, said)| said.strip_prefix("reads "));
    let reads = reads.filter_map(|reads| reads.split_once(' '));
    let mut lines: Vec<String> = reads
        .map(|(variable, number)| format!("variable {} reads as {}", variable, number))
        .collect();
    match act.call {
        Call::Read { .. } | Call::Write { .. } | Call::Ask(_) => (),
        _ if ran.changes.is_empty() => lines.push("nothing is changed".to_string()),
        _ => lines.extend(ran.changes.iter().cloned()),
    }
    lines.join("; ")
}

// The command that shows the same, where there is one.
fn command(case: &Case) -> Option<String> {
    let busy = case.acts.first()?.busy;
    let simple = |act: &Act| {
        let shown = matches!(
            act.call,
            Call::Packet(_) | Call::Ask(_) | Call::Hear(..) | Call::Forget
        );
        shown && act.busy == busy && !act.text.contains('*')
    };
    if !case.with.is_empty() || busy == Some(0) || !case.acts.iter().all(simple) {
        return None;
    }
    let mut command = "tools/whatif".to_string();
    if case.board != "a" {
        command += &format!(" --board docs/boards/{}.board", case.board);
    }
    if let Some(busy) = busy {
        command += &format!(" --busy {}", listed(members(busy)).replace(' ', ","));
    }
    for act in &case.acts {
        command += &match act.call.words().0 {
            "packet" => format!(" \"{}\"", act.text),
            keyword => format!(" \"{}\"", [keyword, &act.text].join(" ").trim_end()),
        };
    }
    Some(command)
}
