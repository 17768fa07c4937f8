//! What the page says of itself, and the questions of docs/what-if.cases with the lines that whatif runs for them.
use suite::cases::{parse, Act, Case};
use suite::lent::members;
use suite::whatif::call::{Call, Line};
use suite::whatif::json::{array, object, string};
use suite::whatif::things::listed;
use suite::whatif::{HELP, VERSION};

const CASES: &str = include_str!("../../docs/what-if.cases");
const BOARD_FILES: &str = include_str!("../../docs/BOARD-FILE.md");
// Each with its name and its text.
const BOARDS: &[(&str, &str)] = &include!(concat!(env!("OUT_DIR"), "/boards.rs"));

/// The version, how calls are written, what a board file is, board A, and all boards and questions of the handbook.
pub fn about() -> String {
    let questions = parse(CASES).unwrap_or_default();
    object([
        ("version", string(VERSION)),
        ("calls", array(calls())),
        ("board_files", string(BOARD_FILES)),
        ("board", string(text_of("a"))),
        ("boards", array(BOARDS.iter().map(board))),
        ("questions", array(questions.iter().map(question))),
    ])
}

// How the help writes the calls, and what it says of them.
fn calls() -> impl Iterator<Item = String> {
    let lines = HELP.lines().filter_map(|line| line.strip_prefix("  "));
    lines.filter_map(|line| {
        let keyword = line.split(' ').next()?;
        if !Line::starts(keyword) {
            return None;
        }
        let (form, means) = line.split_once("  ")?;
        Some(object([
            ("keyword", string(keyword)),
            ("form", string(form)),
            ("means", string(means.trim())),
        ]))
    })
}

fn board((name, text): &(&str, &str)) -> String {
    object([("name", string(name)), ("text", string(text))])
}

fn text_of(board: &str) -> &'static str {
    let found = BOARDS.iter().find(|(name, _)| *name == board);
    found.map_or("", |(_, text)| text)
}

fn question(case: &Case) -> String {
    let board = [text_of(&case.board).trim_end(), &case.with.join("\n")].join("\n");
    let says = case.says.iter().map(|(_, sentence)| string(sentence));
    object([
        ("section", string(&case.section)),
        ("question", string(&case.question)),
        ("answer", string(&case.answer.join(" "))),
        ("board", string(board.trim_end())),
        (
            "lines",
            array(lines(&case.acts).iter().map(|line| string(line))),
        ),
        ("says", array(says)),
    ])
}

// The calls as whatif takes them; what is busy is a line of its own wherever it changes.
fn lines(acts: &[Act]) -> Vec<String> {
    let mut lines = Vec::new();
    let mut busy = None;
    for act in acts {
        match act.busy {
            Some(marks) if act.busy != busy => {
                lines.push(format!("busy {}", listed(members(marks))))
            }
            _ => (),
        }
        busy = act.busy;
        lines.push(match &act.call {
            Call::Packet(_) => act.text.clone(),
            call => format!("{} {}", call.words().0, act.text)
                .trim_end()
                .to_string(),
        });
    }
    lines
}
