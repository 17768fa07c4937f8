//! The cases of docs/what-if.cases: questions about the node, and about a gateway that asks it, each with calls that are run on the proved
//! code, what they end in, and 01's sentence. docs/WHAT-IF.md is made from them. docs/settled.examples has calls alone.
mod asking;
mod file;
mod nodes;
mod page;
mod run;
mod table;

pub use crate::whatif::ended::proved;
pub use file::{examples, parse, Act, Case};
pub use nodes::{second, Node};
pub use page::page;
pub use run::{run, Ran};
pub use table::table;

use crate::whatif::{board_file, quotes, Setting};
use std::collections::BTreeMap;
use std::fs;
use std::path::Path;

/// The folder of the documents, which has the cases, their boards and the page.
pub const DOCS: &str = concat!(env!("CARGO_MANIFEST_DIR"), "/../docs");

/// The board files by name.
pub type Boards = BTreeMap<String, String>;

/// Reads all boards of a folder.
pub fn boards(folder: &Path) -> Result<Boards, String> {
    let lost = |error: std::io::Error| format!("{}: {}", folder.display(), error);
    let mut boards = Boards::new();
    for entry in fs::read_dir(folder).map_err(lost)? {
        let path = entry.map_err(lost)?.path();
        if let (Some(stem), true) = (path.file_stem(), path.extension() == Some("board".as_ref())) {
            boards.insert(stem.to_string_lossy().into_owned(), read(&path)?);
        }
    }
    Ok(boards)
}

pub fn read(path: &Path) -> Result<String, String> {
    fs::read_to_string(path).map_err(|error| format!("{}: {}", path.display(), error))
}

/// The page as the cases of a folder make it, and how many they are; else all that is wrong with them. The sentences of 01 and
/// of its change requests are looked up in their text, if that is given.
pub fn made(docs: &Path, document: Option<&Path>) -> Result<(String, usize), Vec<String>> {
    let (cases, _, ran) = held(docs)?;
    let wrong = match document {
        Some(path) => misquoted(&cases, &read(path).map_err(|message| vec![message])?),
        None => Vec::new(),
    };
    if wrong.is_empty() {
        Ok((page(&cases, &ran), cases.len()))
    } else {
        Err(wrong.into_iter().map(named).collect())
    }
}

/// The cases of a folder as a table in C, with what the proved node makes of them; else all that is wrong with them.
pub fn made_table(docs: &Path) -> Result<String, Vec<String>> {
    let (cases, boards, _) = held(docs)?;
    table(&cases, &boards, proved).map_err(|message| vec![named(message)])
}

fn named(message: String) -> String {
    format!("what-if.cases: {}", message)
}

// Cases with their boards and what each act came to.
type Held = (Vec<Case>, Boards, Vec<Vec<Ran>>);

// The cases of a folder, if all hold on the proved node.
fn held(docs: &Path) -> Result<Held, Vec<String>> {
    let one = |message: String| vec![message];
    let text = read(&docs.join("what-if.cases")).map_err(one)?;
    let cases = parse(&text).map_err(named).map_err(one)?;
    let boards = boards(&docs.join("boards")).map_err(one)?;
    let ran = run_all(&cases, &boards, proved)
        .map_err(|lines| lines.into_iter().map(named).collect::<Vec<String>>())?;
    Ok((cases, boards, ran))
}

/// Whether a page is what the cases make; else the first line that is not.
pub fn same(page: &str, made: &str) -> Result<(), String> {
    if page == made {
        return Ok(());
    }
    let lines = page.lines().chain([""]).zip(made.lines().chain([""]));
    let place = lines.take_while(|(old, new)| old == new).count() + 1;
    Err(format!(
        "WHAT-IF.md: line {} is not what the cases make; run cases write",
        place
    ))
}

impl Case {
    /// The board that the case starts from.
    pub fn setting(&self, boards: &Boards) -> Result<Setting, String> {
        let name = &self.board;
        let text = boards
            .get(name)
            .ok_or_else(|| format!("there is no board {}", name))?;
        let whole = [text.trim_end(), &self.with.join("\n")].join("\n");
        board_file::parse(&whole).map_err(|mistake| format!("board {}: {}", name, mistake))
    }
}

/// Runs all cases on a node: what each act came to, or everything that is wrong with them.
pub fn run_all(cases: &[Case], boards: &Boards, node: Node) -> Result<Vec<Vec<Ran>>, Vec<String>> {
    let (mut all, mut wrong) = (Vec::new(), Vec::new());
    for case in cases {
        match run(case, boards, node) {
            Ok(ran) => all.push(ran),
            Err(lines) => wrong.extend(lines),
        }
    }
    if wrong.is_empty() {
        Ok(all)
    } else {
        Err(wrong)
    }
}

/// The sentences that the cases quote, and those that whatif does, as far as they stand neither in 01 nor in its change requests.
pub fn misquoted(cases: &[Case], document: &str) -> Vec<String> {
    let plain = |text: &str| text.split_whitespace().collect::<Vec<&str>>().join(" ");
    let document = plain(document);
    let missing = |quote: &str| !document.contains(&plain(quote));
    let of_cases = cases
        .iter()
        .flat_map(|case| &case.says)
        .filter(|(_, quote)| missing(quote));
    let of_cases =
        of_cases.map(|(line, quote)| format!("line {}: 01 doesn't say: {}", line, quote));
    let of_whatif = quotes().into_iter().filter(|quote| missing(quote));
    let of_whatif = of_whatif.map(|quote| format!("whatif quotes what 01 doesn't say: {}", quote));
    of_cases.chain(of_whatif).collect()
}
