//! cases write|check|table: makes docs/WHAT-IF.md from docs/what-if.cases, or checks that it is what would be made, or prints the cases as a
//! table in C for ctest/cases.c.
//!
//! Each runs every case on the proved code first and says which lines are not so. If DOCUMENT_01 names the text of 01 with that of
//! its change requests, the sentences that are quoted from them are looked up there.
use std::fs;
use std::path::Path;
use std::process::exit;
use suite::cases::{made, made_table, read, same, DOCS};

fn main() {
    let arguments: Vec<_> = std::env::args_os().skip(1).collect();
    let done = match arguments.as_slice() {
        [word] if word == "write" => page(true),
        [word] if word == "check" => page(false),
        [word] if word == "table" => made_table(Path::new(DOCS)),
        _ => {
            eprintln!("usage: cases write|check|table");
            exit(2);
        }
    };
    match done {
        Ok(message) => println!("{}", message),
        Err(lines) => {
            lines.iter().for_each(|line| eprintln!("{}", line));
            exit(1);
        }
    }
}

fn page(writes: bool) -> Result<String, Vec<String>> {
    let docs = Path::new(DOCS);
    let document = std::env::var_os("DOCUMENT_01");
    let (page, count) = made(docs, document.as_ref().map(Path::new))?;
    let path = docs.join("WHAT-IF.md");
    if writes {
        fs::write(&path, page).map_err(|error| vec![format!("{}: {}", path.display(), error)])?;
        return Ok(format!("{} cases written", count));
    }
    let text = read(&path).map_err(|message| vec![message])?;
    same(&text, &page).map_err(|message| vec![message])?;
    Ok(format!("{} cases hold", count))
}
