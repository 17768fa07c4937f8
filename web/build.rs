//! Lists the boards of docs/boards, so that the page has all that the questions name.
use std::path::{Path, PathBuf};
use std::{env, fs};

fn main() {
    let docs = Path::new(env!("CARGO_MANIFEST_DIR")).join("../docs");
    let boards = docs.join("boards");
    let rows: String = files(&boards).iter().map(|path| row(path)).collect();
    let made = Path::new(&env::var_os("OUT_DIR").expect("cargo sets it")).join("boards.rs");
    fs::write(made, format!("[{}]", rows)).expect("OUT_DIR can be written");
    println!("cargo:rerun-if-changed={}", docs.display());
}

fn files(folder: &Path) -> Vec<PathBuf> {
    let entries = fs::read_dir(folder).expect("docs/boards is there");
    let mut files: Vec<PathBuf> = entries
        .map(|entry| entry.expect("it can be listed").path())
        .filter(|path| path.extension() == Some("board".as_ref()))
        .collect();
    files.sort();
    files
}

// A board's name and its text.
fn row(path: &Path) -> String {
    let name = path.file_stem().expect("it has an extension");
    format!("({:?}, include_str!({:?})),", name, path)
}
