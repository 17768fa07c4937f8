//! Links the proved archives, the node's and the asking side's: from the folder that RATTLE_LIB names, else from where `tools/prove` writes them.
use std::env;
use std::path::{Path, PathBuf};
use std::process::exit;

fn main() {
    println!("cargo:rerun-if-env-changed=RATTLE_LIB");
    let folder = env::var_os("RATTLE_LIB").map_or_else(
        || Path::new(env!("CARGO_MANIFEST_DIR")).join("../target/staticlib"),
        PathBuf::from,
    );
    println!("cargo:rustc-link-search=native={}", folder.display());
    for name in ["bsmp_c", "bsmp_ask"] {
        let archive = folder.join(format!("lib{name}.a"));
        if !archive.is_file() {
            eprintln!(
                "{} is missing: run tools/prove {name}, or set RATTLE_LIB to the archives' folder",
                archive.display()
            );
            exit(1);
        }
        println!("cargo:rerun-if-changed={}", archive.display());
        println!("cargo:rustc-link-lib=static={name}");
    }
    let node = folder.join("libbsmp_c.a");
    println!("cargo:rustc-env=CRUACHVEL_ARCHIVE={}", node.display());
}
