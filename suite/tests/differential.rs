//! The proved node and the second node agree on random boards and calls, in all that a call leaves, and nothing that 01 names is missing
//! from those calls. SUITE_SEED sets the seed.
use std::process::{Child, Stdio};
use suite::differ::Differ;
use suite::run::program;

const CALLS_EACH: &str = "1000000";

fn seed() -> u64 {
    let text = std::env::var("SUITE_SEED").unwrap_or_else(|_| "20260401".to_string());
    let number = text.parse();
    number.unwrap_or_else(|_| panic!("SUITE_SEED is \"{}\" and not a number", text))
}

// In a program of its own: an emulator runs one with a single thread much faster.
fn start(seed: u64) -> Child {
    let mut differ = program(env!("CARGO_BIN_EXE_differ"));
    differ.args(["--seed", &seed.to_string(), "--calls", CALLS_EACH, "--all"]);
    let started = differ.stdout(Stdio::piped()).spawn();
    started.unwrap_or_else(|error| panic!("the differ can't be started: {}", error))
}

#[test]
fn both_nodes_agree() {
    let seed = seed();
    let runs = [start(seed), start(seed.wrapping_add(1))];
    for run in runs {
        let output = run.wait_with_output().expect("it was started");
        let text = String::from_utf8_lossy(&output.stdout);
        println!("{}", text);
        assert!(output.status.success(), "{}: {}", output.status, text);
        let agreed = format!("{} calls agree", CALLS_EACH);
        assert!(text.lines().any(|line| line == agreed), "{}", text);
    }
}

fn digest(seed: u64, calls: u64) -> Option<u64> {
    let mut differ = Differ::with_digest(seed);
    if let Err(difference) = differ.run(calls) {
        panic!("{}", difference);
    }
    differ.digest()
}

#[test]
fn the_digest_tells_runs_apart() {
    let one = digest(seed(), 1000);
    assert!(one.is_some());
    assert_eq!(one, digest(seed(), 1000));
    assert_ne!(one, digest(seed(), 1001));
    assert_ne!(one, digest(seed().wrapping_add(1), 1000));
    assert_eq!(Differ::new(seed()).digest(), None);
}
