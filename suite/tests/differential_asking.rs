//! The proved asking side and the second one agree on random boards, requests and replies, in all that they write, hear and learn, and hear
//! what the board holds; nothing that 01 and 02 name is missing from those exchanges. SUITE_SEED sets the seed.
use std::process::{Child, Stdio};
use suite::differ_asking::DifferAsking;
use suite::run::program;

const EXCHANGES_EACH: u64 = 1_000_000;

fn seed() -> u64 {
    let text = std::env::var("SUITE_SEED").unwrap_or_else(|_| "20260404".to_string());
    let number = text.parse();
    number.unwrap_or_else(|_| panic!("SUITE_SEED is \"{}\" and not a number", text))
}

// In a program of its own: an emulator runs one with a single thread much faster.
fn start(seed: u64) -> Child {
    let mut differ = program(env!("CARGO_BIN_EXE_differ_asking"));
    let [seed, exchanges] = [seed, EXCHANGES_EACH].map(|number| number.to_string());
    differ.args(["--seed", &seed, "--exchanges", &exchanges, "--all"]);
    let started = differ.stdout(Stdio::piped()).spawn();
    started.unwrap_or_else(|error| panic!("the differ can't be started: {}", error))
}

// How many exchanges a line says to agree.
fn agreed(line: &str) -> Option<u64> {
    line.strip_suffix(" exchanges agree")?.parse().ok()
}

#[test]
fn both_asking_sides_agree() {
    let seed = seed();
    let runs = [start(seed), start(seed.wrapping_add(1))];
    for run in runs {
        let output = run.wait_with_output().expect("it was started");
        let text = String::from_utf8_lossy(&output.stdout);
        println!("{}", text);
        assert!(output.status.success(), "{}: {}", output.status, text);
        let agreed = text.lines().filter_map(agreed).max();
        assert!(agreed >= Some(EXCHANGES_EACH), "{}", text);
    }
}

fn digest(seed: u64, exchanges: u64) -> Option<u64> {
    let mut differ = DifferAsking::with_digest(seed);
    if let Err(difference) = differ.run(exchanges) {
        panic!("{}", difference);
    }
    differ.digest()
}

#[test]
fn the_digest_tells_runs_apart() {
    let one = digest(seed(), 1000);
    assert!(one.is_some());
    assert_eq!(one, digest(seed(), 1000));
    assert_ne!(one, digest(seed(), 1100));
    assert_ne!(one, digest(seed().wrapping_add(1), 1000));
    assert_eq!(DifferAsking::new(seed()).digest(), None);
}

#[test]
fn what_was_not_met_is_named() {
    let mut differ = DifferAsking::new(seed());
    let nothing = differ.tally.not_met().len();
    assert!(nothing > 100, "{} things", nothing);
    differ
        .run(1)
        .unwrap_or_else(|difference| panic!("{}", difference));
    let not_met = differ.tally.not_met();
    assert!(not_met.len() < nothing);
    assert!(not_met
        .iter()
        .any(|name| name == "requests refused: with 14"));
    assert!(not_met.iter().all(|name| name != "tables learned by: 02"));
}
