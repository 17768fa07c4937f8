//! differ [--seed N] [--calls N] [--all] [--digest]: both nodes on random boards, call after call, until that many calls agreed or one didn't.
//! With --all it also fails if some refusal, answer, wire error or pair of wire errors never came up. With --digest its last line is a number
//! for all that the calls left: outcomes, replies, stores, lengths, sums and group tables.
use std::process::exit;
use suite::differ::Differ;

const USAGE: &str = "differ [--seed N] [--calls N] [--all] [--digest]";
const SHOWN_EVERY: u64 = 10_000_000;

struct Wanted {
    seed: u64,
    calls: u64,
    all: bool,
    digest: bool,
}

fn number(name: &str, text: Option<String>) -> Result<u64, String> {
    let text = text.unwrap_or_default();
    let wrong = |_| format!("{} takes a number, and not \"{}\"", name, text);
    text.parse().map_err(wrong)
}

fn wanted(mut arguments: impl Iterator<Item = String>) -> Result<Wanted, String> {
    let mut wanted = Wanted {
        seed: 1,
        calls: 1_000_000,
        all: false,
        digest: false,
    };
    while let Some(name) = arguments.next() {
        match name.as_str() {
            "--seed" => wanted.seed = number(&name, arguments.next())?,
            "--calls" => wanted.calls = number(&name, arguments.next())?,
            "--all" => wanted.all = true,
            "--digest" => wanted.digest = true,
            _ => return Err(format!("{} is no option: {}", name, USAGE)),
        }
    }
    Ok(wanted)
}

fn main() {
    let wanted = wanted(std::env::args().skip(1)).unwrap_or_else(|error| {
        eprintln!("{}", error);
        exit(2);
    });
    println!("seed {}", wanted.seed);
    let mut differ = if wanted.digest {
        Differ::with_digest(wanted.seed)
    } else {
        Differ::new(wanted.seed)
    };
    while differ.tally.calls < wanted.calls {
        let next = wanted.calls.min(differ.tally.calls + SHOWN_EVERY);
        if let Err(difference) = differ.run(next) {
            println!("{}", difference);
            exit(1);
        }
        println!("{} calls agree", differ.tally.calls);
    }
    println!("{}", differ.tally.busy_reads());
    println!("{}", differ.tally.lengths());
    println!("{}", differ.tally.sums());
    let not_met = differ.tally.not_met();
    if wanted.all && !not_met.is_empty() {
        println!("never came up: {}", not_met.join("; "));
        exit(1);
    }
    if let Some(digest) = differ.digest() {
        println!("digest {:016X}", digest);
    }
}
