//! differ_asking [--seed N] [--exchanges N] [--all] [--digest]: both asking sides on a line with both nodes, exchange after exchange, until
//! that many or a few more agreed, or one didn't. With --all it also fails if some request, refusal, kind of answer, error or way of
//! learning never came up. With --digest its last line is a number for all that the proved side told, wrote and learned.
use std::process::exit;
use suite::differ_asking::DifferAsking;

const USAGE: &str = "differ_asking [--seed N] [--exchanges N] [--all] [--digest]";
const SHOWN_EVERY: u64 = 10_000_000;

struct Wanted {
    seed: u64,
    exchanges: u64,
    all: bool,
    digest: bool,
}

fn number(name: &str, value: Option<String>) -> Result<u64, String> {
    let text = value.ok_or_else(|| format!("{} takes a number: {}", name, USAGE))?;
    let number = text.parse();
    number.map_err(|_| format!("{} takes a number and not {:?}: {}", name, text, USAGE))
}

fn wanted(mut arguments: impl Iterator<Item = String>) -> Result<Wanted, String> {
    let mut wanted = Wanted {
        seed: 1,
        exchanges: 1_000_000,
        all: false,
        digest: false,
    };
    while let Some(name) = arguments.next() {
        match name.as_str() {
            "--seed" => wanted.seed = number(&name, arguments.next())?,
            "--exchanges" => wanted.exchanges = number(&name, arguments.next())?,
            "--all" => wanted.all = true,
            "--digest" => wanted.digest = true,
            _ => return Err(format!("{} is no option: {}", name, USAGE)),
        }
    }
    Ok(wanted)
}

fn main() {
    let wanted = wanted(std::env::args().skip(1)).unwrap_or_else(|error| {
        eprintln!("{}", error);
        exit(2);
    });
    println!("seed {}", wanted.seed);
    let mut differ = if wanted.digest {
        DifferAsking::with_digest(wanted.seed)
    } else {
        DifferAsking::new(wanted.seed)
    };
    while differ.tally.exchanges < wanted.exchanges {
        let next = wanted.exchanges.min(differ.tally.exchanges + SHOWN_EVERY);
        if let Err(difference) = differ.run(next) {
            println!("{}", difference);
            exit(1);
        }
        println!("{} exchanges agree", differ.tally.exchanges);
    }
    differ
        .tally
        .lines()
        .iter()
        .for_each(|line| println!("{}", line));
    let not_met = differ.tally.not_met();
    if wanted.all && !not_met.is_empty() {
        println!("never came up: {}", not_met.join("; "));
        exit(1);
    }
    if let Some(digest) = differ.digest() {
        println!("digest {:016X}", digest);
    }
}
