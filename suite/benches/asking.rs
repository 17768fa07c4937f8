//! Nanoseconds per request written and per reply read, of the proved asking side and of the second one in the same run: a Markdown table on
//! standard output. asking [--rounds N]: the sides take turns so often; what is shown is the best round of each.
use std::io::{self, Write};
use std::process::exit;
use suite::measured_asking::{all, Measured, Proved, Second, Side};
use suite::timed;

fn main() {
    let rounds = timed::rounds("asking", std::env::args().skip(1)).unwrap_or_else(|message| {
        eprintln!("{}", message);
        exit(2);
    });
    if let Err(error) = table(rounds) {
        eprintln!("{}", error);
        exit(1);
    }
}

fn table(rounds: usize) -> io::Result<()> {
    let mut output = io::stdout();
    writeln!(output, "| Call | Proved, ns | Second side, ns | Ratio |")?;
    writeln!(output, "|---|---:|---:|---:|")?;
    for measured in all() {
        let (proved, second) = best(&measured, rounds);
        let ratio = proved / second;
        writeln!(
            output,
            "| {} | {:.0} | {:.0} | {:.2} |",
            measured.name, proved, second, ratio
        )?;
    }
    Ok(())
}

// The best round of both sides, in nanoseconds per call.
fn best(measured: &Measured, rounds: usize) -> (f64, f64) {
    let mut proved = Proved::new(measured);
    let mut second = Second::new(measured);
    assert_eq!(proved.call(), second.call(), "{}", measured.name);
    timed::best(
        rounds,
        |times| proved.calls(times),
        |times| second.calls(times),
    )
}
