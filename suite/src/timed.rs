//! Two sides that take turns at the same work, and how long each takes.
use std::time::Instant;

const ROUNDS: usize = 15;
// A round is made about so long that the clock's own steps don't count.
const ROUND: f64 = 4e6;

/// How many rounds are asked for, by the arguments of a program of this name. cargo adds --bench of its own.
pub fn rounds(name: &str, arguments: impl Iterator<Item = String>) -> Result<usize, String> {
    let words: Vec<String> = arguments.filter(|word| word != "--bench").collect();
    match words.iter().map(String::as_str).collect::<Vec<&str>>()[..] {
        [] => Ok(ROUNDS),
        ["--rounds", number] => number
            .parse()
            .ok()
            .filter(|rounds| *rounds > 0)
            .ok_or_else(|| format!("--rounds takes a number from 1 on, and not {:?}", number)),
        _ => Err(format!("usage: {} [--rounds N]", name)),
    }
}

/// The best round of both sides, in nanoseconds each time. A side does its work so many times, and gives the sum of the bytes that it told.
pub fn best(
    rounds: usize,
    mut proved: impl FnMut(usize) -> usize,
    mut second: impl FnMut(usize) -> usize,
) -> (f64, f64) {
    let times = (times(&mut proved), times(&mut second));
    let mut best = (f64::MAX, f64::MAX);
    for _ in 0..rounds {
        best.0 = best.0.min(round(&mut proved, times.0));
        best.1 = best.1.min(round(&mut second, times.1));
    }
    best
}

// How many times make a round.
fn times(side: &mut impl FnMut(usize) -> usize) -> usize {
    let mut times = 16;
    while round(side, times) * (times as f64) < ROUND {
        times *= 2;
    }
    times
}

fn round(side: &mut impl FnMut(usize) -> usize, times: usize) -> f64 {
    let start = Instant::now();
    let bytes = side(times);
    let spent = start.elapsed().as_nanos() as f64;
    assert_eq!(bytes % times, 0, "each time it is the same");
    spent / times as f64
}
