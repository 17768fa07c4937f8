//! repeat [asking] proved|second NUMBER TIMES: one of the measured packets so many times on one of the nodes, or one of the measured requests
//! and replies on one of the asking sides, for a program that counts instructions.
//! repeat [asking] list: what is measured by name, numbered from 0.
use std::process::exit;
use suite::measured::{self, Side as _};
use suite::measured_asking::{self, Side as _};

fn main() {
    let words: Vec<String> = std::env::args().skip(1).collect();
    let words: Vec<&str> = words.iter().map(String::as_str).collect();
    let done = match words[..] {
        ["list"] => listed(measured::all().iter().map(|measured| measured.name)),
        ["asking", "list"] => listed(measured_asking::all().iter().map(|measured| measured.name)),
        ["asking", side, number, times] => repeat_asking(side, number, times),
        [side, number, times] => repeat(side, number, times),
        _ => None,
    };
    if done.is_none() {
        eprintln!("usage: repeat [asking] proved|second NUMBER TIMES, or repeat [asking] list");
        exit(2);
    }
}

fn listed<'a>(names: impl Iterator<Item = &'a str>) -> Option<()> {
    names.for_each(|name| println!("{}", name));
    Some(())
}

fn repeat(side: &str, number: &str, times: &str) -> Option<()> {
    let all = measured::all();
    let measured = all.get(number.parse::<usize>().ok()?)?;
    let times = times.parse().ok()?;
    let bytes = match side {
        "proved" => measured::Proved::new(measured).packets(times),
        "second" => measured::Second::new(measured).packets(times),
        _ => return None,
    };
    println!("{}", bytes);
    Some(())
}

fn repeat_asking(side: &str, number: &str, times: &str) -> Option<()> {
    let all = measured_asking::all();
    let measured = all.get(number.parse::<usize>().ok()?)?;
    let times = times.parse().ok()?;
    let told = match side {
        "proved" => measured_asking::Proved::new(measured).calls(times),
        "second" => measured_asking::Second::new(measured).calls(times),
        _ => return None,
    };
    println!("{}", told);
    Some(())
}
