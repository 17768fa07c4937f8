//! The bench program on input of every sort: each record ends in one line, and the second node's bench prints the same.
//! BENCH names the program; else it is where `tools/prove bench` puts it.
use std::collections::BTreeSet;
use std::path::Path;
use suite::boards::board_a;
use suite::packets::Drawer;
use suite::random::Random;
use suite::records::{record, SAMPLE, SAMPLE_LINES};
use suite::run::printed;

fn bench() -> String {
    let built = || concat!(env!("CARGO_MANIFEST_DIR"), "/../target/bin/bench").to_string();
    let path = std::env::var("BENCH").unwrap_or_else(|_| built());
    assert!(
        Path::new(&path).is_file(),
        "{} is missing: run tools/prove bench",
        path
    );
    path
}

// How many records stand in the input, and whether the last is cut off by the end.
fn records(input: &[u8]) -> (usize, bool) {
    let (mut count, mut rest) = (0, input);
    while !rest.is_empty() {
        count += 1;
        let after = match rest {
            [high, low, packet @ ..] => packet.get(u16::from_be_bytes([*high, *low]).into()..),
            _ => None,
        };
        rest = match after {
            Some(after) => after,
            None => return (count, true),
        };
    }
    (count, false)
}

// The lines of the proved bench, which are those of the second node's, one for each record.
fn lines(input: &[u8]) -> Vec<String> {
    let text = String::from_utf8(printed(&bench(), input)).expect("plain text");
    let second = printed(env!("CARGO_BIN_EXE_second_bench"), input);
    let second = String::from_utf8(second).expect("plain text");
    let place = text
        .lines()
        .zip(second.lines())
        .find(|(one, other)| one != other);
    assert!(text == second, "the first lines that differ: {:?}", place);
    let lines: Vec<String> = text.lines().map(str::to_string).collect();
    let (count, cut) = records(input);
    assert_eq!(lines.len(), count, "one line for each record");
    assert_eq!(text.ends_with(" cut\n"), cut, "cut off by the end");
    assert!(
        text.is_empty() || text.ends_with('\n'),
        "the last line is ended"
    );
    for (place, line) in lines.iter().enumerate() {
        assert!(
            line.starts_with(&format!("{} ", place + 1)),
            "line {}: {}",
            place + 1,
            line
        );
    }
    lines
}

// Records for board A: packets aimed at it, and noise.
fn drawn(random: &mut Random, count: usize) -> Vec<u8> {
    let mut lent = board_a();
    let mut input = Vec::new();
    for _ in 0..count {
        let groups = lent.groups;
        let mut drawer = Drawer {
            random,
            lent: &board_a(),
            groups: &groups,
        };
        let (mut request, _) = drawer.packet();
        if drawer.random.once_in(20) {
            request = drawer.noise();
        }
        lent.packet(0, &request, &mut [0; 4104]);
        input.extend(record(&request));
    }
    input
}

#[test]
fn the_example_of_01() {
    let expected: Vec<&str> = SAMPLE_LINES.lines().collect();
    assert_eq!(lines(SAMPLE), expected);
}

#[test]
fn drawn_packets() {
    let mut random = Random::new(31);
    let lines = lines(&drawn(&mut random, 20_000));
    for word in ["answer", "silent", "run", "runquiet", "refused"] {
        let met = lines
            .iter()
            .any(|line| line.split(' ').nth(1) == Some(word));
        assert!(met, "no record ended in {}", word);
    }
    let sums = lines.iter().filter_map(|line| line.split_once(" 000B0010"));
    let sums: BTreeSet<&str> = sums.map(|(_, sum)| sum).collect();
    assert!(
        sums.len() > 100,
        "only {} different sums were read",
        sums.len()
    );
    let blocks = lines.iter().filter_map(|line| line.split_once(" 004100"));
    let sizes: BTreeSet<&str> = blocks.map(|(_, block)| &block[..2]).collect();
    let of_every_length = ["04", "05", "06", "07"];
    assert!(sizes.iter().eq(&of_every_length), "{:?} were read", sizes);
}

#[test]
fn random_bytes() {
    let mut random = Random::new(32);
    for length in [1, 2, 3, 100, 70_000, 400_000] {
        lines(&random.bytes(length));
    }
}

#[test]
fn random_bytes_in_short_records() {
    let mut random = Random::new(33);
    let mut input = Vec::new();
    for _ in 0..20_000 {
        let length = random.below(12);
        input.extend(record(&random.bytes(length)));
    }
    lines(&input);
}

#[test]
fn records_of_every_length_around_the_limits() {
    let lengths = [0, 1, 2, 3, 4103, 4104, 4105, 32767, 32768, 65534, 65535];
    let input: Vec<u8> = lengths
        .iter()
        .flat_map(|&length| record(&vec![0; length]))
        .collect();
    lines(&[input.clone(), input].concat());
}

#[test]
fn input_that_ends_at_any_place() {
    assert_eq!(lines(&[]).len(), 0);
    let mut random = Random::new(34);
    let whole = drawn(&mut random, 2);
    for end in 1..whole.len().min(30) {
        lines(&whole[..end]);
    }
}
