//! short_records BYTES: at least so many bytes of records for a bench on board A, on standard output: short packets of every sort, with and
//! without errors. A megabyte of them is drawn, always the same, and repeated.
use std::io::{self, Write};
use std::process::exit;
use suite::boards::board_a;
use suite::packets::Drawer;
use suite::random::Random;
use suite::records::record;

const DRAWN: usize = 1_000_000;

fn main() {
    let word = std::env::args().nth(1).unwrap_or_default();
    let bytes = word.parse().unwrap_or_else(|_| {
        eprintln!("usage: short_records BYTES");
        exit(2);
    });
    if let Err(error) = put(bytes) {
        eprintln!("{}", error);
        exit(1);
    }
}

fn put(bytes: usize) -> io::Result<()> {
    let records = drawn(bytes.min(DRAWN));
    let mut output = io::stdout().lock();
    let mut left = bytes;
    while left > 0 {
        output.write_all(&records)?;
        left = left.saturating_sub(records.len());
    }
    output.flush()
}

fn drawn(bytes: usize) -> Vec<u8> {
    let (mut random, board) = (Random::new(41), board_a());
    let mut lent = board.clone();
    let mut records = Vec::new();
    while records.len() < bytes {
        let groups = lent.groups;
        let mut drawer = Drawer {
            random: &mut random,
            lent: &board,
            groups: &groups,
        };
        let (request, _) = drawer.packet();
        lent.packet(0, &request, &mut [0; cruachvel::MOST_PACKET]);
        records.extend(record(&request));
    }
    records
}
