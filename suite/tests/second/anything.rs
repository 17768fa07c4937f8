//! Drawn at random: absurd tables, and any packet at all.
use crate::bench::{variable, wire, Bench};
use suite::packets::{COMMANDS, OPERATIONS};
use suite::random::Random;
use suite::second::{read_signed, write_unsigned, Outcome};

// At most so many bytes, each below the limit.
fn small_bytes(random: &mut Random, most: usize, limit: usize) -> Vec<u8> {
    let length = random.within(0, most);
    (0..length).map(|_| random.below(limit) as u8).collect()
}

// About as many as board A has blocks, about as long as these can be.
fn small_lengths(random: &mut Random) -> Vec<u16> {
    let count = random.choose(&[2, 2, 2, 0, 1, 3]);
    let length = |_| random.choose(&[0, 1, 2, 3, 4, 5, 0xFFFF]);
    (0..count).map(length).collect()
}

#[test]
fn absurd_tables_end_in_an_outcome() {
    let mut random = Random::new(71);
    for _ in 0..20_000 {
        let mut bench = Bench::a();
        for _ in 0..random.below(3) {
            match random.below(8) {
                0 => bench.variables = vec![variable(1, random.byte(), 0); 66],
                1 => bench.curves = vec![1, random.below(9) as u32, random.number() as u32],
                2 => bench.functions = small_bytes(&mut random, 40, 20),
                3 => bench.groups.count = random.number() >> random.below(64),
                4 => bench.sums = small_bytes(&mut random, 33, 256),
                5 => bench.values = small_bytes(&mut random, 9, 256),
                6 => bench.lengths = small_lengths(&mut random),
                _ => bench.curves = vec![u32::MAX; random.below(30)],
            }
        }
        let usable = !bench.unusable_as_lent();
        let mut fresh = bench.clone();
        let taken = fresh.fresh() == Ok(());
        assert_eq!(taken, !fresh.unusable_as_lent());
        assert!(taken || !usable);
        let number = random.below(70);
        let _ = read_signed(&bench.variables, number, &bench.values);
        let _ = write_unsigned(&bench.variables, number, random.number(), &mut bench.values);
        let payload = small_bytes(&mut random, 8, 5);
        let request = wire(5, random.below(0x54) as u8, &payload);
        assert_eq!(bench.outcome(&request).0 != Outcome::Refused(1), usable);
    }
}

#[test]
fn any_packet_keeps_the_board_usable_and_an_error_changes_no_byte() {
    let mut random = Random::new(72);
    let records = [variable(1, 1, 0), variable(0, 2, 1), variable(1, 2, 4)];
    let mut bench = Bench::with(&records, &[1, 2, 3, 0, 1, 2], &[0, 0, 1, 1]);
    for _ in 0..50_000 {
        let before = bench.state();
        bench.busy = random.number() & random.number() & 0b111;
        let command = random.choose(&COMMANDS);
        let mut payload = small_bytes(&mut random, 7, 4);
        if matches!(command, 0x24 | 0x26) && payload.len() > 1 {
            payload[1] = random.choose(&OPERATIONS);
        }
        let destination = random.choose(&[0x05, 0xF8, 0x06]);
        let (outcome, reply) = bench.outcome(&wire(destination, command, &payload));
        match outcome {
            Outcome::Reply(_) if reply[1] > 0xE0 => assert_eq!(bench.state(), before),
            Outcome::Reply(_) => assert_eq!(destination, 5),
            Outcome::Silent => assert_eq!(destination, 0xF8),
            Outcome::Run { due, .. } => {
                assert_eq!(due, destination == 5);
                assert_eq!(bench.state(), before);
            }
            Outcome::Refused(number) => {
                assert_eq!((number, destination), (6, 6));
                assert_eq!(bench.state(), before);
            }
        }
        if command != 0x42 {
            assert_eq!(bench.sums, before.sums, "42 alone renews a sum");
        }
        if command != 0x41 {
            assert_eq!(bench.lengths, before.lengths, "41 alone sets a length");
        }
        assert!(!bench.unusable());
        assert_eq!(bench.values[1..3], [2, 3], "read-only");
        assert_eq!(bench.blocks[6..], [7, 8], "read-only");
    }
}
