//! The curves' sums, by 2026-02: 0A reads them, 42 renews them, a fresh board works them out.
//! What they are of where blocks are not full is for page `lengths`.
use crate::bench::{hex, wire, Bench};
use crate::curves::{all_refused, board, boards, count, held, sum_place, CURVES};
use suite::random::Random;
use suite::second::{md5, Groups, Outcome, Ran};
use suite::whatif::bytes::summed;

const READ: u8 = 0x0A;
const RENEW: u8 = 0x42;

// 0A answers these bytes and changes none.
fn reads(bench: &mut Bench, curve: u8, sum: &[u8]) {
    let before = bench.state();
    assert_eq!(bench.ask(READ, &[curve]), (0x0B, sum.to_vec()));
    assert!(bench.state() == before, "a reading changes no byte");
}

// After this request, the curve's sum is that of all its blocks, and nothing else has changed.
fn renews(bench: &mut Bench, curve: u8, request: impl FnOnce(&mut Bench)) {
    let sum = md5(&held(bench, curve));
    let mut after = bench.state();
    after.sums[sum_place(curve)].copy_from_slice(&sum);
    request(bench);
    assert!(bench.state() == after, "only the sum of curve {}", curve);
    reads(bench, curve, &sum);
}

fn renewed(bench: &mut Bench, curve: u8) {
    renews(bench, curve, |bench| {
        assert_eq!(bench.ask(RENEW, &[curve]), (0xE0, vec![]));
    });
}

#[test]
fn board_a_fresh_answers_the_sum_of_8_zero_bytes() {
    let mut bench = Bench::a();
    bench.sums = vec![0; 16];
    assert_eq!(bench.fresh(), Ok(()));
    let read = hex("05 0A 00 01 00 F0");
    let answer = hex("00 0B 00 10 7DEA362B3FAC8E00956A4952A3D4F474 2B");
    assert_eq!(bench.outcome(&read), (Outcome::Reply(21), answer.clone()));
    bench.sums = vec![0; 16];
    let renew = hex("05 42 00 01 00 B8");
    let done = hex("00 E0 00 00 20");
    assert_eq!(bench.outcome(&renew), (Outcome::Reply(5), done));
    assert_eq!(bench.outcome(&read).1, answer);
}

#[test]
fn zero_a_answers_the_16_bytes_as_they_stand_in_the_state() {
    let mut random = Random::new(91);
    for mut bench in boards() {
        let length = bench.sums.len();
        let drawn = (0..length).map(|_| random.byte()).collect();
        // Any 16 bytes are a sound sum.
        for sums in [vec![0; length], vec![0xFF; length], drawn] {
            bench.sums = sums.clone();
            for curve in 0..count(&bench) {
                reads(&mut bench, curve, &sums[sum_place(curve)]);
            }
        }
    }
}

#[test]
fn forty_two_renews_this_curves_sum_and_no_other_read_only_or_not() {
    for mut bench in boards() {
        for curve in 0..count(&bench) {
            renewed(&mut bench, curve);
            renewed(&mut bench, curve);
        }
    }
    // The same over the last curve first, when the sums before it are still stale.
    for mut bench in boards() {
        for curve in (0..count(&bench)).rev() {
            renewed(&mut bench, curve);
        }
    }
}

#[test]
fn the_sum_is_over_the_whole_curve_and_over_no_byte_of_its_neighbours() {
    let mut bench = board(&[1, 3, 2, 0, 1, 5]);
    assert_eq!(bench.blocks, [1, 2, 3, 4, 5, 6, 7, 8, 9, 10, 11]);
    // As md5sum prints them, for the bytes 01 to 06 and 07 to 0B.
    let sums = hex("6AC1E56BC78F031059BE7BE854522C4C 8D9A679163223F3F0ED1C100C51E9532");
    for curve in 0..2 {
        assert_eq!(bench.ask(RENEW, &[curve]).0, 0xE0);
        reads(&mut bench, curve, &sums[sum_place(curve)]);
    }
    let mut largest = board(&[0, 1, 65_536]);
    largest.blocks.fill(0);
    assert_eq!(largest.ask(RENEW, &[0]).0, 0xE0);
    reads(&mut largest, 0, &hex("FCD6BCB56C1689FCEF28B57C22475BAD"));
}

#[test]
fn a_block_write_leaves_the_sum_stale_byte_by_byte() {
    let mut bench = board(&[1, 4, 3, 1, 1, 2]);
    assert_eq!(bench.fresh(), Ok(()));
    for (block, carried) in (0..3).flat_map(|block| (1..=4).map(move |n| (block, n))) {
        let stale = bench.sums.clone();
        for byte in [0xAA, 0x55] {
            let write = [&[0, 0, block][..], &vec![byte; carried]].concat();
            assert_eq!(bench.ask(0x41, &write).0, 0xE0);
            assert_eq!(bench.sums, stale);
            assert_ne!(md5(&held(&mut bench, 0)), stale[..16]);
            reads(&mut bench, 0, &stale[..16]);
        }
        renewed(&mut bench, 0);
        assert_ne!(bench.sums[..16], stale[..16]);
    }
}

#[test]
fn every_byte_of_a_curve_counts_for_its_sum() {
    let mut bench = board(&[1, 65, 2, 1, 1, 1]);
    for byte in 0..130 {
        renewed(&mut bench, 0);
        let stale = bench.sums.clone();
        bench.blocks[byte] ^= 0x10;
        renewed(&mut bench, 0);
        assert_ne!(bench.sums, stale, "byte {}", byte);
        bench.blocks[byte] ^= 0x10;
        renewed(&mut bench, 0);
        assert_eq!(bench.sums, stale);
    }
}

#[test]
fn a_write_that_takes_back_another_makes_the_stale_sum_right_again() {
    let mut bench = Bench::a();
    let fresh = bench.sums.clone();
    for byte in [7, 0] {
        assert_eq!(bench.ask(0x41, &[0, 0, 1, byte, 0, 0, 0]).0, 0xE0);
        reads(&mut bench, 0, &fresh);
    }
    renewed(&mut bench, 0);
    assert_eq!(bench.sums, fresh);
}

#[test]
fn by_multicast_42_works_in_silence_and_0a_does_nothing() {
    for destination in [0xF8, 0xFF] {
        for mut bench in boards() {
            let before = bench.state();
            for curve in 0..=255 {
                let read = wire(destination, READ, &[curve]);
                assert_eq!(bench.outcome(&read).0, Outcome::Silent);
            }
            assert!(bench.state() == before);
            for curve in 0..count(&bench) {
                renews(&mut bench, curve, |bench| {
                    let renew = wire(destination, RENEW, &[curve]);
                    assert_eq!(bench.outcome(&renew).0, Outcome::Silent);
                });
            }
        }
    }
}

#[test]
fn by_multicast_an_error_or_an_address_not_joined_renews_no_sum() {
    let mut bench = board(&CURVES);
    let before = bench.state();
    for payload in [&[][..], &[0, 0], &[5], &[255]] {
        let renew = wire(0xF8, RENEW, payload);
        assert_eq!(bench.outcome(&renew).0, Outcome::Silent);
    }
    let malformed = summed(&[0xF8, RENEW, 0, 2, 0]);
    assert_eq!(bench.outcome(&malformed).0, Outcome::Silent);
    assert_eq!(bench.state(), before);
    for command in [READ, RENEW] {
        assert_eq!(bench.refused(&wire(0xF9, command, &[0])), 6);
        assert_eq!(bench.refused(&wire(6, command, &[0])), 6);
    }
}

// Both commands, on boards where an error that must not come could: all is busy, curves are
// read-only, five groups are made.
fn both(test: impl Fn(&mut Bench, u8)) {
    for mut bench in boards() {
        bench.busy = u64::MAX;
        bench.groups = Groups {
            count: 5,
            sets: [1; 5],
        };
        test(&mut bench, READ);
        test(&mut bench, RENEW);
    }
}

#[test]
fn both_get_e1_for_any_malformed_message_whatever_its_payload_would_get() {
    // Under 3 bytes; SIZE too large, too small, and with its bytes the wrong way round.
    let messages = [
        "",
        "00",
        "00 01",
        "00 02 00",
        "00 02 63",
        "00 00 00",
        "00 00 63 63",
        "00 01 00 00",
        "00 01 63 63",
        "01 00 00",
    ];
    both(|bench, command| {
        let before = bench.state();
        for rest in messages {
            let request = summed(&[&[5, command][..], &hex(rest)].concat());
            assert_eq!(bench.outcome(&request).1, hex("00 E1 00 00 1F"), "{}", rest);
        }
        assert!(bench.state() == before, "an error changes no byte");
    });
}

#[test]
fn both_get_e5_for_a_payload_of_another_size_before_e3() {
    both(|bench, command| {
        for length in [0, 2, 3, 4, 16, 99, 256, 257, 4099] {
            assert_eq!(bench.error(command, &vec![0; length]), 0xE5, "{}", length);
            assert_eq!(bench.error(command, &vec![99; length]), 0xE5);
        }
    });
}

#[test]
fn both_get_e3_for_a_curve_that_does_not_exist() {
    both(|bench, command| {
        for curve in count(bench)..=255 {
            assert_eq!(bench.error(command, &[curve]), 0xE3, "{}", curve);
        }
    });
}

#[test]
fn both_get_no_other_error() {
    both(|bench, command| {
        let answer = if command == READ { 0x0B } else { 0xE0 };
        for curve in 0..count(bench) {
            assert_eq!(bench.ask(command, &[curve]).0, answer, "{}", curve);
        }
    });
}

#[test]
fn busy_marks_stop_neither() {
    let mut bench = board(&CURVES);
    for busy in [1, 1 << 63, u64::MAX] {
        bench.busy = busy;
        for curve in 0..count(&bench) {
            bench.sums[sum_place(curve)].fill(9);
            reads(&mut bench, curve, &[9; 16]);
            renewed(&mut bench, curve);
        }
    }
}

#[test]
fn sums_of_another_length_make_the_board_unusable() {
    for mut bench in boards() {
        let right = bench.sums.len();
        let wrong = [0, 1, 15, 16, 32, right + 1, right + 15, right + 16];
        let fewer = [1, 15, 16, 17].map(|less| right.saturating_sub(less));
        for length in wrong.into_iter().chain(fewer).filter(|&n| n != right) {
            bench.sums = vec![7; length];
            assert!(bench.unusable(), "{} for {}", length, right);
        }
        bench.sums = vec![7; right];
        assert!(!bench.unusable());
    }
}

#[test]
fn with_sums_of_another_length_what_would_go_well_or_be_refused_later_is_refusal_1() {
    for length in [0, 15, 17, 32] {
        let mut bench = Bench::a();
        bench.sums = vec![7; length];
        let before = bench.state();
        let requests = [
            wire(5, READ, &[0]),
            wire(5, RENEW, &[0]),
            wire(0xF8, RENEW, &[0]),
            wire(5, 0x20, &[1, 9]),
            wire(5, 0x41, &[0, 0, 0, 9]),
            wire(5, 0x30, &[1]),
            wire(5, 0x50, &[0, 9]),
            wire(6, 0x00, &[]),
            vec![],
        ];
        all_refused(&mut bench, &requests);
        assert_eq!(bench.fresh(), Err(1));
        assert_eq!(bench.state(), before);
    }
}

#[test]
fn a_fresh_board_works_out_every_sum() {
    for mut bench in boards() {
        let mut one_by_one = bench.clone();
        for curve in 0..count(&bench) {
            renewed(&mut one_by_one, curve);
        }
        // From stale sums, and once more from right ones.
        for _ in 0..2 {
            assert_eq!(bench.fresh(), Ok(()));
            assert!(bench.state() == one_by_one.state());
        }
    }
}

#[test]
fn a_fresh_board_that_is_unusable_is_refusal_1_and_changes_no_sum() {
    // What is wrong with the board. The last: nine curves, with a sum and a byte for each.
    let breaks: [fn(&mut Bench); 7] = [
        |bench| bench.variables[0].size = 3,
        |bench| bench.functions[1] = 16,
        |bench| bench.values.push(0),
        |bench| bench.blocks.push(0),
        |bench| bench.groups.count = 6,
        |bench| bench.curves[0] = 2,
        |bench| *bench = board(&[1, 1, 1].repeat(9)),
    ];
    for broken in breaks {
        let mut bench = board(&CURVES);
        broken(&mut bench);
        let before = bench.state();
        assert_eq!(bench.fresh(), Err(1));
        assert_eq!(bench.state(), before);
    }
}

#[test]
fn no_other_message_and_no_result_or_board_store_touches_a_sum() {
    let mut bench = Bench::a();
    bench.sums = hex("000102030405060708090A0B0C0D0E0F");
    let stale = bench.sums.clone();
    let requests = [
        (0x00, vec![]),
        (0x08, vec![]),
        (0x10, vec![1]),
        (0x20, vec![1, 9]),
        (0x22, vec![2, 7, 8, 9]),
        (0x24, vec![1, 0x54, 9]),
        (0x26, vec![2, 0x54, 7, 8, 9]),
        (0x28, vec![1, 2, 9]),
        (0x30, vec![1]),
        (0x32, vec![]),
        (0x40, vec![0, 0, 1]),
        (0x41, vec![0, 0, 1, 9]),
    ];
    for (command, payload) in requests {
        assert!(bench.ask(command, &payload).0 <= 0xE0, "no error");
        assert_eq!(bench.sums, stale, "{:02X}", command);
    }
    let run = bench.outcome(&wire(5, 0x50, &[0, 9])).0;
    assert!(matches!(run, Outcome::Run { .. }));
    assert_eq!(bench.result(0, true, Ran::Well, &[1, 2]), Outcome::Reply(7));
    assert_eq!(bench.store(0, &[1, 2, 3, 4]), Ok(()));
    assert_eq!(bench.sums, stale);
}

#[test]
fn writes_and_renewals_at_random_as_a_reckoning_beside_them_says() {
    let mut random = Random::new(92);
    let mut bench = board(&CURVES);
    let mut sums = bench.sums.clone();
    for _ in 0..5_000 {
        let curve = random.below(5) as u8;
        match random.below(3) {
            0 => reads(&mut bench, curve, &sums[sum_place(curve)]),
            1 => {
                let write = [curve, 0, random.below(9) as u8, random.byte()];
                bench.outcome(&wire(5, 0x41, &write));
            }
            _ => {
                renewed(&mut bench, curve);
                let sum = md5(&held(&mut bench, curve));
                sums[sum_place(curve)].copy_from_slice(&sum);
            }
        }
        assert_eq!(bench.sums, sums);
    }
}
