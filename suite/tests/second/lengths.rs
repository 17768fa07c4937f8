//! Blocks that aren't full, by 2026-03: a write sets a block's length, a read goes by it, and so do sums.
use crate::bench::{full, hex, wire, Bench};
use crate::curves::{all_refused, block, board, boards, count, front, held, sum_place, CURVES};
use suite::random::Random;
use suite::second::{md5, Outcome, Ran};

const READ: u8 = 0x40;
const WRITE: u8 = 0x41;
const RENEW: u8 = 0x42;

/// One block of a board: its curve and number, and where its length and its bytes stand.
#[derive(Clone, Copy)]
struct Place {
    curve: u8,
    number: usize,
    writable: bool,
    size: usize,
    length: usize,
    start: usize,
}

impl Place {
    // A write to this block.
    fn write(&self, data: &[u8]) -> Vec<u8> {
        [&front(self.curve, self.number)[..], data].concat()
    }
}

// All blocks of a board; of a curve of very many the first two and the last two.
fn places(bench: &Bench) -> Vec<Place> {
    let (mut places, mut length, mut start) = (Vec::new(), 0, 0);
    for (curve, record) in (0..).zip(bench.curves.chunks_exact(3)) {
        let (size, blocks) = (record[1] as usize, record[2] as usize);
        let asked = |number: &usize| blocks < 100 || *number < 2 || *number >= blocks - 2;
        places.extend((0..blocks).filter(asked).map(|number| Place {
            curve,
            number,
            writable: record[0] == 1,
            size,
            length: length + number,
            start: start + number * size,
        }));
        length += blocks;
        start += blocks * size;
    }
    places
}

// The lengths that are tried of a block: the least, the most and some between.
fn some_lengths(size: usize) -> Vec<usize> {
    let tried = [1, 2, 3, size / 2, size - 1, size];
    let mut lengths: Vec<usize> = tried
        .into_iter()
        .filter(|n| (1..=size).contains(n))
        .collect();
    lengths.sort_unstable();
    lengths.dedup();
    lengths
}

fn out_of_range(size: usize) -> [u16; 3] {
    [0, size as u16 + 1, 0xFFFF]
}

// A write of these bytes gets E0.
fn writes(bench: &mut Bench, place: &Place, data: &[u8]) {
    let mut after = bench.state();
    after.blocks[place.start..place.start + data.len()].copy_from_slice(data);
    after.lengths[place.length] = data.len() as u16;
    assert_eq!(bench.ask(WRITE, &place.write(data)), (0xE0, vec![]));
    assert!(bench.state() == after, "only its bytes and its length");
}

#[test]
fn a_download_of_3_bytes_reads_back_as_3() {
    let mut bench = Bench::a();
    let read = hex("05 40 00 03 00 00 01 B7");
    let written = hex("05 41 00 07 00 00 01 11 22 33 44 08");
    assert_eq!(bench.outcome(&written).1, hex("00 E0 00 00 20"));
    let whole = hex("00 41 00 07 00 00 01 11 22 33 44 0D");
    assert_eq!(bench.outcome(&read).1, whole);
    let shorter = hex("05 41 00 06 00 00 01 AA BB CC 82");
    assert_eq!(bench.outcome(&shorter).1, hex("00 E0 00 00 20"));
    let three = hex("00 41 00 06 00 00 01 AA BB CC 87");
    assert_eq!(bench.outcome(&read), (Outcome::Reply(11), three));
    assert_eq!(bench.lengths, [4, 3], "each block has one of its own");
    assert_eq!(bench.blocks, hex("00 00 00 00 AA BB CC 44"));
}

#[test]
fn a_write_sets_its_blocks_length_and_no_other() {
    for mut bench in boards() {
        for place in places(&bench).into_iter().filter(|place| place.writable) {
            for length in some_lengths(place.size) {
                writes(&mut bench, &place, &vec![0x5A; length]);
            }
            for length in some_lengths(place.size).into_iter().rev() {
                writes(&mut bench, &place, &vec![0xA5; length]);
            }
        }
    }
}

#[test]
fn a_read_returns_that_many_of_the_first_bytes_and_changes_none() {
    for mut bench in boards() {
        for place in places(&bench) {
            for length in some_lengths(place.size) {
                bench.lengths[place.length] = length as u16;
                let before = bench.state();
                let read = block(&mut bench, place.curve, place.number);
                assert_eq!(read, bench.blocks[place.start..place.start + length]);
                assert!(bench.state() == before, "a reading changes no byte");
            }
        }
    }
}

#[test]
fn what_was_written_is_read_back_whatever_was_there_before() {
    let mut bench = board(&[1, 5, 3]);
    for (before, after) in (1..=5).flat_map(|one| (1..=5).map(move |other| (one, other))) {
        let (first, second) = (vec![0x11; before], vec![0x22; after]);
        for data in [first, second] {
            assert_eq!(bench.ask(WRITE, &[&[0, 0, 1], &data[..]].concat()).0, 0xE0);
            assert_eq!(block(&mut bench, 0, 1), data);
        }
    }
    assert_eq!(block(&mut bench, 0, 0), [1, 2, 3, 4, 5], "its neighbours");
    assert_eq!(block(&mut bench, 0, 2), [11, 12, 13, 14, 15]);
}

#[test]
fn the_list_of_curves_has_the_block_size_whatever_the_lengths() {
    let mut bench = board(&CURVES);
    let list = bench.ask(0x08, &[]);
    bench.lengths.fill(1);
    assert_eq!(bench.ask(0x08, &[]), list);
}

#[test]
fn the_sum_covers_only_those_bytes_in_block_order() {
    let mut bench = board(&[1, 4, 3, 0, 2, 3]);
    // Blocks 01 to 04, 05 to 08 and 09 to 0C; 0D 0E, 0F 10 and 11 12.
    bench.lengths = vec![2, 4, 1, 1, 2, 1];
    // As md5sum prints them, for 01 02, 05 to 08, 09 and for 0D, 0F 10, 11.
    let sums = hex("CE8363EEA5D560ACAB053254C0490EE7 2F61938F95E106F7B27CBACF8EA81A67");
    for curve in 0..2 {
        assert_eq!(bench.ask(RENEW, &[curve]), (0xE0, vec![]));
        let sum = sums[sum_place(curve)].to_vec();
        assert_eq!(bench.ask(0x0A, &[curve]), (0x0B, sum));
    }
}

#[test]
fn forty_two_goes_by_the_lengths_and_changes_none() {
    let mut random = Random::new(93);
    for mut bench in boards() {
        for place in places(&bench) {
            bench.lengths[place.length] = random.within(1, place.size) as u16;
        }
        for curve in 0..count(&bench) {
            let mut after = bench.state();
            let sum = md5(&held(&mut bench, curve));
            after.sums[sum_place(curve)].copy_from_slice(&sum);
            assert_eq!(bench.ask(RENEW, &[curve]).0, 0xE0);
            assert!(bench.state() == after, "only the sum of curve {}", curve);
        }
    }
}

// The sum of curve 0, renewed on a copy.
fn renewed(bench: &Bench) -> Vec<u8> {
    let mut bench = bench.clone();
    assert_eq!(bench.ask(RENEW, &[0]).0, 0xE0);
    bench.sums[..16].to_vec()
}

#[test]
fn every_byte_within_the_lengths_counts_for_the_sum_and_no_stale_one() {
    let mut bench = board(&[1, 8, 3, 1, 4, 1]);
    bench.lengths = vec![3, 8, 1, 2];
    let sum = renewed(&bench);
    for byte in 0..bench.blocks.len() {
        let (curve, number, place) = (byte / 24, byte / 8, byte % 8);
        let counts = curve == 0 && place < usize::from(bench.lengths[number]);
        bench.blocks[byte] ^= 0x10;
        assert_eq!(renewed(&bench) != sum, counts, "byte {}", byte);
        bench.blocks[byte] ^= 0x10;
    }
    bench.lengths[3] = 4;
    assert_eq!(renewed(&bench), sum, "the other curve's");
    for number in 0..3 {
        let mut other = bench.clone();
        other.lengths[number] = 4;
        assert_ne!(renewed(&other), sum, "block {}", number);
    }
}

#[test]
fn a_write_that_only_shortens_leaves_the_sum_stale() {
    let mut bench = Bench::a();
    let fresh = bench.sums.clone();
    assert_eq!(bench.ask(WRITE, &[0, 0, 1, 0, 0, 0]).0, 0xE0);
    assert_eq!(bench.blocks, [0; 8], "no byte is another one");
    assert_eq!(bench.ask(0x0A, &[0]), (0x0B, fresh.clone()));
    assert_eq!(bench.ask(RENEW, &[0]).0, 0xE0);
    // As md5sum prints it, for 7 zero bytes.
    let sum = hex("D310A40483F9399DD7ED1712E0FDD702");
    assert_eq!(bench.ask(0x0A, &[0]), (0x0B, sum));
    assert_eq!(bench.ask(WRITE, &[0, 0, 1, 0, 0, 0, 0]).0, 0xE0);
    assert_eq!(bench.ask(RENEW, &[0]).0, 0xE0);
    assert_eq!(bench.sums, fresh);
}

#[test]
fn two_curves_cut_into_blocks_differently_have_one_sum_if_they_hold_the_same_bytes() {
    let mut bench = board(&[1, 4, 2, 1, 3, 2]);
    for write in [
        "00 0000 AABBCC",
        "00 0001 DD",
        "01 0000 AA",
        "01 0001 BBCCDD",
    ] {
        assert_eq!(bench.ask(WRITE, &hex(write)).0, 0xE0);
    }
    for curve in 0..2 {
        assert_eq!(bench.ask(RENEW, &[curve]).0, 0xE0);
        assert_eq!(bench.sums[sum_place(curve)], md5(&hex("AABBCCDD")));
    }
}

#[test]
fn an_error_changes_no_length() {
    let mut bench = board(&[1, 4, 2, 0, 4, 2]);
    bench.lengths = vec![1, 2, 3, 4];
    // `error` compares the whole state.
    assert_eq!(bench.error(WRITE, &[0, 0]), 0xE5, "shorter than its front");
    assert_eq!(bench.error(WRITE, &[2, 0, 0, 9]), 0xE3);
    assert_eq!(bench.error(WRITE, &[0, 0, 2, 9]), 0xE4);
    assert_eq!(
        bench.error(WRITE, &[0, 0, 0]),
        0xE5,
        "not 1 to the block size"
    );
    assert_eq!(bench.error(WRITE, &[0, 0, 0, 9, 9, 9, 9, 9]), 0xE5);
    assert_eq!(bench.error(WRITE, &[1, 0, 0, 9]), 0xE6);
    assert_eq!(bench.error(READ, &[0, 0, 2]), 0xE4);
}

#[test]
fn a_write_is_tested_against_the_block_size_and_not_against_the_length() {
    let mut bench = board(&[1, 4, 2]);
    bench.lengths = vec![1, 1];
    assert_eq!(bench.ask(WRITE, &[0, 0, 1, 1, 2, 3, 4]).0, 0xE0);
    assert_eq!(block(&mut bench, 0, 1), [1, 2, 3, 4]);
}

#[test]
fn by_multicast_a_write_sets_the_length_in_silence_and_an_error_sets_none() {
    let mut bench = Bench::a();
    let write = wire(0xF8, WRITE, &[0, 0, 1, 0xAA, 0xBB]);
    assert_eq!(bench.outcome(&write).0, Outcome::Silent);
    assert_eq!(bench.lengths, [4, 2]);
    assert_eq!(block(&mut bench, 0, 1), [0xAA, 0xBB]);
    let before = bench.state();
    for payload in [
        &[0, 0, 1][..],
        &[0, 0, 2, 9],
        &[1, 0, 0, 9],
        &[0, 0, 1, 1, 2, 3, 4, 5],
    ] {
        let wrong = wire(0xFF, WRITE, payload);
        assert_eq!(bench.outcome(&wrong).0, Outcome::Silent);
    }
    assert_eq!(
        bench.outcome(&wire(0xF8, READ, &[0, 0, 1])).0,
        Outcome::Silent
    );
    assert_eq!(bench.refused(&wire(0xF9, WRITE, &[0, 0, 1, 9])), 6);
    assert_eq!(bench.state(), before);
}

#[test]
fn a_length_out_of_range_makes_the_board_unusable_to_all_but_a_fresh_board() {
    for mut bench in boards() {
        for place in places(&bench) {
            for wrong in out_of_range(place.size) {
                let right = bench.lengths[place.length];
                bench.lengths[place.length] = wrong;
                assert!(bench.unusable_as_lent(), "{} of {}", wrong, place.size);
                bench.lengths[place.length] = right;
            }
            for length in some_lengths(place.size) {
                bench.lengths[place.length] = length as u16;
                assert!(!bench.unusable(), "{} of {}", length, place.size);
            }
        }
    }
}

#[test]
fn lengths_not_one_per_block_make_the_board_unusable() {
    for mut bench in boards() {
        let right = bench.lengths.clone();
        let blocks = right.len();
        let wrong = [
            0,
            1,
            blocks / 2,
            blocks.saturating_sub(1),
            blocks + 1,
            2 * blocks + 1,
        ];
        for count in wrong.into_iter().filter(|count| *count != blocks) {
            bench.lengths.resize(count, 1);
            assert!(bench.unusable(), "{} for {}", count, blocks);
            bench.lengths = right.clone();
        }
        assert!(!bench.unusable());
    }
}

#[test]
fn lengths_for_the_bytes_or_for_the_curves_are_not_lengths_for_the_blocks() {
    for count in [1, 8] {
        let mut bench = Bench::a();
        bench.lengths = vec![4; count];
        assert!(bench.unusable(), "one curve, 2 blocks, 8 bytes");
    }
}

#[test]
fn with_lengths_that_are_wrong_what_would_go_well_or_be_refused_later_is_refusal_1() {
    for lengths in [
        vec![],
        vec![4],
        vec![4, 4, 4],
        vec![0, 4],
        vec![4, 5],
        vec![4, 0xFFFF],
    ] {
        let mut bench = Bench::a();
        bench.lengths = lengths;
        let requests = [
            wire(5, READ, &[0, 0, 0]),
            wire(5, WRITE, &[0, 0, 0, 9]),
            wire(5, WRITE, &[0, 0, 1, 9, 9, 9, 9]),
            wire(0xF8, WRITE, &[0, 0, 1, 9]),
            wire(5, RENEW, &[0]),
            wire(5, 0x0A, &[0]),
            wire(5, 0x20, &[1, 9]),
            wire(5, 0x30, &[1]),
            wire(5, 0x50, &[0, 9]),
            wire(6, 0x00, &[]),
            vec![],
        ];
        all_refused(&mut bench, &requests);
    }
}

#[test]
fn on_a_fresh_board_every_block_is_full_and_sums_are_of_full_blocks() {
    for right in boards() {
        let mut expected = right.clone();
        for curve in 0..count(&right) {
            assert_eq!(expected.ask(RENEW, &[curve]).0, 0xE0);
        }
        for length in [0, 1, 2, 4097, 0xFFFF] {
            let mut bench = right.clone();
            bench.lengths.fill(length);
            assert_eq!(bench.fresh(), Ok(()));
            assert_eq!(bench.lengths, full(&bench.curves));
            assert!(bench.state() == expected.state());
        }
    }
}

#[test]
fn after_a_fresh_board_a_block_reads_whole_stale_bytes_too() {
    let mut bench = Bench::a();
    assert_eq!(bench.ask(WRITE, &[0, 0, 1, 1, 2, 3, 4]).0, 0xE0);
    assert_eq!(bench.ask(WRITE, &[0, 0, 1, 9]).0, 0xE0);
    assert_eq!(block(&mut bench, 0, 1), [9]);
    assert_eq!(bench.fresh(), Ok(()));
    assert_eq!(block(&mut bench, 0, 1), [9, 2, 3, 4]);
}

#[test]
fn a_fresh_board_that_is_refused_changes_no_length() {
    // What is wrong with the board beside the lengths, or in their count.
    let breaks: [fn(&mut Bench); 9] = [
        |bench| bench.variables[0].size = 3,
        |bench| bench.functions[1] = 16,
        |bench| bench.values.push(0),
        |bench| bench.blocks.push(0),
        |bench| bench.sums.truncate(16),
        |bench| bench.groups.count = 6,
        |bench| bench.curves[0] = 2,
        |bench| bench.lengths.push(4),
        |bench| bench.lengths.truncate(1),
    ];
    for broken in breaks {
        let mut bench = board(&CURVES);
        bench.lengths.fill(1);
        broken(&mut bench);
        let before = bench.state();
        assert_eq!(bench.fresh(), Err(1));
        assert_eq!(bench.state(), before);
    }
}

#[test]
fn no_other_message_and_no_result_or_board_store_touches_a_length() {
    let mut bench = Bench::a();
    bench.lengths = vec![3, 1];
    let requests = [
        (0x00, vec![]),
        (0x08, vec![]),
        (0x0A, vec![0]),
        (0x10, vec![1]),
        (0x20, vec![1, 9]),
        (0x22, vec![2, 7, 8, 9]),
        (0x24, vec![1, 0x54, 9]),
        (0x26, vec![2, 0x54, 7, 8, 9]),
        (0x28, vec![1, 2, 9]),
        (0x30, vec![1]),
        (0x32, vec![]),
        (0x40, vec![0, 0, 1]),
        (0x42, vec![0]),
    ];
    for (command, payload) in requests {
        assert!(bench.ask(command, &payload).0 <= 0xE0, "no error");
        assert_eq!(bench.lengths, [3, 1], "{:02X}", command);
    }
    let run = bench.outcome(&wire(5, 0x50, &[0, 9])).0;
    assert!(matches!(run, Outcome::Run { .. }));
    assert_eq!(bench.result(0, true, Ran::Well, &[1, 2]), Outcome::Reply(7));
    assert_eq!(bench.store(0, &[1, 2, 3, 4]), Ok(()));
    assert_eq!(bench.lengths, [3, 1]);
}

#[test]
fn writes_reads_and_renewals_at_random_as_blocks_kept_beside_them_say() {
    let mut random = Random::new(94);
    let mut bench = board(&[1, 4, 3, 1, 1, 2, 1, 9, 2]);
    let places = places(&bench);
    let mut kept: Vec<Vec<u8>> = places
        .iter()
        .map(|place| bench.blocks[place.start..place.start + place.size].to_vec())
        .collect();
    for _ in 0..5_000 {
        let at = random.below(places.len());
        let place = &places[at];
        match random.below(4) {
            0 | 1 => {
                let length = random.within(1, place.size);
                kept[at] = random.bytes(length);
                writes(&mut bench, place, &kept[at]);
            }
            2 => assert_eq!(block(&mut bench, place.curve, place.number), kept[at]),
            _ => {
                assert_eq!(bench.ask(RENEW, &[place.curve]).0, 0xE0);
                let of_curve = places.iter().zip(&kept);
                let of_curve = of_curve.filter(|(other, _)| other.curve == place.curve);
                let content: Vec<u8> = of_curve.flat_map(|(_, block)| block.clone()).collect();
                assert_eq!(bench.sums[sum_place(place.curve)], md5(&content));
            }
        }
    }
}
