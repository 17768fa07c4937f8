//! Laws of 01 on compiled code, over random boards, right and wrong, and random packets: what each way to end may leave changed.
use cruachvel::{md5, Outcome, SUM_SIZE};
use suite::boards::usable;
use suite::faults::faults;
use suite::lent::{full_lengths, members, Lent};
use suite::packets::{message, packet, Draft, Drawer};
use suite::random::Random;

const BOARDS: usize = 400;
const PACKETS: usize = 40;

/// How a packet ended, by what it may have left behind.
#[derive(Clone, Copy, Debug, PartialEq, Eq)]
enum End {
    Refused,
    Error,
    Answer,
    Silence,
    Run,
}

fn small_board(random: &mut Random) -> Lent {
    let mut lent = usable(random);
    while lent.blocks.len() > 4096 {
        lent = usable(random);
    }
    lent
}

fn drawn(random: &mut Random, lent: &Lent) -> (Vec<u8>, Draft) {
    let groups = &lent.groups;
    Drawer {
        random,
        lent,
        groups,
    }
    .packet()
}

// Packets on small boards: each board before and after it, and the packet with its draft.
fn for_each_packet(seed: u64, mut look: impl FnMut(&Lent, &Lent, &[u8], &Draft)) {
    let mut random = Random::new(seed);
    for _ in 0..BOARDS {
        let mut lent = small_board(&mut random);
        for _ in 0..PACKETS {
            let before = lent.clone();
            let (request, draft) = drawn(&mut random, &before);
            lent.packet(draft.busy, &request, &mut [0; 4104]);
            look(&before, &lent, &request, &draft);
        }
    }
}

fn judge(outcome: Outcome) -> (End, usize) {
    match outcome {
        Outcome::Refused(_) => (End::Refused, 0),
        Outcome::Reply(reply) if (0xE1..=0xE8).contains(&reply[1]) => (End::Error, reply.len()),
        Outcome::Reply(reply) => (End::Answer, reply.len()),
        Outcome::Silence => (End::Silence, 0),
        Outcome::Run { .. } => (End::Run, 0),
    }
}

// One packet; its destination decides whether it may be answered.
fn obeys(random: &mut Random, lent: &mut Lent) -> End {
    let before = lent.clone();
    let (request, draft) = drawn(random, &before);
    let mut reply = [0x5C; 4104];
    let (end, length) = judge(lent.packet(draft.busy, &request, &mut reply));
    let told = || format!("{:02X?} ended in {:?}", draft, end);
    let sum = |bytes: &[u8]| bytes.iter().fold(0u8, |sum, byte| sum.wrapping_add(*byte));
    let (written, rest) = reply.split_at(length);
    assert!(
        rest.iter().all(|byte| *byte == 0x5C),
        "{}: a byte past the reply",
        told()
    );
    assert!(
        length == 0 || written[0] == 0,
        "{}: a reply goes to destination 0",
        told()
    );
    assert_eq!(sum(written), 0, "{}: a reply's bytes sum to 0", told());
    if request[0] >= 248 {
        assert!(
            !matches!(end, End::Error | End::Answer),
            "{}: a multicast was answered",
            told()
        );
    }
    if matches!(end, End::Refused | End::Error | End::Run) {
        assert_eq!(*lent, before, "{}: something changed", told());
    }
    end
}

#[test]
fn a_packet_leaves_what_its_ending_allows() {
    let mut random = Random::new(21);
    let faults = faults();
    let mut ends = Vec::new();
    for board in 0..BOARDS {
        let mut lent = small_board(&mut random);
        if board % 10 == 0 {
            let fault = &faults[random.below(faults.len())];
            fault.prepare(&mut lent);
            fault.spoil(&mut lent);
        }
        ends.extend((0..PACKETS).map(|_| obeys(&mut random, &mut lent)));
    }
    for end in [
        End::Refused,
        End::Error,
        End::Answer,
        End::Silence,
        End::Run,
    ] {
        assert!(ends.contains(&end), "no packet ended in {:?}", end);
    }
}

#[test]
fn a_board_store_changes_the_bytes_of_that_variable_alone() {
    let mut random = Random::new(22);
    for _ in 0..BOARDS {
        let mut lent = small_board(&mut random);
        let variable = random.below(lent.variables.len());
        let bytes = random.bytes(lent.variables[variable].size.into());
        let mut expected = lent.clone();
        expected.values.splice(lent.place(variable), bytes.clone());
        assert_eq!(lent.board_store(variable, &bytes), Ok(()));
        assert_eq!(lent, expected);
    }
}

#[test]
fn a_group_write_stores_all_members_or_none() {
    let mut random = Random::new(23);
    let (mut stored, mut stopped) = (0, 0);
    for _ in 0..BOARDS {
        let mut lent = small_board(&mut random);
        let set = lent.group_sets(&lent.groups)[2];
        let values = random.bytes(lent.set_bytes(set));
        let busy = 1 << random.below(64);
        let request = packet(
            lent.address.own,
            &message(0x22, &[&[2], &values[..]].concat()),
        );
        let before = lent.clone();
        let mut reply = [0; 4104];
        let answer = match lent.packet(busy, &request, &mut reply) {
            Outcome::Reply(reply) => reply[1],
            other => panic!("{:?}", other),
        };
        let mut expected = before.clone();
        if busy & set == 0 {
            let mut rest = &values[..];
            for variable in members(set) {
                let (value, others) = rest.split_at(lent.variables[variable].size.into());
                expected.values[lent.place(variable)].copy_from_slice(value);
                rest = others;
            }
            stored += 1;
        } else {
            stopped += 1;
        }
        assert_eq!(answer, if busy & set == 0 { 0xE0 } else { 0xE8 });
        assert_eq!(lent, expected);
    }
    assert!(
        stored > 0 && stopped > 0,
        "{} stored, {} stopped",
        stored,
        stopped
    );
}

// How many curves a board has.
fn curves(lent: &Lent) -> usize {
    lent.curves.len() / 3
}

// What 42 of a curve, or of each of a fresh board, makes of a state.
fn renewed(before: &Lent, curves: impl Iterator<Item = usize>) -> Lent {
    let mut after = before.clone();
    for curve in curves {
        let sum = md5(&before.curve_bytes(curve));
        after.sums[curve * SUM_SIZE..(curve + 1) * SUM_SIZE].copy_from_slice(&sum);
    }
    after
}

// Block writes among the packets leave sums stale, answered or not.
#[test]
fn packets_change_sums_by_42_alone_and_then_nothing_else() {
    let mut renewals = 0;
    for_each_packet(26, |before, after, request, draft| {
        if after.sums != before.sums {
            assert_eq!(request[1..4], [0x42, 0, 1], "{:02X?}", draft);
            let curve = usize::from(request[4]);
            assert_eq!(*after, renewed(before, std::iter::once(curve)));
            renewals += 1;
        }
    });
    assert!(
        renewals > BOARDS / 10,
        "only {} sums were renewed",
        renewals
    );
}

#[test]
fn a_fresh_board_has_full_blocks_and_their_sums_and_nothing_else_changes() {
    let mut random = Random::new(27);
    for _ in 0..BOARDS {
        let mut lent = small_board(&mut random);
        let mut full = lent.clone();
        full.lengths = full_lengths(&lent.curves);
        let expected = renewed(&full, 0..curves(&lent));
        if random.once_in(2) {
            lent.lengths.fill_with(|| random.number() as u16);
        }
        assert_eq!(lent.fresh_board(), Ok(()));
        assert_eq!(lent, expected);
    }
}

#[test]
fn a_sum_is_read_as_it_stands_and_is_that_of_the_curve_after_42() {
    let mut random = Random::new(28);
    for _ in 0..BOARDS {
        let mut lent = small_board(&mut random);
        for curve in 0..curves(&lent) {
            let (number, before) = (curve as u8, lent.clone());
            let stands = message(0x0B, before.sum(curve));
            assert_eq!(lent.ask(&message(0x0A, &[number])), stands);
            assert_eq!(lent, before);
            assert_eq!(lent.ask(&message(0x42, &[number])), [0xE0, 0, 0]);
            assert_eq!(lent, renewed(&before, curve..curve + 1));
            let sum = message(0x0B, &md5(&lent.curve_bytes(curve)));
            assert_eq!(lent.ask(&message(0x0A, &[number])), sum);
        }
    }
}

// A block of a writable curve, if the board has one: its curve and number, and how many bytes it takes.
fn some_block(random: &mut Random, lent: &Lent) -> Option<([u8; 3], usize)> {
    let records = lent.curves.chunks_exact(3).zip(0..);
    let writable: Vec<(&[u32], u8)> = records.filter(|(record, _)| record[0] == 1).collect();
    let (record, curve) = *writable.get(random.below(writable.len()))?;
    let [high, low] = (random.below(record[2] as usize) as u16).to_be_bytes();
    Some(([curve, high, low], record[1] as usize))
}

#[test]
fn a_block_is_read_as_it_was_written_be_it_shorter_or_longer_than_before() {
    let mut random = Random::new(29);
    let (mut shorter, mut longer, mut last) = (0, 0, 0);
    for _ in 0..BOARDS {
        let mut lent = small_board(&mut random);
        if let Some((front, size)) = some_block(&mut random, &lent) {
            for _ in 0..PACKETS / 4 {
                let length = random.within(1, size);
                let block = [&front[..], &random.bytes(length)].concat();
                assert_eq!(lent.ask(&message(0x41, &block)), [0xE0, 0, 0]);
                assert_eq!(lent.ask(&message(0x40, &front)), message(0x41, &block));
                shorter += usize::from(length < last);
                longer += usize::from(length > last);
                last = length;
            }
        }
    }
    assert!(shorter > BOARDS && longer > BOARDS);
}

// Two states that differ past the lengths alone.
fn stale_twins(random: &mut Random) -> (Lent, Lent) {
    let left = small_board(random);
    let mut right = left.clone();
    random.fill(&mut right.blocks);
    let mut held = left.lengths.iter();
    for curve in 0..curves(&left) {
        let size = left.curves[3 * curve + 1] as usize;
        let place = left.curve_place(curve);
        let rooms = right.blocks[place.clone()].chunks_mut(size);
        for (room, old) in rooms.zip(left.blocks[place].chunks(size)) {
            let length = held.next().map_or(0, |length| usize::from(*length));
            room[..length].copy_from_slice(&old[..length]);
        }
    }
    (left, right)
}

// As far as calls show it: stale bytes are left out.
fn shown(lent: &Lent) -> (Lent, Vec<Vec<u8>>) {
    let held = (0..curves(lent)).map(|curve| lent.curve_bytes(curve));
    let held = held.collect();
    let blocks = Vec::new();
    (
        Lent {
            blocks,
            ..lent.clone()
        },
        held,
    )
}

#[test]
fn stale_bytes_are_never_shown_but_by_a_fresh_board() {
    let mut random = Random::new(30);
    let mut apart = 0;
    for _ in 0..BOARDS {
        let (mut left, mut right) = stale_twins(&mut random);
        for _ in 0..PACKETS {
            let (request, draft) = drawn(&mut random, &left);
            let (mut one, mut other) = ([0; 4104], [0; 4104]);
            let ended = left.packet(draft.busy, &request, &mut one);
            assert_eq!(ended, right.packet(draft.busy, &request, &mut other));
            assert_eq!(shown(&left), shown(&right), "{:02X?}", draft);
        }
        let differ = left.blocks != right.blocks;
        assert_eq!([left.fresh_board(), right.fresh_board()], [Ok(()); 2]);
        assert_eq!(left.sums != right.sums, differ);
        apart += usize::from(differ);
    }
    assert!(apart > BOARDS / 10, "only {} pairs differed", apart);
}

#[test]
fn packets_change_lengths_by_41_alone_and_keep_them_in_range() {
    let mut set = 0;
    for_each_packet(31, |before, after, request, draft| {
        let full = full_lengths(&after.curves);
        let mut pairs = after.lengths.iter().zip(&full);
        assert!(pairs.all(|(length, full)| (1..=*full).contains(length)));
        if after.lengths != before.lengths {
            assert_eq!(request[1], 0x41, "{:02X?}", draft);
            let block = usize::from(u16::from_be_bytes([request[5], request[6]]));
            let place = after.length_place(request[4].into()).start + block;
            let mut expected = before.lengths.clone();
            expected[place] = (request.len() - 8) as u16;
            assert_eq!(after.lengths, expected, "{:02X?}", draft);
            set += 1;
        }
    });
    assert!(set > BOARDS / 10, "only {} lengths were set", set);
}

#[test]
fn what_was_written_is_read() {
    let mut random = Random::new(24);
    for _ in 0..BOARDS {
        let mut lent = small_board(&mut random);
        let variable = random.below(lent.variables.len());
        lent.variables[variable].writable = 1;
        let value = random.bytes(lent.variables[variable].size.into());
        let number = variable as u8;
        let written = lent.ask(&message(0x20, &[&[number], &value[..]].concat()));
        assert_eq!(written, [0xE0, 0, 0]);
        assert_eq!(lent.ask(&message(0x10, &[number])), message(0x11, &value));
        let other = random.bytes(value.len());
        let answer = lent.ask(&message(0x28, &[&[number, number], &other[..]].concat()));
        assert_eq!(answer, message(0x11, &other), "28 answers after the write");
    }
}

#[test]
fn groups_3_to_7_come_and_go_and_0_to_2_stay() {
    let mut random = Random::new(25);
    for _ in 0..BOARDS / 10 {
        let mut lent = small_board(&mut random);
        lent.groups.count = 0;
        let standard = lent.ask(&message(0x04, &[]));
        for made in 0..7 {
            let answer = lent.ask(&message(0x30, &[0]));
            assert_eq!(
                answer[0],
                if made < 5 { 0xE0 } else { 0xE7 },
                "group {}",
                made + 3
            );
        }
        assert_eq!(lent.ask(&message(0x06, &[7])), message(0x07, &[0]));
        let places = lent.groups.sets;
        assert_eq!(lent.ask(&message(0x32, &[])), [0xE0, 0, 0]);
        assert_eq!((lent.groups.count, lent.groups.sets), (0, places));
        assert_eq!(lent.ask(&message(0x04, &[])), standard);
        assert_eq!(lent.ask(&message(0x06, &[3])), [0xE3, 0, 0]);
    }
}
