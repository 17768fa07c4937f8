//! Busy marks: what they stop, by 01 as 2026-01 amends it, and what goes by no mark.
use crate::bench::{hex, variable, wire, Bench};
use suite::second::{Groups, Outcome};

// Board A with these marks, and with group 3 made of variables 0 and 2.
fn marked(busy: u64) -> Bench {
    let mut bench = Bench::a();
    bench.groups = Groups {
        count: 1,
        sets: [0b101, 0, 0, 0, 0],
    };
    // Stale, so that a 42 that a mark stopped would show.
    bench.sums = vec![9; 16];
    bench.busy = busy;
    bench
}

fn is_busy(busy: u64, variable: u8) -> bool {
    busy >> variable & 1 == 1
}

// The request gets no error, and the same answer and state as with nothing busy.
fn goes_by_no_mark(busy: u64, command: u8, payload: &[u8]) {
    let (mut bench, mut free) = (marked(busy), marked(0));
    let answer = bench.ask(command, payload);
    assert_eq!(answer, free.ask(command, payload), "{:02X}", command);
    assert!(answer.0 <= 0xE0, "no error");
    assert_eq!(bench.state(), free.state());
}

#[test]
fn writing_a_busy_variable_gets_e8() {
    let mut bench = marked(u64::MAX);
    assert_eq!(bench.error(0x20, &[1, 0]), 0xE8);
    assert_eq!(bench.error(0x24, &[1, 0x53, 0]), 0xE8);
    for busy in [0b010, 0b100] {
        bench.busy = busy;
        assert_eq!(bench.error(0x22, &[2, 0, 0, 0]), 0xE8, "any member");
        assert_eq!(bench.error(0x26, &[2, 0x53, 0, 0, 0]), 0xE8);
    }
    bench.busy = !0b010;
    assert_eq!(bench.ask(0x20, &[1, 9]).0, 0xE0, "the others' marks");
    assert_eq!(bench.ask(0x24, &[1, 0x53, 1]).0, 0xE0);
}

#[test]
fn reading_a_busy_variable_by_10_gets_e8_read_only_or_writable() {
    let values = [hex("FF FF FF FD"), hex("5A"), hex("34 12")];
    for busy in 0..8 {
        let mut bench = marked(busy);
        for (number, value) in (0..).zip(&values) {
            if is_busy(busy, number) {
                assert_eq!(bench.error(0x10, &[number]), 0xE8);
            } else {
                assert_eq!(bench.ask(0x10, &[number]), (0x11, value.clone()));
            }
        }
    }
}

#[test]
fn reading_by_12_gets_e8_with_any_busy_member_and_by_no_other_mark() {
    let groups = [
        (0b111, hex("FF FF FF FD 5A 34 12")),
        (0b001, hex("FF FF FF FD")),
        (0b110, hex("5A 34 12")),
        (0b101, hex("FF FF FF FD 34 12")),
    ];
    for busy in 0..8 {
        let mut bench = marked(busy);
        for (group, (members, values)) in (0..).zip(&groups) {
            if busy & members != 0 {
                assert_eq!(bench.error(0x12, &[group]), 0xE8);
            } else {
                assert_eq!(bench.ask(0x12, &[group]), (0x13, values.clone()));
            }
        }
    }
}

#[test]
fn an_empty_group_has_no_busy_member() {
    for (writable, empty) in [(1, 1), (0, 2)] {
        let mut bench = Bench::with(&[variable(writable, 1, 0); 2], &[], &[]);
        bench.busy = u64::MAX;
        assert_eq!(bench.ask(0x12, &[empty]), (0x13, vec![]));
        assert_eq!(bench.error(0x12, &[0]), 0xE8);
        assert_eq!(bench.error(0x12, &[3 - empty]), 0xE8);
    }
}

#[test]
fn twenty_eight_with_the_written_the_read_or_both_busy_gets_e8() {
    for busy in [0b010, 0b100, 0b110] {
        assert_eq!(marked(busy).error(0x28, &[1, 2, 0x77]), 0xE8);
        assert_eq!(marked(busy).error(0x28, &[2, 1, 0x77, 0x78]), 0xE8);
    }
    assert_eq!(marked(0b001).error(0x28, &[1, 0, 0x77]), 0xE8, "read-only");
    let mut bench = marked(0b001);
    assert_eq!(bench.ask(0x28, &[1, 2, 0x77]), (0x11, hex("34 12")));
    assert_eq!(bench.values, hex("FF FF FF FD 77 34 12"));
}

#[test]
fn twenty_eight_of_the_same_variable_twice_goes_by_its_one_mark() {
    assert_eq!(marked(0b010).error(0x28, &[1, 1, 0x77]), 0xE8);
    let mut bench = marked(!0b010);
    assert_eq!(bench.ask(0x28, &[1, 1, 0x77]), (0x11, vec![0x77]));
    assert_eq!(bench.values, hex("FF FF FF FD 77 34 12"));
}

#[test]
fn twenty_eight_of_any_two_variables_with_any_marks_and_lengths() {
    let sizes = [4, 1, 2];
    for (busy, length) in (0..8).flat_map(|busy| (0..6).map(move |length| (busy, length))) {
        for (written, read) in (0..4).flat_map(|one| (0..4).map(move |other| (one, other))) {
            let payload = [&[written, read][..], &vec![0x77; length]].concat();
            let expected = if written == 3 || read == 3 {
                0xE3
            } else if length != sizes[usize::from(written)] {
                0xE5
            } else if written == 0 {
                0xE6
            } else if is_busy(busy, written) || is_busy(busy, read) {
                0xE8
            } else {
                assert_eq!(marked(busy).ask(0x28, &payload).0, 0x11);
                continue;
            };
            assert_eq!(marked(busy).error(0x28, &payload), expected);
        }
    }
}

#[test]
fn marks_past_the_last_variable_count_for_nothing() {
    let requests = [
        (0x10, vec![2]),
        (0x12, vec![0]),
        (0x12, vec![3]),
        (0x20, vec![2, 8, 9]),
        (0x22, vec![2, 7, 8, 9]),
        (0x28, vec![2, 1, 8, 9]),
        (0x28, vec![1, 2, 9]),
    ];
    for (command, payload) in requests {
        for busy in (3..64).map(|number| 1 << number).chain([!0b111]) {
            goes_by_no_mark(busy, command, &payload);
        }
    }
}

#[test]
fn bit_63_is_the_mark_of_variable_63() {
    let mut bench = Bench::with(&[variable(1, 1, 0); 64], &[], &[]);
    assert_eq!(bench.ask(0x30, &[0, 62]).0, 0xE0);
    bench.busy = 1 << 63;
    assert_eq!(bench.error(0x10, &[63]), 0xE8);
    assert_eq!(bench.error(0x12, &[0]), 0xE8);
    assert_eq!(bench.error(0x28, &[0, 63, 9]), 0xE8);
    assert_eq!(bench.error(0x28, &[63, 0, 9]), 0xE8);
    assert_eq!(bench.ask(0x10, &[62]), (0x11, vec![63]));
    assert_eq!(bench.ask(0x12, &[3]), (0x13, vec![1, 63]));
    assert_eq!(bench.ask(0x28, &[0, 62, 9]), (0x11, vec![63]));
}

#[test]
fn lists_groups_and_curves_go_by_no_mark() {
    let requests = [
        (0x00, vec![]),
        (0x02, vec![]),
        (0x04, vec![]),
        (0x06, vec![0]),
        (0x06, vec![3]),
        (0x08, vec![]),
        (0x0A, vec![0]),
        (0x0C, vec![]),
        (0x30, vec![0, 1, 2]),
        (0x32, vec![]),
        (0x40, vec![0, 0, 1]),
        (0x41, vec![0, 0, 1, 9]),
        (0x42, vec![0]),
    ];
    for (command, payload) in requests {
        goes_by_no_mark(u64::MAX, command, &payload);
    }
}

#[test]
fn functions_are_to_be_run_whatever_is_busy() {
    for (destination, due) in [(5, true), (0xFF, false)] {
        let run = Outcome::Run {
            function: 0,
            input: 1,
            due,
        };
        let request = wire(destination, 0x50, &[0, 7]);
        assert_eq!(marked(u64::MAX).outcome(&request).0, run);
    }
}

#[test]
fn a_multicast_28_with_either_variable_busy_is_silent_and_changes_nothing() {
    let request = wire(0xF8, 0x28, &[1, 2, 0x77]);
    for busy in [0b010, 0b100, 0b110] {
        let mut bench = marked(busy);
        assert_eq!(bench.outcome(&request).0, Outcome::Silent);
        assert_eq!(bench.state(), marked(0).state());
    }
    let mut bench = marked(0b001);
    assert_eq!(bench.outcome(&request).0, Outcome::Silent);
    assert_eq!(bench.values, hex("FF FF FF FD 77 34 12"));
}

#[test]
fn a_multicast_read_of_busy_variables_is_silent_too() {
    for request in [wire(0xF8, 0x10, &[1]), wire(0xFF, 0x12, &[0])] {
        let mut bench = marked(u64::MAX);
        assert_eq!(bench.outcome(&request).0, Outcome::Silent);
        assert_eq!(bench.state(), marked(0).state());
    }
}

#[test]
fn marks_come_with_each_packet_so_a_later_read_gets_the_value() {
    let mut bench = marked(0b001);
    assert_eq!(bench.error(0x10, &[0]), 0xE8);
    assert_eq!(bench.store(0, &[1, 2, 3, 4]), Ok(()), "busy too");
    assert_eq!(bench.error(0x10, &[0]), 0xE8);
    assert_eq!(bench.error(0x28, &[1, 0, 0x77]), 0xE8);
    bench.busy = 0;
    assert_eq!(bench.ask(0x10, &[0]), (0x11, vec![1, 2, 3, 4]));
    assert_eq!(bench.ask(0x10, &[1]), (0x11, vec![0x5A]), "not written");
    assert_eq!(bench.ask(0x28, &[1, 0, 0x77]), (0x11, vec![1, 2, 3, 4]));
}
