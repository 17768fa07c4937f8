//! Refusal 1: every way to break the table of what is allowed, and its limits, which break nothing.
use crate::calls::{refusal, Entry, NUMBERS, WHOLE_BOARD};
use cruachvel::{Curve, Groups, Kind, Variable};
use suite::boards::{board_a, fill_up};
use suite::faults::faults;
use suite::lent::Lent;

fn accepted_by_all(lent: &Lent, name: &str) {
    for entry in WHOLE_BOARD.into_iter().chain(NUMBERS) {
        assert_eq!(refusal(lent, entry), None, "{}: {:?}", name, entry);
    }
}

#[test]
fn refusal_1_for_every_way_to_break_the_table() {
    for fault in faults() {
        let mut lent = board_a();
        fault.prepare(&mut lent);
        accepted_by_all(&lent, &format!("just before: {}", fault.name));
        fault.spoil(&mut lent);
        for entry in WHOLE_BOARD {
            let taken = fault.set_by_fresh && matches!(entry, Entry::FreshBoard);
            let expected = if taken { None } else { Some(1) };
            assert_eq!(
                refusal(&lent, entry),
                expected,
                "{}: {:?}",
                fault.name,
                entry
            );
        }
        for entry in NUMBERS {
            let expected = if fault.in_variables { Some(1) } else { None };
            assert_eq!(
                refusal(&lent, entry),
                expected,
                "{}: {:?}",
                fault.name,
                entry
            );
        }
    }
}

// One that is refused for its lengths alone is brought to rights by a fresh board, and is then as if it had had the right ones.
#[test]
fn a_fresh_board_sets_lengths_that_are_out_of_range() {
    let faults = faults().into_iter().filter(|fault| fault.set_by_fresh);
    for fault in faults {
        let mut lent = board_a();
        fault.prepare(&mut lent);
        let right = lent.clone().fresh();
        fault.spoil(&mut lent);
        assert_ne!(lent, right, "{}", fault.name);
        assert_eq!(lent.fresh_board(), Ok(()), "{}", fault.name);
        assert_eq!(lent, right, "{}", fault.name);
    }
}

#[test]
fn the_limits_themselves_are_usable() {
    let mut lent = board_a();
    fill_up(&mut lent.variables);
    assert!(lent.variables.iter().any(|variable| variable.size == 127));
    lent.functions = [1, 2].into_iter().chain([15; 30]).collect();
    lent.groups.count = 5;
    lent.groups.sets = [1; 5];
    let curves: [&[Curve]; 4] = [
        &[],
        &[Curve::read_only(1, 65536)],
        &[Curve::writable(4096, 16)],
        &[Curve::writable(4096, 2); 8],
    ];
    for curves in curves {
        lent.curves = Curve::numbers(curves).to_vec();
        lent.refit();
        accepted_by_all(&lent, &format!("{:?}", curves));
        lent.lengths.fill(1);
        accepted_by_all(&lent, &format!("{:?}, all blocks of 1 byte", curves));
    }
    lent.functions.truncate(2);
    lent.variables
        .resize(64, Variable::writable(1, Kind::Plain));
    lent.variables.truncate(3);
    lent.variables
        .resize(64, Variable::writable(1, Kind::Plain));
    lent.refit();
    accepted_by_all(&lent, "64 variables");
}

#[test]
fn numbers_of_1_2_4_and_8_bytes_are_usable_in_every_kind() {
    for kind in Kind::ALL {
        for size in [1, 2, 4, 8] {
            let mut lent = board_a();
            lent.variables.push(Variable::read_only(size, kind));
            lent.refit();
            accepted_by_all(&lent, &format!("{:?} of {} bytes", kind, size));
        }
    }
}

#[test]
fn unused_places_of_the_group_table_break_nothing() {
    let rubbish = [0, u64::MAX, 1 << 63, 0b1000, 0];
    for count in 0..5 {
        let mut lent = board_a();
        lent.groups = Groups {
            count: count as u64,
            sets: rubbish,
        };
        lent.groups.sets[..count].fill(0b101);
        accepted_by_all(&lent, &format!("{} made groups", count));
    }
}
