//! Every wire error and every pair of them, in a message of every command that can have them: the one that 01 tests first is answered,
//! and nothing is changed.
use cruachvel::{Address, Curve, Groups, Kind, Variable};
use suite::lent::Lent;
use suite::packets::{packet, Draft, Drawer, Wrong, COMMANDS};
use suite::random::Random;

const TRIES: usize = 60;

// Of every sort one thing that can be written and one that can't, so that any error can be had without another.
fn rich_board() -> Lent {
    let lent = Lent {
        variables: vec![
            Variable::read_only(4, Kind::SignedBig),
            Variable::writable(3, Kind::Plain),
            Variable::writable(2, Kind::UnsignedLittle),
            Variable::writable(8, Kind::SignedLittle),
            Variable::read_only(1, Kind::UnsignedBig),
        ],
        curves: Curve::numbers(&[Curve::writable(4, 3), Curve::read_only(5, 2)]).to_vec(),
        functions: vec![3, 2, 15, 0],
        groups: Groups {
            count: 2,
            sets: [0b01110, 0b11111, 0, 0, 0],
        },
        address: Address {
            own: 9,
            multicast: 0x01,
        },
        values: Vec::new(),
        blocks: Vec::new(),
        lengths: Vec::new(),
        sums: Vec::new(),
    };
    lent.fresh()
}

// The same with five groups made, which is what E7 needs.
fn board_for(wrongs: &[Wrong]) -> Lent {
    let mut lent = rich_board();
    if wrongs.contains(&Wrong::Full) {
        lent.groups.count = 5;
        lent.groups.sets = [0b00010, 0b00110, 0b01110, 0b11111, 0b00001];
    }
    lent
}

fn draft(random: &mut Random, lent: &Lent, command: u8, wrongs: &[Wrong]) -> Draft {
    let groups = &lent.groups;
    Drawer {
        random,
        lent,
        groups,
    }
    .draft(command, wrongs)
}

fn answered_first_in_order(random: &mut Random, command: u8, wrongs: &[Wrong]) {
    let lent = board_for(wrongs);
    let draft = draft(random, &lent, command, wrongs);
    let request = packet(lent.address.own, &draft.message);
    let expected = packet(0, &[wrongs[0].error(), 0, 0]);
    let mut after = lent.clone();
    let mut reply = [0x5C; 4104];
    let outcome = after.packet(draft.busy, &request, &mut reply);
    assert_eq!(
        outcome,
        cruachvel::Outcome::Reply(&expected),
        "{:02X?} with busy marks {:X}",
        draft,
        draft.busy
    );
    assert_eq!(after, lent, "{:02X?} changed something", draft);
}

#[test]
fn the_error_that_01_tests_first_is_answered() {
    let mut random = Random::new(7);
    for command in COMMANDS {
        let wrongs: Vec<Wrong> = Wrong::ALL
            .into_iter()
            .filter(|wrong| wrong.concerns(command))
            .collect();
        for (place, first) in wrongs.iter().enumerate() {
            for _ in 0..TRIES {
                answered_first_in_order(&mut random, command, &[*first]);
            }
            for second in &wrongs[place + 1..] {
                for _ in 0..TRIES {
                    answered_first_in_order(&mut random, command, &[*first, *second]);
                }
            }
        }
    }
}

#[test]
fn a_message_with_nothing_wrong_gets_no_error() {
    let mut random = Random::new(8);
    for command in COMMANDS {
        for _ in 0..TRIES {
            let mut lent = rich_board();
            let draft = draft(&mut random, &lent, command, &[]);
            let request = packet(lent.address.own, &draft.message);
            let mut reply = [0; 4104];
            match lent.packet(draft.busy, &request, &mut reply) {
                cruachvel::Outcome::Reply(reply) => {
                    assert!(!(0xE1..=0xE8).contains(&reply[1]), "{:02X?}", draft)
                }
                cruachvel::Outcome::Run { .. } => assert_eq!(command, 0x50),
                other => panic!("{:02X?} ended in {:?}", draft, other),
            }
        }
    }
}

// A sum is neither a thing that is written nor a variable.
#[test]
fn sums_are_read_and_renewed_whatever_is_read_only_or_busy() {
    for (command, answer) in [(0x0A, 0x0B), (0x42, 0xE0)] {
        for curve in [0, 1] {
            let mut lent = rich_board();
            let message = suite::packets::message(command, &[curve]);
            let request = packet(lent.address.own, &message);
            match lent.packet(u64::MAX, &request, &mut [0; 4104]) {
                cruachvel::Outcome::Reply(reply) => assert_eq!(reply[1], answer),
                other => panic!("{:02X?} ended in {:?}", message, other),
            }
        }
    }
}

#[test]
fn every_code_that_is_no_command_gets_e2() {
    for code in (0..=255).filter(|code| !COMMANDS.contains(code)) {
        for payload in [&[][..], &[0], &[1, 0, 0]] {
            let mut lent = rich_board();
            let message = suite::packets::message(code, payload);
            assert_eq!(lent.ask(&message), [0xE2, 0, 0], "{:02X}", code);
        }
    }
}
