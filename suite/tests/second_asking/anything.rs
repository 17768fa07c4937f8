//! Drawn at random: absurd tables, any request, any reply. Nothing panics, and only the refusals that concern a call are given.
use crate::gateway::{a, answered_by, summed, wire, NODE, ROOM};
use suite::random::Random;
use suite::second_asking::{ask, hear, learn, Heard, Learned, Masking, Request};
use suite::second_asking::{signed, unsigned, write_signed, write_unsigned};

const MASKINGS: [Masking; 6] = [
    Masking::Set,
    Masking::Or,
    Masking::Clear,
    Masking::Toggle,
    Masking::Xor,
    Masking::And,
];

fn number(random: &mut Random) -> usize {
    match random.below(8) {
        0 => random.number() as usize >> random.below(32),
        1 => random.choose(&[63, 64, 255, 256, 65_535, 65_536, usize::MAX]),
        _ => random.below(9),
    }
}

fn request(random: &mut Random) -> Request {
    let (one, other) = (number(random), number(random));
    let masking = random.choose(&MASKINGS);
    match random.below(20) {
        0 => Request::Version,
        1 => Request::ListVariables,
        2 => Request::ListGroups,
        3 => Request::ShowGroup(one),
        4 => Request::ListCurves,
        5 => Request::ReadSum(one),
        6 => Request::ListFunctions,
        7 => Request::ReadVariable(one),
        8 => Request::ReadGroup(one),
        9 => Request::WriteVariable(one),
        10 => Request::WriteGroup(one),
        11 => Request::MaskVariable(one, masking),
        12 => Request::MaskGroup(one, masking),
        13 => Request::WriteRead {
            written: one,
            read: other,
        },
        14 => Request::MakeGroup,
        15 => Request::RemoveGroups,
        16 => Request::ReadBlock {
            curve: one,
            block: other,
        },
        17 => Request::WriteBlock {
            curve: one,
            block: other,
        },
        18 => Request::RenewSum(one),
        _ => Request::RunFunction(one),
    }
}

// Any number of things, seldom within the limits.
fn absurd(random: &mut Random) -> Learned {
    let count = |random: &mut Random| random.choose(&[0, 1, 2, 5, 6, 8, 16, 64, 65, 300]);
    let mut learned = Learned::default();
    for _ in 0..count(random) {
        learned.variables.push((random.once_in(2), random.byte()));
    }
    for _ in 0..count(random) {
        learned.groups.push(random.number() >> random.below(64));
    }
    for _ in 0..count(random) {
        let mut part = || random.number() as u32 >> random.below(32);
        learned.curves.push((part(), part(), part()));
    }
    for _ in 0..count(random) {
        learned.functions.push((random.byte(), random.byte()));
    }
    learned
}

fn table(random: &mut Random) -> Learned {
    let mut learned = absurd(random);
    // Each of them is often board A's, so that much of what is drawn goes past refusal 1.
    if !random.once_in(8) {
        learned.variables = a().variables;
    }
    if !random.once_in(8) {
        learned.groups = (0..random.below(6))
            .map(|_| random.within(1, 7) as u64)
            .collect();
    }
    if !random.once_in(8) {
        learned.curves = a().curves;
    }
    if !random.once_in(8) {
        learned.functions = a().functions;
    }
    learned
}

fn payload(random: &mut Random) -> Vec<u8> {
    match random.below(6) {
        0 => random.bytes(16),
        1 => {
            let length = random.below(4100);
            random.bytes(length)
        }
        2 => (0..random.below(9)).map(|_| random.byte()).collect(),
        _ => (0..random.below(9))
            .map(|_| random.below(3) as u8)
            .collect(),
    }
}

fn reply(random: &mut Random, request: Request) -> Vec<u8> {
    match random.below(8) {
        0 => {
            let length = random.choose(&[0, 1, 2, 3, 4, 5, 9, 4103, 4104, 4105, 9000]);
            random.bytes(length)
        }
        1 => {
            let length = random.below(12);
            summed(random.bytes(length))
        }
        2 => wire(random.byte(), random.byte(), &payload(random)),
        3 => wire(0, 0xE0 | random.byte() >> 4, &[]),
        _ => wire(0, random.choose(answered_by(request)), &payload(random)),
    }
}

fn destination(random: &mut Random) -> u8 {
    if random.once_in(8) {
        random.byte()
    } else {
        NODE
    }
}

#[test]
fn any_reply_is_read_or_refused() {
    let mut random = Random::new(2026);
    let mut read = 0;
    for _ in 0..60_000 {
        let learned = table(&mut random);
        let request = request(&mut random);
        let reply = reply(&mut random, request);
        match hear(&learned, destination(&mut random), request, &reply) {
            Ok(_) => read += 1,
            Err(refusal) => assert!([1, 2, 4, 5, 13].contains(&refusal)),
        }
    }
    assert!(read > 5_000, "{} replies fit", read);
}

#[test]
fn any_bytes_at_all_are_read_or_refused() {
    let mut random = Random::new(2027);
    for _ in 0..40_000 {
        let length = random.below(40);
        let bytes = random.bytes(length);
        let request = request(&mut random);
        let heard = hear(&a(), random.byte(), request, &bytes);
        assert!(heard.is_ok() || [2, 4, 5, 13].contains(&heard.unwrap_err()));
    }
}

// Whether reading with the table finds nothing wrong with it.
fn usable(learned: &Learned) -> bool {
    let error = wire(0, 0xE1, &[]);
    hear(learned, NODE, Request::ReadVariable(0), &error) != Err(1)
}

#[test]
fn what_was_heard_keeps_a_usable_table_usable() {
    let mut random = Random::new(2028);
    let mut learned = a();
    let mut changed = 0;
    for _ in 0..60_000 {
        let request = request(&mut random);
        let data = payload(&mut random);
        if let Ok(heard) = hear(&learned, NODE, request, &reply(&mut random, request)) {
            let before = learned.clone();
            learn(&mut learned, request, &data, &heard);
            changed += usize::from(learned != before);
            assert!(usable(&learned), "{:?} {:?}", request, heard);
        }
    }
    assert!(changed > 500, "{} answers changed the table", changed);
}

#[test]
fn anything_may_be_learned_from() {
    let mut random = Random::new(2029);
    for _ in 0..20_000 {
        let mut learned = absurd(&mut random);
        let told = absurd(&mut random);
        let bytes = payload(&mut random);
        let heard = match random.below(7) {
            0 => Heard::Variables(told.variables),
            1 => Heard::Groups(told.variables),
            2 => Heard::Members(bytes.clone()),
            3 => Heard::Curves(told.curves),
            4 => Heard::Functions(told.functions),
            5 => Heard::Error(random.byte()),
            _ => Heard::Done,
        };
        learn(&mut learned, request(&mut random), &bytes, &heard);
    }
}

#[test]
fn any_request_is_written_as_a_packet_or_refused() {
    let mut random = Random::new(2030);
    for _ in 0..40_000 {
        let data = payload(&mut random);
        let room = random.choose(&[0, 4103, ROOM, ROOM, ROOM, usize::MAX]);
        let destination = destination(&mut random);
        match ask(destination, request(&mut random), &data, room) {
            Ok(packet) => {
                let (last, before) = packet.split_last().expect("not empty");
                assert_eq!(summed(before.to_vec()).last(), Some(last));
                assert_eq!(wire(destination, packet[1], &before[4..]), packet);
                assert!(packet.len() <= 4104);
            }
            Err(refusal) => assert!([2, 3, 14].contains(&refusal)),
        }
    }
}

#[test]
fn any_bytes_are_a_number_or_refused_and_the_number_is_written_as_them() {
    let mut random = Random::new(2031);
    for _ in 0..40_000 {
        let learned = table(&mut random);
        let kinds: Vec<u8> = (0..random.below(5))
            .map(|_| random.below(6) as u8)
            .collect();
        let variable = number(&mut random);
        let length = random.choose(&[1, 2, 4, 4, 8, 0, 9, 127]);
        let bytes = random.bytes(length);
        match signed(&learned, &kinds, variable, &bytes) {
            Ok(number) => assert_eq!(
                write_signed(&learned, &kinds, variable, number),
                Ok(bytes.clone())
            ),
            Err(refusal) => assert!([1, 9, 10, 11].contains(&refusal)),
        }
        match unsigned(&learned, &kinds, variable, &bytes) {
            Ok(number) => assert_eq!(
                write_unsigned(&learned, &kinds, variable, number),
                Ok(bytes)
            ),
            Err(refusal) => assert!([1, 9, 10, 11].contains(&refusal)),
        }
        let number = random.number() >> random.below(64);
        let written = write_unsigned(&learned, &kinds, variable, number);
        assert!(written.is_ok() || [1, 9, 11, 12].contains(&written.unwrap_err()));
        let written = write_signed(&learned, &kinds, variable, number as i64);
        assert!(written.is_ok() || [1, 9, 11, 12].contains(&written.unwrap_err()));
    }
}
