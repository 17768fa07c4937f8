//! That the rules of calls that are no packets fit whatever the proved node does.
use cruachvel::Refusal;
use std::collections::BTreeSet;
use suite::boards::usable;
use suite::faults::faults;
use suite::random::Random;
use suite::whatif::asked::Asked;
use suite::whatif::bytes::{hex, summed};
use suite::whatif::call::Call;
use suite::whatif::commands::{Field, Rest, COMMANDS};
use suite::whatif::ended::{proved, Came};
use suite::whatif::refusals::call_reason;
use suite::whatif::{rule_of, Ended, Rule, Setting};

const BOARDS: usize = 200;
const CALLS: usize = 40;

// The refusals of a call that a long reply buffer leaves, in 01's order.
fn order(call: &Call) -> &'static [u8] {
    match call {
        Call::Packet(_) | Call::Forget => &[],
        Call::Ask(_) => &[2, 14],
        Call::Hear(..) => &[1, 2, 4, 5, 13],
        Call::Result { .. } => &[1, 7, 8],
        Call::Store(..) => &[1, 9, 10],
        Call::Fresh => &[1],
        Call::Read { .. } => &[1, 9, 11, 10],
        Call::Write { .. } => &[1, 9, 11, 10, 12],
    }
}

// A number near an edge of some size.
fn number(random: &mut Random, signed: bool) -> i128 {
    let edge = 1i128 << random.choose(&[0, 7, 8, 15, 16, 31, 32, 63, 64]);
    let number = edge + random.within(0, 2) as i128 - 1;
    if signed {
        let number = random.choose(&[number, -number]);
        number.clamp(i64::MIN.into(), i64::MAX.into())
    } else {
        number.clamp(0, u64::MAX.into())
    }
}

// A call of one of five sorts.
fn drawn(random: &mut Random, setting: &Setting, sort: usize) -> Call {
    let lent = &setting.lent;
    let variable = random.below(lent.variables.len() + 1);
    let function = random.below(lent.functions.len() / 2 + 1);
    let size = lent.variables.get(variable).map_or(1, |record| record.size);
    let output = lent.functions.get(2 * function + 1).copied().unwrap_or(0);
    let off = usize::from(random.once_in(4));
    let signed = random.once_in(2);
    match sort % 5 {
        0 => Call::Store(variable, random.bytes(usize::from(size) + off)),
        1 => Call::Read {
            signed,
            variable,
            bytes: random.bytes(usize::from(size) + off),
        },
        2 => Call::Write {
            signed,
            variable,
            number: number(random, signed),
            room: usize::from(size) + off,
        },
        3 => Call::Fresh,
        _ => {
            let failed = random.once_in(3);
            let length = if failed { 1 } else { usize::from(output) + off };
            Call::Result {
                function,
                due: random.once_in(2),
                failed,
                bytes: random.bytes(length),
            }
        }
    }
}

// A request, most of them of things that there are.
fn asked(random: &mut Random, setting: &Setting) -> Asked {
    let lent = &setting.lent;
    let command = &COMMANDS[random.below(COMMANDS.len())];
    let own = random.within(1, 31).to_string();
    let to = random.choose(&[own.as_str(), own.as_str(), "0", "32", "247", "248", "255"]);
    let mut words = vec![to.to_string(), command.word.to_string()];
    for field in command.front {
        let count = match field {
            Field::Variable | Field::VariableRead => lent.variables.len(),
            Field::Group => 3 + lent.groups.count as usize,
            Field::Curve => lent.curves.len() / 3,
            Field::Function => lent.functions.len() / 2,
            Field::Block => 3,
            Field::Operation => {
                words.push("toggle".to_string());
                continue;
            }
        };
        let number = random.below(count + 1);
        let number = match random.below(20) {
            0 => 256,
            1 => 65_536,
            _ => number,
        };
        words.push(number.to_string());
    }
    if command.rest == Rest::Members {
        words.extend((0..random.below(5)).map(|_| random.below(70).to_string()));
    } else if command.rest != Rest::Nothing {
        let most = if random.once_in(10) { 4200 } else { 9 };
        let length = random.below(most);
        words.push(hex(&random.bytes(length)));
    }
    let words = words.join(" ");
    let words: Vec<&str> = words.split_whitespace().collect();
    Asked::of_words(&words).expect("a request")
}

// A reply to it: the node's, or one that is like it.
fn reply(random: &mut Random, setting: &Setting, asked: &Asked) -> Vec<u8> {
    let own = setting.lent.address.own;
    let answered = match proved(&mut setting.clone(), &Call::Ask(asked.clone())) {
        Came::Sends(packet) => {
            let request = [&[own], &packet[1..packet.len() - 1]].concat();
            setting.would(&summed(&request))
        }
        _ => Ended::Silence,
    };
    let mut message = match answered {
        Ended::Reply(reply) => reply[1..reply.len() - 1].to_vec(),
        _ => {
            let codes = asked.command().answers();
            vec![random.choose(&codes), 0, 0]
        }
    };
    match random.below(14) {
        0 => message.push(random.byte()),
        1 | 2 => message.truncate(random.below(message.len() + 1)),
        3 => message[0] = random.choose(&[0xE0, 0xE6, 0xE8, 0xE9, 0x11, 0x13, 0x51, 0x53]),
        4 | 5 => {
            let codes = asked.command().answers();
            message.resize(3, 0);
            message[0] = random.choose(&codes);
            let length = random.below(24);
            message.extend(random.bytes(length));
        }
        6 => message.truncate(3),
        7 if message.len() > 3 => {
            let place = random.within(3, message.len() - 1);
            let any = random.byte();
            message[place] = random.choose(&[0, 1, 64, 128, 255, any]);
        }
        _ => (),
    }
    if message.len() >= 3 && !random.once_in(20) {
        let size = (message.len() - 3) as u16;
        message[1..3].copy_from_slice(&size.to_be_bytes());
    }
    let to = if random.once_in(20) { random.byte() } else { 0 };
    let mut reply = summed(&[&[to], message.as_slice()].concat());
    match random.below(20) {
        0 => reply[0] ^= 1,
        1 => reply = vec![0; random.choose(&[0, 1, 2, 4104, 4105])],
        _ => (),
    }
    reply
}

#[test]
fn what_a_gateway_asks_and_hears_has_the_rule_that_comes_first() {
    let mut random = Random::new(65);
    let mut met = BTreeSet::new();
    for _ in 0..BOARDS {
        let mut setting = Setting::new(usable(&mut random), 0);
        if random.once_in(5) {
            check(&Call::Forget, &mut setting, &mut met);
        }
        for _ in 0..4 * CALLS {
            let asked = asked(&mut random, &setting);
            let reply = reply(&mut random, &setting, &asked);
            check(&Call::Ask(asked.clone()), &mut setting, &mut met);
            check(&Call::Hear(asked, reply), &mut setting, &mut met);
        }
    }
    let expected = [
        ("ask", vec![0, 2, 14]),
        ("hear", vec![0, 1, 2, 4, 5, 13]),
        ("forget", vec![0]),
    ];
    let expected = expected
        .into_iter()
        .flat_map(|(name, numbers)| numbers.into_iter().map(move |number| (name, number)));
    assert_eq!(met, expected.collect());
}

// The rule that is told must be the first of 01's that applies, and none may be told if none applies.
fn check(call: &Call, setting: &mut Setting, met: &mut BTreeSet<(&'static str, u8)>) {
    let before = setting.clone();
    let came = proved(setting, call);
    let applies = |number: &u8| {
        let refusal = Refusal::of(*number).expect("a refusal");
        call_reason(refusal, call, &before).is_some()
    };
    let first = order(call).iter().copied().find(applies);
    let told = match rule_of(call, &came, &before) {
        Rule::Refusal(refusal, ..) => Some(refusal.number()),
        Rule::Sentence(_) | Rule::Amended(..) => None,
        other => panic!("{:?} on {:?} is under {:?}", call, before, other),
    };
    let refused = match came {
        Came::Ended(Ended::Refused(refusal)) => Some(refusal.number()),
        _ => None,
    };
    assert_eq!(
        (told, refused),
        (first, first),
        "{:?} on {:?}",
        call,
        before
    );
    met.insert((call.words().0, first.unwrap_or(0)));
}

#[test]
fn every_call_has_the_rule_that_01_comes_to_first() {
    let mut random = Random::new(63);
    let mut met = BTreeSet::new();
    for _ in 0..BOARDS {
        let mut setting = Setting::new(usable(&mut random), random.number());
        for sort in 0..CALLS {
            let call = drawn(&mut random, &setting, sort);
            check(&call, &mut setting, &mut met);
        }
    }
    let expected = [
        ("result", vec![0, 7, 8]),
        ("store", vec![0, 9, 10]),
        ("fresh", vec![0]),
        ("read", vec![0, 9, 10, 11]),
        ("write", vec![0, 9, 10, 11, 12]),
    ];
    let expected = expected
        .into_iter()
        .flat_map(|(name, numbers)| numbers.into_iter().map(move |number| (name, number)));
    assert_eq!(met, expected.collect());
}

#[test]
fn a_broken_board_is_told_to_every_call_that_looks_at_it() {
    let mut random = Random::new(64);
    for fault in faults() {
        let mut setting = Setting::new(usable(&mut random), 0);
        fault.prepare(&mut setting.lent);
        fault.spoil(&mut setting.lent);
        let mut met = BTreeSet::new();
        for sort in 0..10 {
            let call = drawn(&mut random, &setting, sort);
            // Each on the broken board, which a fresh one may mend.
            check(&call, &mut setting.clone(), &mut met);
        }
        let refused = |name: &str| met.contains(&(name, 1));
        let whole = ["store", "result"];
        assert!(whole.into_iter().all(refused), "{}", fault.name);
        assert_eq!(refused("fresh"), !fault.set_by_fresh, "{}", fault.name);
        assert_eq!(
            (refused("read"), refused("write")),
            (fault.in_variables, fault.in_variables),
            "{}",
            fault.name
        );
    }
}
