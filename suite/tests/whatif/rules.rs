//! That the rules fit whatever the proved node does.
use crate::explained;
use cruachvel::Refusal;
use std::collections::BTreeSet;
use suite::boards::usable;
use suite::faults::faults;
use suite::packets::{Drawer, COMMANDS};
use suite::random::Random;
use suite::whatif::call::Call;
use suite::whatif::packet::Packet;
use suite::whatif::refusals;
use suite::whatif::steps::{Step, STEPS};
use suite::whatif::{explain, rule, table, Ended, Rule, Setting};

const BOARDS: usize = 200;
const PACKETS: usize = 40;

// The refusals of a packet that a long reply buffer leaves, in 01's order.
const OF_PACKETS: [Refusal; 5] = [
    Refusal::BoardUnusable,
    Refusal::BadAddress,
    Refusal::PacketLength,
    Refusal::Checksum,
    Refusal::NotForThisBoard,
];

/// What was met: refusals and steps, and which reason of a step.
#[derive(Default)]
struct Met {
    refusals: BTreeSet<u8>,
    steps: BTreeSet<(u8, bool)>,
    rows: BTreeSet<u8>,
}

impl Met {
    // The rule that is told must be the first of 01's that applies, and none may be told if none applies.
    fn check(&mut self, rule: &Rule, request: Packet, before: &Setting) {
        let refused = OF_PACKETS
            .into_iter()
            .find(|refusal| refusals::reason(*refusal, request, before).is_some());
        let step = STEPS
            .iter()
            .find(|step| step.reason(request, before).is_some());
        let told = || format!("{:02X?} on {:?} is under {:?}", request, before, rule);
        match rule {
            Rule::Refusal(refusal, ..) => {
                assert_eq!(Some(*refusal), refused, "{}", told());
                self.refusals.insert(refusal.number());
            }
            Rule::Step(chosen, ..) => {
                assert_eq!((None, Some(*chosen)), (refused, step), "{}", told());
                self.steps
                    .insert((chosen.number, second_reason(chosen, request)));
            }
            Rule::Row(command) => {
                assert_eq!((None, None), (refused, step), "{}", told());
                self.rows.insert(command.code);
            }
            Rule::Multicast(_, rule) => {
                // Its message falls under the rule that it would fall under at the own address.
                assert!(!matches!(**rule, Rule::Refusal(..) | Rule::Multicast(..)));
                self.check(rule, request, before);
            }
            Rule::Sentence(_) | Rule::Amended(..) | Rule::None => panic!("{}", told()),
        }
    }
}

// Steps 1, 6 and 9 have two reasons each.
fn second_reason(step: &Step, request: Packet) -> bool {
    match step.number {
        1 => request.message().len() >= 3,
        6 => request.code() == Some(0x30),
        9 => matches!(request.code(), Some(0x10 | 0x12)),
        _ => false,
    }
}

fn small_setting(random: &mut Random) -> Setting {
    let mut lent = usable(random);
    while lent.blocks.len() > 4096 {
        lent = usable(random);
    }
    Setting::new(lent, 0)
}

// One packet, and what the rules say to it.
fn one(random: &mut Random, setting: &mut Setting, met: &mut Met) {
    let mut drawer = Drawer {
        random,
        lent: &setting.lent,
        groups: &setting.lent.groups,
    };
    let (mut request, draft) = drawer.packet();
    if drawer.random.once_in(20) {
        request = drawer.noise();
    }
    setting.busy = draft.busy;
    let before = setting.clone();
    let text = explain(setting, &Call::Packet(request.clone())).lines();
    let ended = before.would(&request);
    assert!(
        text.contains(&format!("outcome   {}\n", ended.text())),
        "{}",
        text
    );
    met.check(
        &rule(&ended, Packet(&request), &before),
        Packet(&request),
        &before,
    );
}

#[test]
fn every_outcome_has_the_rule_that_01_comes_to_first() {
    let mut random = Random::new(61);
    let mut met = Met::default();
    for _ in 0..BOARDS {
        let mut setting = small_setting(&mut random);
        if random.once_in(20) {
            setting.lent.address.own = random.choose(&[0, 32, 255, 5]);
            setting.lent.address.multicast &= random.choose(&[0xFE, 0xFF]);
        }
        (0..PACKETS).for_each(|_| one(&mut random, &mut setting, &mut met));
    }
    assert_eq!(met.refusals, BTreeSet::from([2, 4, 5, 6]));
    assert_eq!(met.rows, BTreeSet::from(COMMANDS));
    let steps = (1..=10).map(|number| (number, false));
    let expected: BTreeSet<(u8, bool)> = steps.chain([(1, true), (6, true), (9, true)]).collect();
    assert_eq!(met.steps, expected);
}

#[test]
fn every_way_to_break_a_board_is_told() {
    let mut random = Random::new(62);
    for fault in faults() {
        let mut setting = small_setting(&mut random);
        fault.prepare(&mut setting.lent);
        assert_eq!(table::broken(&setting.lent), None, "{}", fault.name);
        fault.spoil(&mut setting.lent);
        let broken = table::broken(&setting.lent);
        assert!(broken.is_some(), "{}", fault.name);
        let in_variables = table::variables(&setting.lent.variables).is_some();
        assert_eq!(in_variables, fault.in_variables, "{}", fault.name);
        let ended = setting.would(&[0, 0]);
        assert_eq!(
            ended,
            Ended::Refused(Refusal::BoardUnusable),
            "{}",
            fault.name
        );
        let text = explained(&mut setting, "05 00 00 00 FB");
        assert!(text.contains(&broken.unwrap_or_default()), "{}", text);
        let mut met = Met::default();
        (0..20).for_each(|_| one(&mut random, &mut setting, &mut met));
        assert_eq!(met.refusals, BTreeSet::from([1]));
    }
}
