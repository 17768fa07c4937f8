//! What each answer changes in the table, and what leaves it alone.
use crate::gateway::{a, every, wire, NODE};
use suite::second_asking::{hear, learn, Heard, Learned, Request};

fn after(before: &Learned, request: Request, data: &[u8], heard: Heard) -> Learned {
    let mut learned = before.clone();
    learn(&mut learned, request, data, &heard);
    learned
}

fn with_groups(groups: &[u64]) -> Learned {
    let groups = groups.to_vec();
    Learned { groups, ..a() }
}

fn shown(before: &Learned, group: usize, ids: &[u8]) -> Vec<u64> {
    let heard = Heard::Members(ids.to_vec());
    after(before, Request::ShowGroup(group), &[], heard).groups
}

fn made(before: &Learned, ids: &[u8]) -> Vec<u64> {
    after(before, Request::MakeGroup, ids, Heard::Done).groups
}

#[test]
fn board_a_is_learned_from_its_lists() {
    let answers: [(Request, u8, &[u8]); 4] = [
        (Request::ListVariables, 0x03, &[0x04, 0x81, 0x82]),
        (Request::ListGroups, 0x05, &[0x03, 0x01, 0x82]),
        (Request::ListCurves, 0x09, &[0x01, 0x00, 0x04, 0x00, 0x02]),
        (Request::ListFunctions, 0x0D, &[0x12]),
    ];
    let mut learned = Learned::default();
    for (request, command, payload) in answers {
        let reply = wire(0, command, payload);
        let heard = hear(&learned, NODE, request, &reply).expect("fits");
        learn(&mut learned, request, &[], &heard);
    }
    assert_eq!(learned, a());
}

#[test]
fn variables_replace_those_known_and_forget_the_made_groups() {
    let variables = vec![(true, 9), (false, 3)];
    let heard = Heard::Variables(variables.clone());
    let learned = after(&with_groups(&[1, 2]), Request::ListVariables, &[], heard);
    assert_eq!(learned, Learned { variables, ..a() });
}

#[test]
fn the_same_variables_forget_the_made_groups_too() {
    let heard = Heard::Variables(a().variables);
    let learned = after(&with_groups(&[1, 2]), Request::ListVariables, &[], heard);
    assert_eq!(learned, a());
}

#[test]
fn made_groups_past_the_told_number_are_forgotten() {
    let known = [1, 2, 4, 3, 5];
    for told in 0..12 {
        let heard = Heard::Groups(vec![(true, 1); told]);
        let learned = after(&with_groups(&known), Request::ListGroups, &[], heard);
        let stay = [0, 0, 0, 0, 1, 2, 3, 4, 5, 5, 5, 5][told];
        assert_eq!(learned, with_groups(&known[..stay]));
    }
    let heard = Heard::Groups(vec![(true, 1); 8]);
    let learned = after(&with_groups(&[6]), Request::ListGroups, &[], heard);
    assert_eq!(
        learned,
        with_groups(&[6]),
        "what the others hold isn't told"
    );
}

#[test]
fn members_replace_a_known_group_or_go_to_the_next_place() {
    let two = with_groups(&[0b001, 0b010]);
    assert_eq!(shown(&two, 3, &[0, 2]), [0b101, 0b010]);
    assert_eq!(shown(&two, 4, &[1, 2]), [0b001, 0b110]);
    assert_eq!(shown(&two, 5, &[2]), [0b001, 0b010, 0b100]);
    assert_eq!(shown(&two, 6, &[2]), [0b001, 0b010], "group 5 isn't known");
    assert_eq!(shown(&two, 7, &[2]), [0b001, 0b010]);
    let full = with_groups(&[1; 5]);
    assert_eq!(shown(&full, 7, &[2]), [1, 1, 1, 1, 4]);
    assert_eq!(shown(&full, 8, &[2]), [1; 5]);
    assert_eq!(shown(&with_groups(&[1; 4]), 7, &[0, 1, 2]), [1, 1, 1, 1, 7]);
}

#[test]
fn members_of_groups_0_to_2_and_past_7_teach_nothing() {
    for known in [&[][..], &[1], &[1; 5], &[1; 7]] {
        for group in [0, 1, 2, 8, 9, 10, 255, 256, usize::MAX] {
            assert_eq!(shown(&with_groups(known), group, &[1]), known);
        }
    }
}

#[test]
fn members_that_are_no_known_variables_teach_nothing() {
    let one = with_groups(&[0b001]);
    assert_eq!(shown(&one, 3, &[2]), [0b100]);
    assert_eq!(shown(&one, 3, &[3]), [0b001]);
    assert_eq!(shown(&one, 3, &[0, 1, 63]), [0b001]);
    assert_eq!(shown(&one, 4, &[1, 3]), [0b001]);
    assert_eq!(shown(&one, 3, &[]), [0b001]);
    assert_eq!(shown(&one, 4, &[]), [0b001]);
    assert_eq!(shown(&Learned::default(), 3, &[0]), []);
}

#[test]
fn the_last_of_64_variables_has_its_bit() {
    let variables = vec![(true, 1); 64];
    let learned = Learned { variables, ..a() };
    assert_eq!(shown(&learned, 3, &[0, 63]), [1 << 63 | 1]);
    assert_eq!(made(&learned, &[63, 31]), [1 << 63 | 1 << 31]);
}

#[test]
fn where_more_than_64_variables_are_known_no_group_is_learned() {
    for count in [65, 300] {
        let variables = vec![(true, 1); count];
        let learned = Learned { variables, ..a() };
        for ids in [&[0][..], &[63], &[0, 63], &[64], &[0, 64], &[255]] {
            assert_eq!(made(&learned, ids), []);
            assert_eq!(shown(&learned, 3, ids), []);
        }
    }
}

#[test]
fn a_made_group_goes_behind_those_known() {
    assert_eq!(made(&a(), &[2, 0]), [0b101], "sorted or not");
    assert_eq!(made(&a(), &[0, 2]), [0b101]);
    assert_eq!(made(&with_groups(&[7; 4]), &[1]), [7, 7, 7, 7, 2]);
    assert_eq!(made(&with_groups(&[7; 5]), &[1]), [7; 5]);
    assert_eq!(made(&with_groups(&[7; 6]), &[1]), [7; 6]);
}

#[test]
fn a_made_group_of_none_or_of_unknown_variables_is_not_learned() {
    assert_eq!(made(&a(), &[]), []);
    assert_eq!(made(&a(), &[0, 3]), []);
    assert_eq!(made(&a(), &[255]), []);
    assert_eq!(made(&Learned::default(), &[0]), []);
}

#[test]
fn removed_groups_are_forgotten_and_nothing_else() {
    let learned = after(
        &with_groups(&[7; 5]),
        Request::RemoveGroups,
        &[1],
        Heard::Done,
    );
    assert_eq!(learned, a());
}

#[test]
fn curves_and_functions_replace_theirs() {
    let before = with_groups(&[1, 2]);
    let curves = vec![(0, 7, 9), (1, 1, 65_536)];
    let heard = Heard::Curves(curves.clone());
    let learned = after(&before, Request::ListCurves, &[], heard);
    assert_eq!(
        learned,
        Learned {
            curves,
            ..before.clone()
        }
    );
    let functions = vec![(3, 4); 16];
    let heard = Heard::Functions(functions.clone());
    let learned = after(&before, Request::ListFunctions, &[], heard);
    assert_eq!(
        learned,
        Learned {
            functions,
            ..before.clone()
        }
    );
    let none = after(&before, Request::ListCurves, &[], Heard::Curves(vec![]));
    assert_eq!(none.curves, []);
}

#[test]
fn all_else_leaves_the_table_as_it_is() {
    let before = with_groups(&[1, 2]);
    let others = [
        Heard::Error(0xE1),
        Heard::Error(0xE8),
        Heard::Version([2, 20, 0]),
        Heard::Values(vec![(1, vec![9])]),
        Heard::Block(vec![1, 2]),
        Heard::Sum([5; 16]),
        Heard::Output(vec![1, 2]),
        Heard::Failed(0),
    ];
    for request in every(3, 0) {
        for heard in &others {
            let learned = after(&before, request, &[0, 1], heard.clone());
            assert_eq!(learned, before);
        }
        let done = after(&before, request, &[0, 1], Heard::Done);
        let makes_or_removes = [Request::MakeGroup, Request::RemoveGroups].contains(&request);
        assert_eq!(done != before, makes_or_removes);
        let members = after(&before, request, &[0, 1], Heard::Members(vec![2]));
        assert_eq!(members != before, request == Request::ShowGroup(3));
    }
}
