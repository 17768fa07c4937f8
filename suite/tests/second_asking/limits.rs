//! Refusal 1: a learned table that breaks 01's limits, where it counts and where it doesn't.
use crate::gateway::{a, every, table_counts, wire, NODE};
use suite::second_asking::{hear, Heard, Learned, Request};

/// Whether a table keeps to the limits. All that look at it agree, also on an error that any request may get.
#[track_caller]
fn usable(learned: &Learned) -> bool {
    let error = wire(0, 0xE3, &[]);
    let says = |request| hear(learned, NODE, request, &error);
    let usable = says(Request::ReadVariable(0)) != Err(1);
    for request in every(0, 0) {
        let heard = says(request);
        let expected = usable || !table_counts(request);
        let error = if expected {
            Ok(Heard::Error(0xE3))
        } else {
            Err(1)
        };
        assert_eq!(heard, error, "{:?}", request);
    }
    usable
}

fn with_variables(variables: &[(bool, u8)]) -> Learned {
    let variables = variables.to_vec();
    Learned { variables, ..a() }
}

fn with_curves(curves: &[(u32, u32, u32)]) -> Learned {
    let curves = curves.to_vec();
    Learned { curves, ..a() }
}

fn with_functions(functions: &[(u8, u8)]) -> Learned {
    let functions = functions.to_vec();
    Learned { functions, ..a() }
}

fn with_groups(groups: &[u64]) -> Learned {
    let groups = groups.to_vec();
    Learned { groups, ..a() }
}

#[test]
fn variables_1_to_64_each_1_to_127_bytes_together_at_most_4096() {
    let usable = |variables: &[(bool, u8)]| usable(&with_variables(variables));
    assert!(!usable(&[]));
    assert!(usable(&[(true, 1)]));
    assert!(usable(&[(false, 127)]));
    assert!(!usable(&[(false, 0)]));
    assert!(!usable(&[(false, 128)]));
    assert!(!usable(&[(true, 255)]));
    assert!(!usable(&[(true, 1), (true, 0), (true, 1)]));
    assert!(usable(&[(true, 64); 64]));
    assert!(!usable(&[(true, 1); 65]));
    let mut over = [(true, 64); 64];
    over[63].1 = 65;
    assert!(!usable(&over));
    assert!(usable(&[(true, 127); 32]));
    assert!(!usable(&[(true, 127); 33]));
}

#[test]
fn curves_0_to_8_of_type_0_or_1() {
    let usable = |curves: &[(u32, u32, u32)]| usable(&with_curves(curves));
    assert!(usable(&[]));
    assert!(usable(&[(0, 1, 1); 8]));
    assert!(!usable(&[(0, 1, 1); 9]));
    assert!(usable(&[(1, 1, 1)]));
    assert!(!usable(&[(2, 1, 1)]));
    assert!(!usable(&[(u32::MAX, 1, 1)]));
}

#[test]
fn block_size_1_to_4096_blocks_1_to_65536_all_together_at_most_65536() {
    let usable = |curves: &[(u32, u32, u32)]| usable(&with_curves(curves));
    assert!(!usable(&[(0, 0, 1)]));
    assert!(usable(&[(0, 4096, 16)]));
    assert!(!usable(&[(0, 4096, 17)]));
    assert!(!usable(&[(0, 4097, 1)]));
    assert!(!usable(&[(0, 1, 0)]));
    assert!(usable(&[(0, 1, 65_536)]));
    assert!(!usable(&[(0, 1, 65_537)]));
    assert!(!usable(&[(0, 1, 65_536), (0, 1, 1)]));
    assert!(usable(&[(0, 1, 65_535), (0, 1, 1)]));
    assert!(usable(&[(0, 4096, 2); 8]));
    assert!(!usable(&[(0, 4096, 65_536); 8]));
    assert!(
        !usable(&[(0, 65_536, 65_536)]),
        "no product that wraps to 0"
    );
    assert!(!usable(&[(0, u32::MAX, u32::MAX); 8]));
    assert!(!usable(&[(0, 0, u32::MAX)]));
}

#[test]
fn functions_0_to_16_with_0_to_15_bytes_in_and_out() {
    let usable = |functions: &[(u8, u8)]| usable(&with_functions(functions));
    assert!(usable(&[]));
    assert!(usable(&[(15, 15); 16]));
    assert!(!usable(&[(0, 0); 17]));
    assert!(!usable(&[(16, 0)]));
    assert!(!usable(&[(0, 16)]));
    assert!(!usable(&[(0, 0), (255, 255)]));
}

#[test]
fn made_groups_0_to_5_each_a_non_empty_set_of_declared_variables() {
    let usable = |groups: &[u64]| usable(&with_groups(groups));
    assert!(usable(&[]));
    assert!(usable(&[0b111, 0b111, 0b001, 0b010, 0b100]));
    assert!(!usable(&[1; 6]));
    assert!(!usable(&[0]));
    assert!(!usable(&[1, 0, 1]));
    assert!(!usable(&[0b1000]));
    assert!(!usable(&[1, 0b1001]));
    assert!(!usable(&[1 << 63]));
}

#[test]
fn a_set_may_have_all_of_64_variables_and_none_past_63() {
    let groups = vec![u64::MAX, 1 << 63];
    let mut learned = with_groups(&groups);
    learned.variables = vec![(true, 1); 64];
    assert!(usable(&learned));
    let last = hear(&learned, NODE, Request::ReadGroup(4), &wire(0, 0x13, &[9]));
    assert_eq!(last, Ok(Heard::Values(vec![(63, vec![9])])));
    learned.variables.pop();
    assert!(!usable(&learned));
}

#[test]
fn one_wrong_sort_of_thing_is_enough() {
    assert!(usable(&a()));
    assert!(!usable(&Learned::default()), "nothing learned yet");
    let functions = vec![(1, 2)];
    let only_functions = Learned {
        functions,
        ..Learned::default()
    };
    assert!(!usable(&only_functions));
}

#[test]
fn where_the_table_counts_for_nothing_it_may_be_anything() {
    let absurd = Learned {
        variables: vec![(true, 255); 300],
        groups: vec![0; 300],
        curves: vec![(9, u32::MAX, u32::MAX); 300],
        functions: vec![(255, 255); 300],
    };
    let answers: [(Request, u8, &[u8]); 7] = [
        (Request::Version, 0x01, &[2, 20, 0]),
        (Request::ListVariables, 0x03, &[1]),
        (Request::ListGroups, 0x05, &[1, 1, 0x80]),
        (Request::ShowGroup(3), 0x07, &[63]),
        (Request::ListCurves, 0x09, &[]),
        (Request::ListFunctions, 0x0D, &[]),
        (Request::RenewSum(7), 0xE0, &[]),
    ];
    for (request, command, payload) in answers {
        let reply = wire(0, command, payload);
        for learned in [a(), Learned::default(), absurd.clone()] {
            assert!(hear(&learned, NODE, request, &reply).is_ok());
        }
    }
}
