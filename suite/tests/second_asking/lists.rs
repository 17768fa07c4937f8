//! The lists that a node tells of itself: whole records within 01's limits, and 07 ascending. No table is needed to read them.
use crate::gateway::from_anyone;
use suite::second_asking::{Heard, Request};

fn fits(request: Request, command: u8, payload: &[u8]) -> bool {
    match from_anyone(request, command, payload) {
        Ok(_) => true,
        Err(refusal) => {
            assert_eq!(refusal, 13);
            false
        }
    }
}

#[test]
fn variables_1_to_64_of_1_to_127_bytes_together_at_most_4096() {
    let fits = |payload: &[u8]| fits(Request::ListVariables, 0x03, payload);
    assert!(!fits(&[]));
    for byte in 0..=255 {
        assert_eq!(fits(&[byte]), byte & 0x7F != 0);
    }
    assert!(!fits(&[1, 0x80, 1]), "128 is no size yet");
    assert!(fits(&[1; 64]));
    assert!(!fits(&[1; 65]));
    assert!(!fits(&[1; 4099]));
    assert!(fits(&[0x80 | 64; 64]));
    let mut over = [64; 64];
    over[0] = 65;
    assert!(!fits(&over));
    assert!(fits(&[0xFF; 32]));
    assert!(!fits(&[0xFF; 33]));
}

#[test]
fn a_variables_top_bit_says_that_it_is_writable() {
    let heard = from_anyone(Request::ListVariables, 0x03, &[0x7F, 0xFF, 0x01, 0x81]);
    let expected = vec![(false, 127), (true, 127), (false, 1), (true, 1)];
    assert_eq!(heard, Ok(Heard::Variables(expected)));
}

#[test]
fn groups_3_to_8_of_at_most_64_members() {
    let fits = |payload: &[u8]| fits(Request::ListGroups, 0x05, payload);
    for count in 0..12 {
        assert_eq!(fits(&vec![1; count]), (3..=8).contains(&count));
    }
    for group in 0..8 {
        for byte in 0..=255 {
            let mut payload = [1; 8];
            payload[group] = byte;
            let least = if [1, 2].contains(&group) { 0 } else { 1 };
            let members = byte & 0x7F;
            assert_eq!(fits(&payload), (least..=64).contains(&members));
        }
    }
}

#[test]
fn a_groups_top_bit_says_that_it_is_writable() {
    let heard = from_anyone(Request::ListGroups, 0x05, &[0xC0, 0x00, 0xC0, 0x01, 0x82]);
    let expected = vec![(true, 64), (false, 0), (true, 64), (false, 1), (true, 2)];
    assert_eq!(heard, Ok(Heard::Groups(expected)));
    let bsmp = from_anyone(Request::ListGroups, 0x05, &[0x0A, 0x05, 0x85]);
    let expected = vec![(false, 10), (false, 5), (true, 5)];
    assert_eq!(bsmp, Ok(Heard::Groups(expected)));
}

#[test]
fn members_are_strictly_ascending_and_below_64() {
    let fits = |payload: &[u8]| fits(Request::ShowGroup(3), 0x07, payload);
    assert!(fits(&[0]) && fits(&[63]) && fits(&[0, 63]));
    assert!(!fits(&[64]) && !fits(&[255]) && !fits(&[0, 64]));
    assert!(!fits(&[1, 1]) && !fits(&[2, 1]) && !fits(&[0, 2, 1]));
    assert!(!fits(&[0, 1, 2, 2]));
    let all: Vec<u8> = (0..64).collect();
    assert!(fits(&all));
    let past: Vec<u8> = (0..65).collect();
    assert!(!fits(&past));
    let bsmp = from_anyone(Request::ShowGroup(3), 0x07, &[4, 5, 6, 7, 9]);
    assert_eq!(bsmp, Ok(Heard::Members(vec![4, 5, 6, 7, 9])));
}

#[test]
fn only_groups_1_and_2_have_no_members() {
    for group in [0, 1, 2, 3, 7, 8, 255, 256, usize::MAX] {
        let empty = from_anyone(Request::ShowGroup(group), 0x07, &[]);
        let may = [1, 2].contains(&group);
        let expected = if may {
            Ok(Heard::Members(vec![]))
        } else {
            Err(13)
        };
        assert_eq!(empty, expected);
        assert!(fits(Request::ShowGroup(group), 0x07, &[5]));
    }
}

fn curve(sort: u8, block_size: u16, blocks: u16) -> Vec<u8> {
    let [size_high, size_low] = block_size.to_be_bytes();
    let [blocks_high, blocks_low] = blocks.to_be_bytes();
    vec![sort, size_high, size_low, blocks_high, blocks_low]
}

#[test]
fn curves_are_whole_records_of_five_bytes_8_at_most() {
    let record = curve(1, 1, 1);
    for length in 0..=60 {
        let bytes: Vec<u8> = record.iter().copied().cycle().take(length).collect();
        let expected = length % 5 == 0 && length <= 40;
        assert_eq!(fits(Request::ListCurves, 0x09, &bytes), expected);
    }
    let none = from_anyone(Request::ListCurves, 0x09, &[]);
    assert_eq!(none, Ok(Heard::Curves(vec![])));
}

#[test]
fn curves_keep_to_01s_limits() {
    let fits = |payload: &[u8]| fits(Request::ListCurves, 0x09, payload);
    assert!(fits(&curve(0, 1, 1)) && fits(&curve(1, 1, 1)));
    assert!(!fits(&curve(2, 1, 1)) && !fits(&curve(0x80, 1, 1)));
    assert!(!fits(&curve(0, 0, 1)) && !fits(&curve(0, 0, 0)));
    assert!(fits(&curve(0, 4096, 16)) && !fits(&curve(0, 4096, 17)));
    assert!(!fits(&curve(0, 4097, 1)) && !fits(&curve(0, 65_535, 1)));
    assert!(fits(&curve(0, 1, 65_535)) && fits(&curve(0, 1, 0)));
    assert!(!fits(&curve(0, 2, 0)), "131,072 bytes");
    let full = curve(0, 1, 65_535);
    assert!(fits(&[full.clone(), curve(0, 1, 1)].concat()));
    assert!(!fits(&[full, curve(0, 1, 2)].concat()));
    assert!(!fits(&[curve(0, 1, 0), curve(0, 1, 1)].concat()));
    assert!(
        !fits(&curve(0, 0x4000, 0x0200)),
        "BSMP's example is larger than 01 allows"
    );
}

#[test]
fn a_curve_is_told_as_type_block_size_and_blocks() {
    let both = [curve(1, 0x0102, 0x0003), curve(0, 0x0001, 0x0203)].concat();
    let heard = from_anyone(Request::ListCurves, 0x09, &both);
    let expected = vec![(1, 0x102, 3), (0, 1, 0x203)];
    assert_eq!(heard, Ok(Heard::Curves(expected)));
    let most = from_anyone(Request::ListCurves, 0x09, &curve(0, 1, 0));
    assert_eq!(most, Ok(Heard::Curves(vec![(0, 1, 65_536)])), "sent as 0");
}

#[test]
fn functions_16_at_most_input_in_the_high_four_bits() {
    for count in 0..20 {
        let fits = fits(Request::ListFunctions, 0x0D, &vec![0xFF; count]);
        assert_eq!(fits, count <= 16);
    }
    let bsmp = from_anyone(Request::ListFunctions, 0x0D, &[0xF0, 0x0F, 0x22]);
    let expected = vec![(15, 0), (0, 15), (2, 2)];
    assert_eq!(bsmp, Ok(Heard::Functions(expected)));
    let none = from_anyone(Request::ListFunctions, 0x0D, &[]);
    assert_eq!(none, Ok(Heard::Functions(vec![])));
}
