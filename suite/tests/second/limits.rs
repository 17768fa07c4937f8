//! The limits of a board: refusal 1 at each of them.
use crate::bench::{variable, Bench};
use suite::second::{Groups, Variable};

#[test]
fn variables_1_to_64_each_1_to_127_bytes_together_at_most_4096() {
    let usable = |variables: &[Variable]| !Bench::with(variables, &[], &[]).unusable();
    assert!(!usable(&[]));
    assert!(usable(&[variable(0, 1, 0)]));
    assert!(usable(&[variable(0, 1, 0); 64]));
    assert!(!usable(&[variable(0, 1, 0); 65]));
    assert!(usable(&[variable(0, 127, 0)]));
    assert!(!usable(&[variable(0, 128, 0)]));
    assert!(!usable(&[variable(0, 0, 0)]));
    assert!(!usable(&[variable(2, 1, 0)]));
    assert!(!usable(&[variable(0, 1, 5)]));
    assert!(usable(&[variable(0, 64, 0); 64]));
    let mut over = [variable(0, 64, 0); 64];
    over[63].size = 65;
    assert!(!usable(&over));
    for kind in 1..=4 {
        for size in 0..=255 {
            let number = [1, 2, 4, 8].contains(&size);
            assert_eq!(usable(&[variable(1, size, kind)]), number);
        }
    }
}

#[test]
fn curves_0_to_8_block_size_1_to_4096_blocks_1_to_65536_all_together_at_most_65536() {
    let usable = |curves: &[u32]| !Bench::with(&[variable(0, 1, 0)], curves, &[]).unusable();
    assert!(usable(&[1, 1, 1].repeat(8)));
    assert!(!usable(&[1, 1, 1].repeat(9)));
    assert!(usable(&[0, 4096, 16]));
    assert!(!usable(&[0, 4096, 17]));
    assert!(!usable(&[0, 4097, 1]));
    assert!(!usable(&[0, 0, 1]));
    assert!(!usable(&[0, 1, 0]));
    assert!(!usable(&[2, 1, 1]));
    assert!(usable(&[0, 1, 65_536]));
    assert!(!usable(&[0, 1, 65_537]));
    assert!(!usable(&[0, 1, 65_536, 0, 1, 1]));
    assert!(usable(&[0, 4096, 8].repeat(2)));
    assert!(!usable(&[1]), "a record cut off");
    assert!(!usable(&[1, 1, 1, 1, 1]));
    let mut wrapping = Bench::a();
    for curves in [
        [1, 4096, 1 << 20],
        [1, 65_536, 65_536],
        [1, u32::MAX, u32::MAX],
    ] {
        wrapping.curves = curves.to_vec();
        assert!(wrapping.unusable());
    }
}

#[test]
fn functions_0_to_16_input_0_to_15_bytes_output_0_to_15_bytes() {
    let usable = |functions: &[u8]| !Bench::with(&[variable(0, 1, 0)], &[], functions).unusable();
    assert!(usable(&[]));
    assert!(usable(&[15; 32]));
    assert!(!usable(&[15; 34]));
    assert!(!usable(&[16, 0]));
    assert!(!usable(&[0, 16]));
    assert!(!usable(&[1]), "a record cut off");
}

#[test]
fn stores_exactly_the_length_that_the_records_add_up_to() {
    for (values, blocks) in [(6, 8), (8, 8), (7, 7), (7, 9), (0, 8), (7, 0)] {
        let mut bench = Bench::a();
        bench.values.resize(values, 0);
        bench.blocks.resize(blocks, 0);
        assert!(bench.unusable());
    }
}

#[test]
fn groups_0_to_5_each_a_non_empty_set_of_declared_variables() {
    let usable = |count, sets| {
        let mut bench = Bench::a();
        bench.groups = Groups { count, sets };
        !bench.unusable()
    };
    assert!(usable(5, [1, 2, 4, 7, 7]));
    assert!(!usable(6, [1; 5]));
    assert!(!usable(u64::MAX, [1; 5]));
    assert!(!usable(1 << 32, [1; 5]));
    assert!(!usable(2, [1, 0, 1, 1, 1]));
    assert!(!usable(1, [8, 1, 1, 1, 1]));
    assert!(!usable(5, [1, 1, 1, 1, 1 << 63]));
    assert!(usable(1, [1, 0, 8, u64::MAX, 0]), "places from count on");
    assert!(usable(0, [u64::MAX; 5]));
}
