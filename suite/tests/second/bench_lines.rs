//! The bench program over the second node, and its lines.
use crate::bench::wire;
use suite::records::{record, SAMPLE, SAMPLE_LINES};
use suite::run::printed;

fn bench_prints(input: &[u8]) -> String {
    String::from_utf8(printed(env!("CARGO_BIN_EXE_second_bench"), input)).unwrap()
}

#[test]
fn bench_prints_the_settled_lines() {
    assert_eq!(bench_prints(SAMPLE), SAMPLE_LINES);
}

#[test]
fn bench_run_runquiet_refused_and_cut() {
    let mut input = [
        record(&wire(5, 0x50, &[0, 0xAB])),
        record(&wire(0xFF, 0x50, &[0, 0x0C])),
        record(&[]),
        record(&[0; 65_535]),
        record(&[5, 5]),
        record(&wire(6, 0, &[])),
    ]
    .concat();
    let lines = "1 run 0 AB\n2 runquiet 0 0C\n3 refused 4\n4 refused 4\n5 refused 5\n6 refused 6\n";
    assert_eq!(bench_prints(&input), lines);
    input.push(0);
    assert_eq!(bench_prints(&input), [lines, "7 cut\n"].concat());
    input.push(2);
    assert_eq!(bench_prints(&input), [lines, "7 cut\n"].concat());
    input.push(5);
    assert_eq!(bench_prints(&input), [lines, "7 cut\n"].concat());
    input.push(0xFB);
    assert_eq!(
        bench_prints(&input),
        [lines, "7 answer 00E100001F\n"].concat()
    );
    assert_eq!(bench_prints(&[]), "", "no header");
}

#[test]
fn bench_starts_as_a_fresh_board_and_keeps_lengths_and_sums() {
    let read = record(&wire(5, 0x0A, &[0]));
    let input = [
        read.clone(),
        record(&wire(5, 0x41, &[0, 0, 1, 7])),
        read.clone(),
        record(&wire(0xF8, 0x42, &[0])),
        read.clone(),
        record(&wire(5, 0x40, &[0, 0, 1])),
        record(&wire(5, 0x41, &[0, 0, 1, 0, 0, 0, 0])),
        record(&wire(5, 0x42, &[0])),
        read,
        record(&wire(5, 0x42, &[1])),
    ];
    let lines = "1 answer 000B00107DEA362B3FAC8E00956A4952A3D4F4742B\n\
                 2 answer 00E0000020\n\
                 3 answer 000B00107DEA362B3FAC8E00956A4952A3D4F4742B\n\
                 4 silent\n\
                 5 answer 000B00102BB91CFBE8E9959B49CAB8AC7EDBF05DCC\n\
                 6 answer 0041000400000107B3\n\
                 7 answer 00E0000020\n\
                 8 answer 00E0000020\n\
                 9 answer 000B00107DEA362B3FAC8E00956A4952A3D4F4742B\n\
                 10 answer 00E300001D\n";
    assert_eq!(bench_prints(&input.concat()), lines);
}
