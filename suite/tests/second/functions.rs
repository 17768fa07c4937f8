//! Functions to be run, and their results.
use crate::bench::{hex, variable, wire, Bench, REPLY};
use suite::second::{Outcome, Ran};

#[test]
fn fifty_gives_function_number_input_and_whether_an_answer_is_due() {
    let mut bench = Bench::with(&[variable(1, 1, 0)], &[], &[1, 2, 0, 0]);
    let run = |function, input, due| Outcome::Run {
        function,
        input,
        due,
    };
    let request = wire(5, 0x50, &[0, 0x42]);
    assert_eq!(bench.outcome(&request).0, run(0, 1, true));
    assert_eq!(request[5], 0x42);
    assert_eq!(bench.outcome(&wire(5, 0x50, &[1])).0, run(1, 0, true));
    assert_eq!(
        bench.outcome(&wire(0xFF, 0x50, &[0, 1])).0,
        run(0, 1, false)
    );
    assert_eq!(bench.error(0x50, &[]), 0xE5);
    assert_eq!(bench.error(0x50, &[2]), 0xE3);
    assert_eq!(bench.error(0x50, &[0]), 0xE5);
    assert_eq!(bench.error(0x50, &[0, 1, 2]), 0xE5);
    assert_eq!(
        bench.outcome(&wire(0xFF, 0x50, &[2])).0,
        Outcome::Silent,
        "a multicast error"
    );
}

#[test]
fn the_node_writes_reply_51_with_the_output_or_53_with_one_error_byte() {
    let mut bench = Bench::a();
    let before = bench.state();
    assert_eq!(bench.result(0, true, Ran::Well, &[1, 2]), Outcome::Reply(7));
    assert_eq!(bench.reply[..7], hex("00 51 00 02 01 02 AA"));
    for output in [&[][..], &[1, 2], &[3; 5000]] {
        let outcome = bench.result(0, true, Ran::Failed(0x42), output);
        assert_eq!(outcome, Outcome::Reply(6));
        assert_eq!(bench.reply[..6], hex("00 53 00 01 42 6A"));
    }
    assert_eq!(bench.result(0, false, Ran::Well, &[1, 2]), Outcome::Silent);
    assert_eq!(bench.result(0, false, Ran::Failed(1), &[]), Outcome::Silent);
    assert_eq!(bench.state(), before, "nothing else changes");
}

#[test]
fn function_result_1_3_7_8() {
    for due in [true, false] {
        let mut bench = Bench::a();
        let refused = Outcome::Refused;
        assert_eq!(bench.result(0, due, Ran::Well, &[1]), refused(8));
        assert_eq!(bench.result(0, due, Ran::Well, &[1, 2, 3]), refused(8));
        assert_eq!(bench.result(1, due, Ran::Well, &[1]), refused(7));
        assert_eq!(
            bench.result(usize::MAX, due, Ran::Failed(1), &[]),
            refused(7)
        );
        bench.reply = vec![0; REPLY - 1];
        assert_eq!(bench.result(1, due, Ran::Well, &[1]), refused(3));
        bench.address.own = 0;
        bench.values.push(0);
        assert_eq!(bench.result(1, due, Ran::Well, &[1]), refused(1));
    }
}
