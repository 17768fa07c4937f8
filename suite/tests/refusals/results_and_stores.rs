//! Refusals 7 and 8 of function results, 9 and 10 of board stores.
use crate::calls::{number_of, refused, FILLING};
use cruachvel::Ran;
use suite::boards::board_a;

#[test]
fn refusals_7_and_8_of_a_function_result() {
    let lent = board_a();
    let mut buffer = [FILLING; 4104];
    for due in [true, false] {
        for function in [1, 2, 255, 256, 1 << 32, usize::MAX] {
            for ran in [Ran::Gave(&[1, 2]), Ran::Gave(&[]), Ran::Failed(9)] {
                let outcome = lent.function_result(function, due, ran, &mut buffer);
                assert_eq!(refused(outcome), Some(7), "function {}", function);
            }
        }
        for length in [0, 1, 3, 15, 16, 300] {
            let outcome = lent.function_result(0, due, Ran::Gave(&vec![1; length]), &mut buffer);
            assert_eq!(refused(outcome), Some(8), "{} bytes", length);
        }
        assert_eq!(buffer, [FILLING; 4104]);
        assert_eq!(
            refused(lent.function_result(0, due, Ran::Failed(9), &mut buffer)),
            None
        );
        buffer = [FILLING; 4104];
    }
}

#[test]
fn a_failed_function_s_output_counts_for_nothing() {
    let lent = board_a();
    for length in [0, 1, 2, 3, 300] {
        let (output, mut reply) = (vec![7u8; length], [FILLING; 4104]);
        // SAFETY: every pointer is a slice's, with its length; only the reply is written.
        let told = unsafe {
            cruachvel::raw::bsmp_function_result(
                lent.variables.as_ptr(),
                lent.variables.len(),
                lent.curves.as_ptr(),
                lent.curves.len(),
                lent.functions.as_ptr(),
                lent.functions.len(),
                &lent.groups,
                lent.values.as_ptr(),
                lent.values.len(),
                lent.blocks.as_ptr(),
                lent.blocks.len(),
                lent.lengths.as_ptr(),
                lent.lengths.len(),
                lent.sums.as_ptr(),
                lent.sums.len(),
                0,
                true,
                true,
                0xBB,
                output.as_ptr(),
                length,
                reply.as_mut_ptr(),
                reply.len(),
            )
        };
        assert_eq!((told.kind, told.length), (cruachvel::raw::Told::REPLY, 6));
        assert_eq!(reply[..7], [0x00, 0x53, 0x00, 0x01, 0xBB, 0xF1, FILLING]);
    }
}

#[test]
fn refusals_9_and_10_of_a_board_store() {
    for variable in [3, 4, 64, 256, 1 << 32, usize::MAX] {
        let mut lent = board_a();
        assert_eq!(
            number_of(lent.board_store(variable, &[1])),
            Some(9),
            "variable {}",
            variable
        );
        assert_eq!(lent, board_a());
    }
    for length in [0, 1, 3, 5, 8, 300] {
        let mut lent = board_a();
        assert_eq!(
            number_of(lent.board_store(0, &vec![1; length])),
            Some(10),
            "{} bytes",
            length
        );
        assert_eq!(lent, board_a());
    }
}
