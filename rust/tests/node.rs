//! The owned node and the types of the face.
use cruachvel::{
    md5, Address, Board, Curve, Function, FunctionNumber, Groups, Kind, Node, Outcome, Ran,
    Refusal, State, Variable, VariableNumber, MOST_BLOCKS, MOST_CURVES, MOST_CURVE_BYTES,
    MOST_VALUE_BYTES, REPLY_ROOM, SUM_SIZE,
};

const SIGNED: VariableNumber = VariableNumber(0);
const PLAIN: VariableNumber = VariableNumber(1);
const UNSIGNED: VariableNumber = VariableNumber(2);
const NONE: [VariableNumber; 2] = [VariableNumber(3), VariableNumber(usize::MAX)];

// The sum of board A's curve, eight zero bytes, and the packets that read and renew it.
const SUM: [u8; SUM_SIZE] = [
    0x7D, 0xEA, 0x36, 0x2B, 0x3F, 0xAC, 0x8E, 0x00, 0x95, 0x6A, 0x49, 0x52, 0xA3, 0xD4, 0xF4, 0x74,
];
const READ_SUM: [u8; 6] = [0x05, 0x0A, 0x00, 0x01, 0x00, 0xF0];
const RENEW_SUM: [u8; 6] = [0x05, 0x42, 0x00, 0x01, 0x00, 0xB8];
const OK: Outcome = Outcome::Reply(&[0x00, 0xE0, 0x00, 0x00, 0x20]);

fn board_a() -> Board {
    Board {
        variables: vec![
            Variable::read_only(4, Kind::SignedBig),
            Variable::writable(1, Kind::Plain),
            Variable::writable(2, Kind::UnsignedLittle),
        ],
        curves: vec![Curve::writable(4, 2)],
        functions: vec![Function {
            input: 1,
            output: 2,
        }],
        address: Address {
            own: 5,
            multicast: 0x81,
        },
    }
}

fn node_a() -> Node {
    let values = vec![0xFF, 0xFF, 0xFF, 0xFD, 0x5A, 0x34, 0x12];
    let state = State {
        values,
        blocks: vec![0; 8],
        lengths: vec![4, 4],
        sums: SUM.to_vec(),
        groups: Groups::NONE,
    };
    Node::with_state(board_a(), state)
}

// The sum that 0A of curve 0 is answered with.
fn sum_read(node: &mut Node) -> Vec<u8> {
    let mut reply = [0; REPLY_ROOM];
    match node.packet(&READ_SUM, &mut reply) {
        Outcome::Reply([0x00, 0x0B, 0x00, 0x10, sum @ .., _]) => sum.to_vec(),
        other => panic!("no sum: {:?}", other),
    }
}

#[test]
fn refusals_have_the_numbers_and_words_of_01_and_02() {
    let words = [
        "board unusable",
        "bad address",
        "reply buffer short",
        "packet length",
        "checksum",
        "not for this board",
        "no such function",
        "output length",
        "no such variable",
        "wrong byte count",
        "wrong kind",
        "doesn't fit",
        "reply doesn't fit the request",
        "request can't be written",
    ];
    for (number, words) in (1..).zip(words) {
        let refusal = Refusal::of(number).expect("1 to 14");
        assert_eq!(
            (refusal.number(), refusal.to_string().as_str()),
            (number, words)
        );
    }
    assert_eq!(
        (Refusal::of(0), Refusal::of(15), Refusal::of(255)),
        (None, None, None)
    );
}

#[test]
fn a_fresh_node_has_stores_of_the_lengths_that_its_records_add_up_to() {
    let mut node = Node::new(board_a());
    assert_eq!((node.state.values.len(), node.state.blocks.len()), (7, 8));
    assert_eq!(node.state.lengths, [4, 4]);
    assert_eq!(node.state.sums, SUM);
    let version = Outcome::Reply(&[0x00, 0x01, 0x00, 0x03, 0x02, 0x14, 0x00, 0xE6]);
    let mut reply = [0; REPLY_ROOM];
    assert_eq!(
        node.packet(&[0x05, 0x00, 0x00, 0x00, 0xFB], &mut reply),
        version
    );
}

#[test]
fn replies_are_held_while_the_node_is_used() {
    let mut node = node_a();
    let (mut first, mut second) = ([0; REPLY_ROOM], [0; REPLY_ROOM]);
    let read = [0x05, 0x10, 0x00, 0x01, 0x00, 0xEA];
    let before = node.packet(&read, &mut first);
    assert_eq!(node.store_signed(SIGNED, 1), Ok(()));
    let after = node.packet(&read, &mut second);
    assert_eq!(node.value_signed(SIGNED), Ok(1));
    let minus_3 = [0x00, 0x11, 0x00, 0x04, 0xFF, 0xFF, 0xFF, 0xFD, 0xF1];
    let plus_1 = [0x00, 0x11, 0x00, 0x04, 0x00, 0x00, 0x00, 0x01, 0xEA];
    assert_eq!(
        (before, after),
        (Outcome::Reply(&minus_3), Outcome::Reply(&plus_1))
    );
}

#[test]
fn an_input_is_held_while_the_reply_buffer_is_used() {
    let mut node = node_a();
    let mut reply = [0; REPLY_ROOM];
    let packet = [0x05, 0x50, 0x00, 0x02, 0x00, 0x77, 0x32];
    let input = match node.packet(&packet, &mut reply) {
        Outcome::Run { input, .. } => input,
        other => panic!("no function to be run: {:?}", other),
    };
    let gave = node.function_result(FunctionNumber(0), true, Ran::Gave(&[1, 2]), &mut reply);
    assert!(matches!(gave, Outcome::Reply(_)));
    assert_eq!(input, [0x77]);
}

#[test]
fn a_reply_buffer_that_is_short_is_refused() {
    let mut node = node_a();
    let mut reply = [0xAA; REPLY_ROOM - 1];
    let short = Outcome::Refused(Refusal::ReplyBufferShort);
    assert_eq!(node.packet(&[], &mut reply), short);
    let result = node.function_result(FunctionNumber(9), false, Ran::Failed(0), &mut reply);
    assert_eq!(result, short);
    assert_eq!(reply, [0xAA; REPLY_ROOM - 1]);
}

#[test]
fn numbers_are_stored_and_read_back() {
    let mut node = Node::new(board_a());
    assert_eq!(node.store_signed(SIGNED, -3), Ok(()));
    assert_eq!(node.store_unsigned(UNSIGNED, 0x1234), Ok(()));
    assert_eq!(node.store(PLAIN, &[0x5A]), Ok(()));
    assert_eq!(node, node_a());
    assert_eq!(node.value_signed(SIGNED), Ok(-3));
    assert_eq!(node.value_unsigned(UNSIGNED), Ok(0x1234));
    assert_eq!(node.value(PLAIN), Ok(&[0x5A][..]));
    assert_eq!(node.place(UNSIGNED), Ok(5..7));
    assert_eq!(node.read_signed(SIGNED, &[0xFF, 0xFF, 0xFF, 0xFE]), Ok(-2));
    assert_eq!(node.read_unsigned(UNSIGNED, &[0x01, 0x02]), Ok(0x0201));
}

#[test]
fn values_that_are_no_such_numbers_are_refused() {
    let node = node_a();
    for variable in [PLAIN, UNSIGNED] {
        assert_eq!(node.value_signed(variable), Err(Refusal::WrongKind));
    }
    for variable in [PLAIN, SIGNED] {
        assert_eq!(node.value_unsigned(variable), Err(Refusal::WrongKind));
    }
    for variable in NONE {
        assert_eq!(node.value_signed(variable), Err(Refusal::NoSuchVariable));
        assert_eq!(node.value_unsigned(variable), Err(Refusal::NoSuchVariable));
        assert_eq!(node.value(variable), Err(Refusal::NoSuchVariable));
        assert_eq!(node.place(variable), Err(Refusal::NoSuchVariable));
    }
}

#[test]
fn numbers_that_can_t_be_stored_are_refused_and_change_nothing() {
    let mut node = node_a();
    let refused = [
        node.store_signed(NONE[0], i64::MAX),
        node.store_unsigned(NONE[1], u64::MAX),
        node.store_signed(PLAIN, i64::MAX),
        node.store_unsigned(SIGNED, u64::MAX),
        node.store_signed(SIGNED, 1 << 31),
        node.store_unsigned(UNSIGNED, 65536),
    ];
    let numbers = refused.map(|result| result.map_or_else(Refusal::number, |()| 0));
    assert_eq!(numbers, [9, 9, 11, 11, 12, 12]);
    assert_eq!(node, node_a());
}

// Each leaves the variable records as they are, so that a reading alone would see nothing wrong.
#[test]
fn of_an_unusable_board_nothing_else_is_said() {
    let spoils: [fn(&mut Node); 8] = [
        |node| node.state.values.truncate(6),
        |node| node.state.blocks.push(0),
        |node| node.state.lengths.truncate(1),
        |node| node.state.lengths.push(4),
        |node| node.state.sums.truncate(15),
        |node| node.state.sums.extend(SUM),
        |node| node.state.groups.count = 6,
        |node| node.board.functions[0].input = 16,
    ];
    for spoil in spoils {
        let mut node = node_a();
        spoil(&mut node);
        let spoilt = node.clone();
        for variable in [SIGNED, PLAIN, UNSIGNED, NONE[0]] {
            let unusable = Refusal::BoardUnusable;
            assert_eq!(node.store_signed(variable, i64::MAX), Err(unusable));
            assert_eq!(node.store_unsigned(variable, u64::MAX), Err(unusable));
            assert_eq!(node.value_signed(variable), Err(unusable));
            assert_eq!(node.value_unsigned(variable), Err(unusable));
            assert_eq!(node.value(variable), Err(unusable));
            assert_eq!(node.place(variable), Err(unusable));
            assert_eq!(node.fresh(), Err(unusable));
        }
        assert_eq!(node, spoilt);
    }
}

#[test]
fn a_function_is_run_and_its_result_handed_in() {
    let mut node = node_a();
    let run = Outcome::Run {
        function: FunctionNumber(0),
        input: &[0x77],
        due: true,
    };
    let mut reply = [0; REPLY_ROOM];
    assert_eq!(
        node.packet(&[0x05, 0x50, 0x00, 0x02, 0x00, 0x77, 0x32], &mut reply),
        run
    );
    let mut result = |due, ran, expected| {
        let outcome = node.function_result(FunctionNumber(0), due, ran, &mut reply);
        assert_eq!(outcome, expected);
    };
    let gave = Ran::Gave(&[0x01, 0x02]);
    let reply_51 = Outcome::Reply(&[0x00, 0x51, 0x00, 0x02, 0x01, 0x02, 0xAA]);
    let reply_53 = Outcome::Reply(&[0x00, 0x53, 0x00, 0x01, 0xBB, 0xF1]);
    result(true, gave, reply_51);
    result(true, Ran::Failed(0xBB), reply_53);
    result(false, gave, Outcome::Silence);
}

#[test]
fn busy_marks_stop_reads_and_writes() {
    let mut node = node_a();
    node.busy = 0b010;
    let mut reply = [0; REPLY_ROOM];
    let busy = Outcome::Reply(&[0x00, 0xE8, 0x00, 0x00, 0x18]);
    for request in [
        &[0x05, 0x20, 0x00, 0x02, 0x01, 0x66, 0x72][..],
        &[0x05, 0x10, 0x00, 0x01, 0x01, 0xE9],
        &[0x05, 0x12, 0x00, 0x01, 0x00, 0xE8],
        &[0x05, 0x28, 0x00, 0x04, 0x02, 0x01, 0x66, 0x66, 0x00],
    ] {
        assert_eq!(node.packet(request, &mut reply), busy, "{:02X?}", request);
    }
    let other = Outcome::Reply(&[0x00, 0x11, 0x00, 0x02, 0x34, 0x12, 0xA7]);
    let request = [0x05, 0x10, 0x00, 0x01, 0x02, 0xE8];
    assert_eq!(node.packet(&request, &mut reply), other);
}

// The board itself goes by no mark: it stores and reads while it renews a value.
#[test]
fn half_a_value_is_never_sent() {
    let mut node = node_a();
    let mut reply = [0; REPLY_ROOM];
    let request = [0x05, 0x10, 0x00, 0x01, 0x00, 0xEA];
    let place = node.place(VariableNumber(0)).expect("it is declared");
    node.busy = 0b001;
    node.state.values[place.clone()][..2].copy_from_slice(&[0x00, 0x00]);
    let busy = Outcome::Reply(&[0x00, 0xE8, 0x00, 0x00, 0x18]);
    assert_eq!(node.packet(&request, &mut reply), busy);
    node.state.values[place][2..].copy_from_slice(&[0x01, 0x2C]);
    assert_eq!(node.value_signed(VariableNumber(0)), Ok(300));
    node.busy = 0;
    let new = Outcome::Reply(&[0x00, 0x11, 0x00, 0x04, 0x00, 0x00, 0x01, 0x2C, 0xBE]);
    assert_eq!(node.packet(&request, &mut reply), new);
}

#[test]
fn an_absurd_board_is_refused_by_each_call() {
    let huge = Curve::writable(u32::MAX, u32::MAX);
    let mut node = Node::new(Board {
        variables: vec![Variable::writable(255, Kind::Plain); 300],
        curves: vec![huge; 300],
        functions: vec![
            Function {
                input: 255,
                output: 255
            };
            300
        ],
        address: Address {
            own: 0,
            multicast: 0,
        },
    });
    assert_eq!(
        (node.state.values.len(), node.state.blocks.len()),
        (MOST_VALUE_BYTES, MOST_CURVE_BYTES)
    );
    assert_eq!(node.state.lengths, [0; MOST_BLOCKS]);
    assert_eq!(node.state.sums, [0; MOST_CURVES * SUM_SIZE]);
    let unusable = Refusal::BoardUnusable;
    assert_eq!(node.packet(&[], &mut []), Outcome::Refused(unusable));
    let result = node.function_result(FunctionNumber(0), true, Ran::Failed(0), &mut []);
    assert_eq!(result, Outcome::Refused(unusable));
    assert_eq!(node.store(VariableNumber(299), &[]), Err(unusable));
    assert_eq!(node.store_signed(VariableNumber(0), 0), Err(unusable));
    assert_eq!(node.read_unsigned(VariableNumber(0), &[]), Err(unusable));
    assert_eq!(node.value(VariableNumber(299)), Err(unusable));
    assert_eq!(node.fresh(), Err(unusable));
}

#[test]
fn a_sum_is_read_in_the_order_of_the_rfc() {
    let mut node = node_a();
    let mut reply = [0; REPLY_ROOM];
    let sum = [&[0x00, 0x0B, 0x00, 0x10][..], &SUM, &[0x2B]].concat();
    assert_eq!(node.packet(&READ_SUM, &mut reply), Outcome::Reply(&sum));
    assert_eq!(node, node_a());
}

#[test]
fn a_block_write_leaves_a_sum_stale_and_42_renews_it() {
    for destination in [0x05, 0xF8] {
        let mut node = Node::new(board_a());
        let mut reply = [0; REPLY_ROOM];
        let write = [0x05, 0x41, 0x00, 0x05, 0x00, 0x00, 0x01, 0x66, 0x77, 0xD7];
        assert_eq!(node.packet(&write, &mut reply), OK);
        assert_eq!(sum_read(&mut node), SUM);
        let mut renew = RENEW_SUM;
        renew[0] = destination;
        renew[5] = renew[5].wrapping_add(0x05).wrapping_sub(destination);
        let expected = if destination == 0x05 {
            OK
        } else {
            Outcome::Silence
        };
        assert_eq!(node.packet(&renew, &mut reply), expected);
        assert_eq!(sum_read(&mut node), md5(&[0, 0, 0, 0, 0x66, 0x77]));
        assert_eq!(node.state.sums, md5(&node.state.blocks[..6]));
    }
}

// What 40 of block 1 is answered with, behind curve and block.
fn block_read(node: &mut Node) -> Vec<u8> {
    let read = [0x05, 0x40, 0x00, 0x03, 0x00, 0x00, 0x01, 0xB7];
    let mut reply = [0; REPLY_ROOM];
    match node.packet(&read, &mut reply) {
        Outcome::Reply([0x00, 0x41, _, _, 0x00, 0x00, 0x01, block @ .., _]) => block.to_vec(),
        other => panic!("no block: {:?}", other),
    }
}

#[test]
fn a_block_is_as_long_as_the_last_write_made_it() {
    let mut node = node_a();
    let mut reply = [0; REPLY_ROOM];
    let write = [0x05, 0x41, 0x00, 0x05, 0x00, 0x00, 0x01, 0x66, 0x77, 0xD7];
    assert_eq!(block_read(&mut node), [0; 4]);
    assert_eq!(node.packet(&write, &mut reply), OK);
    assert_eq!(block_read(&mut node), [0x66, 0x77]);
    assert_eq!(node.state.lengths, [4, 2]);
    let longer = [
        0x05, 0x41, 0x00, 0x06, 0x00, 0x00, 0x01, 0x11, 0x22, 0x33, 0x4D,
    ];
    assert_eq!(node.packet(&longer, &mut reply), OK);
    assert_eq!(block_read(&mut node), [0x11, 0x22, 0x33]);
    assert_eq!(node.fresh(), Ok(()));
    assert_eq!(node.state.lengths, [4, 4]);
    assert_eq!(block_read(&mut node), [0x11, 0x22, 0x33, 0]);
}

// By all but a fresh board, which sets the lengths whatever they are.
#[test]
fn a_length_out_of_range_is_refused_until_the_board_is_fresh() {
    for (block, length) in [(0, 0), (1, 0), (0, 5), (1, 5), (1, u16::MAX)] {
        let mut node = node_a();
        node.state.lengths[block] = length;
        let spoilt = node.clone();
        let unusable = Refusal::BoardUnusable;
        let refused = Outcome::Refused(unusable);
        assert_eq!(node.packet(&READ_SUM, &mut [0; REPLY_ROOM]), refused);
        let result = node.function_result(FunctionNumber(0), true, Ran::Failed(0), &mut []);
        assert_eq!(result, refused);
        assert_eq!(node.store(PLAIN, &[1]), Err(unusable));
        assert_eq!(node.value(PLAIN), Err(unusable));
        assert_eq!(node, spoilt);
        assert_eq!(node.fresh(), Ok(()));
        assert_eq!(node, node_a());
    }
}

#[test]
fn a_read_only_curve_s_sum_is_renewed_too() {
    let mut board = board_a();
    board.curves[0] = Curve::read_only(4, 2);
    let mut node = Node::new(board);
    node.state.blocks.fill(9);
    node.busy = u64::MAX;
    assert_eq!(node.packet(&RENEW_SUM, &mut [0; REPLY_ROOM]), OK);
    assert_eq!(sum_read(&mut node), md5(&[9; 8]));
}

#[test]
fn a_given_state_gets_its_lengths_and_sums_by_fresh() {
    let mut board = board_a();
    board.curves.push(Curve::read_only(3, 1));
    let mut node = Node::new(board);
    node.state.blocks = (1..=11).collect();
    let mut expected = node.clone();
    node.state.lengths.fill(1);
    node.state.sums.fill(0xAA);
    expected.state.sums = [md5(&[1, 2, 3, 4, 5, 6, 7, 8]), md5(&[9, 10, 11])].concat();
    assert_eq!(node.fresh(), Ok(()));
    assert_eq!(node, expected);
}

#[test]
fn a_wrong_payload_of_0a_and_42_gets_e5_and_no_such_curve_e3() {
    let mut node = node_a();
    let mut reply = [0; REPLY_ROOM];
    let mut answer = |command: u8, payload: &[u8]| {
        let mut packet = vec![0x05, command, 0x00, payload.len() as u8];
        packet.extend(payload);
        packet.push(
            packet
                .iter()
                .fold(0, |sum: u8, byte| sum.wrapping_sub(*byte)),
        );
        match node.packet(&packet, &mut reply) {
            Outcome::Reply(reply) => reply[1],
            other => panic!("{:02X?} ended in {:?}", packet, other),
        }
    };
    for command in [0x0A, 0x42] {
        for payload in [&[][..], &[0, 0], &[1, 0]] {
            assert_eq!(answer(command, payload), 0xE5, "{:02X}", command);
        }
        assert_eq!(answer(command, &[1]), 0xE3, "{:02X}", command);
    }
    assert_eq!(node, node_a());
}

#[test]
fn a_board_without_variables_is_refused() {
    let mut board = board_a();
    board.variables.clear();
    let mut node = Node::new(board);
    assert_eq!(
        node.packet(&[0x05, 0xFB], &mut [0; REPLY_ROOM]),
        Outcome::Refused(Refusal::BoardUnusable)
    );
}
