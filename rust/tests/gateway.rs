//! The asking side: board A is learned and asked everything, in process.
use cruachvel::{
    md5, Address, Answer, Board, Curve, CurveNumber, Function, FunctionNumber, Gateway,
    GroupNumber, Kind, Learned, ListedGroup, ListedVariable, Lists, Masking, Node, Number, Outcome,
    Ran, Refusal, Request, Variable, VariableNumber, WireError, REPLY_ROOM, REQUEST_ROOM, SUM_SIZE,
};

const SIGNED: VariableNumber = VariableNumber(0);
const PLAIN: VariableNumber = VariableNumber(1);
const UNSIGNED: VariableNumber = VariableNumber(2);
const CURVE: CurveNumber = CurveNumber(0);
const FUNCTION: FunctionNumber = FunctionNumber(0);

fn board_a() -> Board {
    Board {
        variables: vec![
            Variable::read_only(4, Kind::SignedBig),
            Variable::writable(1, Kind::Plain),
            Variable::writable(2, Kind::UnsignedLittle),
        ],
        curves: vec![Curve::writable(4, 2)],
        functions: vec![Function {
            input: 1,
            output: 2,
        }],
        address: Address {
            own: 5,
            multicast: 0x81,
        },
    }
}

fn node_a() -> Node {
    let mut node = Node::new(board_a());
    node.store_signed(SIGNED, -3).expect("it fits");
    node.store(PLAIN, &[0x5A]).expect("it is one byte");
    node.store_unsigned(UNSIGNED, 0x1234).expect("it fits");
    node
}

// The packet of a request, if it can be written.
fn asked(gateway: &Gateway, request: &Request) -> Result<Vec<u8>, Refusal> {
    let mut packet = [0; REQUEST_ROOM];
    gateway.ask(request, &mut packet).map(<[u8]>::to_vec)
}

// What the node sends back. A function gives its number and its input.
fn reply_of(node: &mut Node, packet: &[u8]) -> Vec<u8> {
    let mut reply = [0; REPLY_ROOM];
    match node.packet(packet, &mut reply) {
        Outcome::Reply(reply) => reply.to_vec(),
        Outcome::Run {
            function,
            input,
            due,
        } => {
            let output = [function.0 as u8, input[0]];
            let ran = match input[0] {
                0xFF => Ran::Failed(0xBB),
                _ => Ran::Gave(&output),
            };
            match node.function_result(function, due, ran, &mut reply) {
                Outcome::Reply(reply) => reply.to_vec(),
                other => panic!("no reply: {:?}", other),
            }
        }
        other => panic!("{:02X?} ended in {:?}", packet, other),
    }
}

// The reply to a request of the node, and what it says.
fn exchange(gateway: &mut Gateway, node: &mut Node, request: &Request, check: impl Fn(Answer)) {
    let packet = asked(gateway, request).expect("it can be written");
    let reply = reply_of(node, &packet);
    check(gateway.hear(request, &reply).expect("it fits"));
}

fn learn(gateway: &mut Gateway, node: &mut Node) -> Vec<u8> {
    let (mut lists, mut codes) = (Lists::new(), Vec::new());
    while let Some(request) = lists.to_ask() {
        codes.push(request.code());
        let packet = asked(gateway, &request).expect("it can be written");
        let reply = reply_of(node, &packet);
        let answer = gateway.hear(&request, &reply).expect("it fits");
        lists.heard(&answer).expect("no error");
    }
    codes
}

// A gateway that has learned board A.
fn gateway_a(node: &mut Node) -> Gateway {
    let mut gateway = Gateway::new(5);
    gateway.kinds = vec![Kind::SignedBig, Kind::Plain, Kind::UnsignedLittle];
    learn(&mut gateway, node);
    gateway
}

fn closed(bytes: &[u8]) -> Vec<u8> {
    let sum = bytes.iter().fold(0u8, |sum, byte| sum.wrapping_sub(*byte));
    [bytes, &[sum]].concat()
}

fn values(answer: &Answer) -> Vec<(usize, Vec<u8>)> {
    match answer {
        Answer::Values(values) => values
            .clone()
            .map(|(variable, bytes)| (variable.0, bytes.to_vec()))
            .collect(),
        other => panic!("no values: {:?}", other),
    }
}

#[test]
fn a_request_of_each_sort_is_written() {
    let (v, g, c, f) = (
        VariableNumber(1),
        GroupNumber(3),
        CurveNumber(2),
        FunctionNumber(4),
    );
    let written = WriteReadOf(1, 0).request(&[0x77]);
    let requests = [
        (Request::Version, "05 00 00 00"),
        (Request::ListVariables, "05 02 00 00"),
        (Request::ListGroups, "05 04 00 00"),
        (Request::ShowGroup(g), "05 06 00 01 03"),
        (Request::ListCurves, "05 08 00 00"),
        (Request::ReadSum(c), "05 0A 00 01 02"),
        (Request::ListFunctions, "05 0C 00 00"),
        (Request::ReadVariable(v), "05 10 00 01 01"),
        (Request::ReadGroup(g), "05 12 00 01 03"),
        (Request::WriteVariable(v, &[0x66]), "05 20 00 02 01 66"),
        (Request::WriteGroup(g, &[1, 2]), "05 22 00 03 03 01 02"),
        (
            Request::MaskVariable(v, Masking::Toggle, &[0x0F]),
            "05 24 00 03 01 54 0F",
        ),
        (
            Request::MaskGroup(g, Masking::And, &[0x0F]),
            "05 26 00 03 03 41 0F",
        ),
        (written, "05 28 00 03 01 00 77"),
        (Request::MakeGroup(&[2, 0]), "05 30 00 02 00 02"),
        (Request::RemoveGroups, "05 32 00 00"),
        (
            Request::ReadBlock {
                curve: c,
                block: 0x102,
            },
            "05 40 00 03 02 01 02",
        ),
        (
            Request::WriteBlock {
                curve: c,
                block: 0xFFFF,
                bytes: &[9],
            },
            "05 41 00 04 02 FF FF 09",
        ),
        (Request::RenewSum(c), "05 42 00 01 02"),
        (Request::RunFunction(f, &[]), "05 50 00 01 04"),
    ];
    let gateway = Gateway::new(5);
    for (request, expected) in requests {
        let bytes = expected.split(' ');
        let bytes: Vec<u8> = bytes
            .map(|byte| u8::from_str_radix(byte, 16).expect("hex"))
            .collect();
        assert_eq!(request.code(), bytes[1]);
        assert_eq!(asked(&gateway, &request), Ok(closed(&bytes)));
    }
    let codes = Masking::ALL.map(Masking::code);
    assert_eq!(codes, [0x53, 0x4F, 0x43, 0x54, 0x58, 0x41]);
}

struct WriteReadOf(usize, usize);

impl WriteReadOf {
    fn request(self, bytes: &[u8]) -> Request<'_> {
        Request::WriteRead {
            written: VariableNumber(self.0),
            read: VariableNumber(self.1),
            bytes,
        }
    }
}

#[test]
fn a_request_that_can_t_be_written_is_refused_and_the_buffer_stays() {
    let long = [0; 4100];
    let over = VariableNumber(256);
    let wrong = Err(Refusal::RequestUnwritable);
    let refused = [
        (0, Request::Version, Err(Refusal::BadAddress)),
        (32, Request::Version, Err(Refusal::BadAddress)),
        (247, Request::ReadVariable(over), Err(Refusal::BadAddress)),
        (5, Request::ReadVariable(over), wrong),
        (5, Request::ReadGroup(GroupNumber(usize::MAX)), wrong),
        (5, Request::WriteVariable(PLAIN, &long[1..]), wrong),
        (5, Request::MakeGroup(&long), wrong),
        (5, WriteReadOf(0, 256).request(&[]), wrong),
        (255, Request::RunFunction(FunctionNumber(256), &[]), wrong),
        (
            248,
            Request::ReadBlock {
                curve: CURVE,
                block: 65536,
            },
            wrong,
        ),
    ];
    for (destination, request, expected) in refused {
        let gateway = Gateway::new(destination);
        let mut packet = [0xAA; REQUEST_ROOM];
        assert_eq!(
            gateway.ask(&request, &mut packet),
            expected.map(|()| &[][..])
        );
        assert_eq!(packet, [0xAA; REQUEST_ROOM]);
        let short = gateway.ask(&request, &mut packet[1..]);
        let expected = match expected {
            Err(Refusal::BadAddress) => Refusal::BadAddress,
            _ => Refusal::ReplyBufferShort,
        };
        assert_eq!(short, Err(expected));
    }
    let most = Gateway::new(31);
    let whole = asked(&most, &Request::MakeGroup(&long[1..])).expect("4,099 bytes");
    assert_eq!(whole.len(), REQUEST_ROOM);
}

#[test]
fn board_a_is_learned_from_its_lists() {
    let mut node = node_a();
    let mut gateway = Gateway::new(5);
    let codes = learn(&mut gateway, &mut node);
    assert_eq!(codes, [0x02, 0x04, 0x08, 0x0C]);
    let mut learned = Learned::new();
    learned.variables = 3;
    learned.writable = 0b110;
    learned.sizes[..3].copy_from_slice(&[4, 1, 2]);
    learned.curves = 1;
    learned.shapes[0] = Curve::writable(4, 2);
    learned.functions = 1;
    learned.calls[0] = Function {
        input: 1,
        output: 2,
    };
    assert_eq!(gateway.learned, learned);
    for group in [&[0x00, 0x02][..], &[0x01]] {
        exchange(
            &mut gateway,
            &mut node,
            &Request::MakeGroup(group),
            |answer| assert_eq!(answer, Answer::Done),
        );
    }
    learned.groups = 2;
    learned.sets[..2].copy_from_slice(&[0b101, 0b010]);
    assert_eq!(gateway.learned, learned);
    let mut other = Gateway::new(5);
    let codes = learn(&mut other, &mut node);
    assert_eq!(codes, [0x02, 0x04, 0x06, 0x06, 0x08, 0x0C]);
    assert_eq!(other.learned, learned);
    exchange(&mut other, &mut node, &Request::RemoveGroups, |answer| {
        assert_eq!(answer, Answer::Done)
    });
    assert_eq!(other.learned.groups, 0);
}

#[test]
fn lists_are_told_record_by_record() {
    let mut node = node_a();
    let mut gateway = gateway_a(&mut node);
    let variable = |writable, size| ListedVariable { writable, size };
    let group = |writable, members| ListedGroup { writable, members };
    let mut ask = |request: &Request, check: &dyn Fn(Answer)| {
        exchange(&mut gateway, &mut node, request, check)
    };
    ask(&Request::Version, &|answer| {
        assert_eq!(answer, Answer::Version([2, 20, 0]))
    });
    ask(&Request::ListVariables, &|answer| match answer {
        Answer::Variables(mut list) => {
            assert_eq!((list.len(), list.bytes()), (3, &[0x04, 0x81, 0x82][..]));
            assert_eq!(list.next(), Some(variable(false, 4)));
            assert_eq!(list.len(), 2);
            let rest: Vec<ListedVariable> = list.collect();
            assert_eq!(rest, [variable(true, 1), variable(true, 2)]);
        }
        other => panic!("{:?}", other),
    });
    ask(&Request::ListGroups, &|answer| match answer {
        Answer::Groups(list) => {
            let list: Vec<ListedGroup> = list.collect();
            assert_eq!(list, [group(false, 3), group(false, 1), group(true, 2)]);
        }
        other => panic!("{:?}", other),
    });
    ask(
        &Request::ShowGroup(GroupNumber(2)),
        &|answer| match answer {
            Answer::Members(list) => {
                assert_eq!(list.collect::<Vec<_>>(), [PLAIN, UNSIGNED]);
            }
            other => panic!("{:?}", other),
        },
    );
    ask(&Request::ListCurves, &|answer| match answer {
        Answer::Curves(list) => assert_eq!(list.collect::<Vec<_>>(), [Curve::writable(4, 2)]),
        other => panic!("{:?}", other),
    });
    ask(&Request::ListFunctions, &|answer| match answer {
        Answer::Functions(mut list) => {
            let function = Function {
                input: 1,
                output: 2,
            };
            assert_eq!((list.next(), list.next()), (Some(function), None));
        }
        other => panic!("{:?}", other),
    });
}

#[test]
fn a_curve_of_65536_blocks_is_told_and_learned_as_such() {
    let mut board = board_a();
    board.curves = vec![Curve::read_only(1, 65536)];
    let mut node = Node::new(board);
    let mut gateway = gateway_a(&mut node);
    assert_eq!(gateway.learned.shapes[0], Curve::read_only(1, 65536));
    exchange(
        &mut gateway,
        &mut node,
        &Request::ListCurves,
        |answer| match answer {
            Answer::Curves(mut list) => {
                assert_eq!(list.next(), Some(Curve::read_only(1, 65536)))
            }
            other => panic!("{:?}", other),
        },
    );
    let last = Request::ReadBlock {
        curve: CURVE,
        block: 65535,
    };
    exchange(&mut gateway, &mut node, &last, |answer| {
        assert_eq!(answer, Answer::Block(&[0]))
    });
}

#[test]
fn values_are_read_as_the_numbers_that_their_kinds_say() {
    let mut node = node_a();
    let mut gateway = gateway_a(&mut node);
    let read = |gateway: &mut Gateway, node: &mut Node, request: Request| {
        let packet = asked(gateway, &request).expect("it can be written");
        let reply = reply_of(node, &packet);
        let answer = gateway.hear(&request, &reply).expect("it fits");
        values(&answer)
    };
    let three = read(&mut gateway, &mut node, Request::ReadVariable(SIGNED));
    assert_eq!(three, [(0, vec![0xFF, 0xFF, 0xFF, 0xFD])]);
    assert_eq!(gateway.number(SIGNED, &three[0].1), Ok(Number::Signed(-3)));
    assert_eq!(gateway.signed(SIGNED, &three[0].1), Ok(-3));
    assert_eq!(i128::from(Number::Signed(-3)), -3);
    assert_eq!(Number::Signed(-3).to_string(), "-3");

    let all = read(&mut gateway, &mut node, Request::ReadGroup(GroupNumber(0)));
    let (one, two) = ((1, vec![0x5A]), (2, vec![0x34, 0x12]));
    assert_eq!(all, [three[0].clone(), one.clone(), two.clone()]);
    let number = gateway.number(UNSIGNED, &all[2].1);
    assert_eq!(number, Ok(Number::Unsigned(0x1234)));
    assert_eq!(gateway.unsigned(UNSIGNED, &all[2].1), Ok(0x1234));
    assert_eq!(gateway.number(PLAIN, &all[1].1), Err(Refusal::WrongKind));

    let some = read(&mut gateway, &mut node, Request::ReadGroup(GroupNumber(2)));
    assert_eq!(some, [one, two]);
    let members: Vec<VariableNumber> = gateway.members(GroupNumber(2)).collect();
    assert_eq!(members, [PLAIN, UNSIGNED]);
    assert_eq!(gateway.place(GroupNumber(2), UNSIGNED), Ok(5..7));
    let none = Err(Refusal::NoSuchVariable);
    assert_eq!(gateway.place(GroupNumber(2), SIGNED), none);
    assert_eq!(gateway.place(GroupNumber(3), SIGNED), none);

    let after = read(&mut gateway, &mut node, WriteReadOf(1, 1).request(&[0x77]));
    assert_eq!(after, [(1, vec![0x77])]);
}

#[test]
fn numbers_are_written_as_the_only_bytes_that_read_as_them() {
    let mut node = node_a();
    let gateway = gateway_a(&mut node);
    let mut four = [0; 4];
    assert_eq!(
        gateway.write_number(SIGNED, Number::Signed(-3), &mut four),
        Ok(())
    );
    assert_eq!(four, [0xFF, 0xFF, 0xFF, 0xFD]);
    let mut two = [0xAA; 2];
    let refused = [
        gateway.write_number(SIGNED, Number::Signed(1 << 31), &mut four),
        gateway.write_number(SIGNED, Number::Unsigned(3), &mut four),
        gateway.write_number(SIGNED, Number::Signed(3), &mut two),
        gateway.write_number(PLAIN, Number::Unsigned(3), &mut two),
        gateway.write_number(UNSIGNED, Number::Unsigned(65536), &mut two),
        gateway.write_number(VariableNumber(3), Number::Signed(3), &mut two),
    ];
    let numbers = refused.map(|told| told.map_or_else(Refusal::number, |()| 0));
    assert_eq!(numbers, [12, 11, 10, 11, 12, 9]);
    assert_eq!((four, two), ([0xFF, 0xFF, 0xFF, 0xFD], [0xAA; 2]));
    let number = Number::Unsigned(0x1234);
    assert_eq!(gateway.write_number(UNSIGNED, number, &mut two), Ok(()));
    assert_eq!(two, [0x34, 0x12]);
}

#[test]
fn without_kinds_or_lists_there_are_no_numbers() {
    let mut node = node_a();
    let mut gateway = gateway_a(&mut node);
    gateway.kinds.truncate(1);
    assert_eq!(gateway.number(SIGNED, &[0, 0, 0, 1]), Ok(Number::Signed(1)));
    assert_eq!(
        gateway.number(UNSIGNED, &[1, 0]),
        Err(Refusal::NoSuchVariable)
    );
    gateway.kinds.clear();
    assert_eq!(gateway.number(SIGNED, &[0; 4]), Err(Refusal::BoardUnusable));
    let mut knows_nothing = Gateway::new(5);
    knows_nothing.kinds = vec![Kind::SignedBig; 3];
    let unusable = Err(Refusal::BoardUnusable);
    assert_eq!(knows_nothing.number(SIGNED, &[0; 4]), unusable);
}

#[test]
fn curves_and_functions_are_asked() {
    let mut node = node_a();
    let mut gateway = gateway_a(&mut node);
    let mut ask = |request: &Request, check: &dyn Fn(Answer)| {
        exchange(&mut gateway, &mut node, request, check)
    };
    let sum = |bytes: &[u8]| -> [u8; SUM_SIZE] { md5(bytes) };
    let write = Request::WriteBlock {
        curve: CURVE,
        block: 1,
        bytes: b"DRY",
    };
    ask(&write, &|answer| assert_eq!(answer, Answer::Done));
    let read = Request::ReadBlock {
        curve: CURVE,
        block: 1,
    };
    ask(&read, &|answer| assert_eq!(answer, Answer::Block(b"DRY")));
    ask(&Request::ReadSum(CURVE), &|answer| {
        assert_eq!(answer, Answer::Sum(&sum(&[0; 8])))
    });
    ask(&Request::RenewSum(CURVE), &|answer| {
        assert_eq!(answer, Answer::Done)
    });
    ask(&Request::ReadSum(CURVE), &|answer| {
        assert_eq!(answer, Answer::Sum(&sum(b"\0\0\0\0DRY")))
    });
    ask(&Request::RunFunction(FUNCTION, &[7]), &|answer| {
        assert_eq!(answer, Answer::Output(&[0, 7]))
    });
    ask(&Request::RunFunction(FUNCTION, &[0xFF]), &|answer| {
        assert_eq!(answer, Answer::Failed(0xBB))
    });
}

#[test]
fn each_error_is_told_by_its_code_and_teaches_nothing() {
    let mut node = node_a();
    let mut gateway = gateway_a(&mut node);
    let known = gateway.learned;
    let mut ask = |request: &Request, expected: WireError| {
        exchange(&mut gateway, &mut node, request, |answer| {
            assert_eq!(answer, Answer::Error(expected))
        })
    };
    let block = Request::ReadBlock {
        curve: CURVE,
        block: 2,
    };
    ask(&Request::ShowGroup(GroupNumber(3)), WireError::BadId);
    ask(&Request::ReadVariable(VariableNumber(3)), WireError::BadId);
    ask(&Request::MakeGroup(&[1, 1]), WireError::BadValue);
    ask(&block, WireError::BadValue);
    ask(&Request::WriteVariable(PLAIN, &[1, 2]), WireError::BadSize);
    ask(&Request::MakeGroup(&[]), WireError::BadSize);
    ask(
        &Request::WriteVariable(SIGNED, &[0; 4]),
        WireError::ReadOnly,
    );
    assert_eq!(gateway.learned, known);

    for error in WireError::ALL {
        let reply = closed(&[0x00, error.code(), 0x00, 0x00]);
        let mut gateway = gateway.clone();
        for request in [Request::ListVariables, Request::RemoveGroups] {
            assert_eq!(gateway.hear(&request, &reply), Ok(Answer::Error(error)));
        }
        assert_eq!(gateway.learned, known);
        assert_eq!(WireError::of(error.code()), Some(error));
        assert_eq!(Lists::new().heard(&Answer::Error(error)), Err(error));
    }
    let none = [0x00, 0xE0, 0xE9, 0xFF].map(WireError::of);
    assert_eq!(none, [None; 4]);
}

#[test]
fn what_is_no_answer_to_the_request_is_refused_and_teaches_nothing() {
    let mut node = node_a();
    let mut gateway = gateway_a(&mut node);
    let known = gateway.learned;
    let minus_3 = closed(&[0x00, 0x11, 0x00, 0x04, 0xFF, 0xFF, 0xFF, 0xFD]);
    let read = Request::ReadVariable(SIGNED);
    let mut damaged = minus_3.clone();
    damaged[4] ^= 0x10;
    let mut elsewhere = minus_3.clone();
    elsewhere[0] = 0x05;
    elsewhere[8] = elsewhere[8].wrapping_sub(0x05);
    let unfit = Refusal::ReplyUnfit;
    let refused = [
        (read, &[][..], Refusal::PacketLength),
        (read, &[0x00][..], Refusal::PacketLength),
        (read, &[0x00; 4105][..], Refusal::PacketLength),
        (read, &damaged, Refusal::Checksum),
        (read, &minus_3[..8], Refusal::Checksum),
        (read, &elsewhere, unfit),
        (read, &[0x00, 0x00], unfit),
        (Request::ReadVariable(PLAIN), &minus_3, unfit),
        (Request::ReadVariable(VariableNumber(3)), &minus_3, unfit),
        (Request::ListVariables, &minus_3, unfit),
        (Request::WriteVariable(PLAIN, &[1]), &minus_3, unfit),
    ];
    for (request, reply, refusal) in refused {
        assert_eq!(gateway.hear(&request, reply), Err(refusal), "{:?}", request);
        assert_eq!(gateway.learned, known);
    }
    assert!(gateway.hear(&read, &minus_3).is_ok());
    gateway.destination = 255;
    assert_eq!(gateway.hear(&read, &minus_3), Err(unfit));
    gateway.destination = 0;
    assert_eq!(gateway.hear(&read, &minus_3), Err(Refusal::BadAddress));
    gateway.learned.variables = 65;
    assert_eq!(gateway.hear(&read, &minus_3), Err(Refusal::BoardUnusable));
}

#[test]
fn what_is_known_counts_for_six_requests_alone() {
    let mut node = node_a();
    let mut gateway = Gateway::new(5);
    let block = Request::ReadBlock {
        curve: CURVE,
        block: 0,
    };
    for request in [
        Request::ReadSum(CURVE),
        Request::ReadVariable(SIGNED),
        Request::ReadGroup(GroupNumber(0)),
        WriteReadOf(1, 0).request(&[0x5A]),
        block,
        Request::RunFunction(FUNCTION, &[1]),
    ] {
        let packet = asked(&gateway, &request).expect("it can be written");
        let reply = reply_of(&mut node, &packet);
        let unusable = Err(Refusal::BoardUnusable);
        assert_eq!(gateway.hear(&request, &reply), unusable, "{:?}", request);
    }
    for request in [
        Request::Version,
        Request::WriteVariable(PLAIN, &[1]),
        Request::RenewSum(CURVE),
        Request::ListCurves,
    ] {
        exchange(&mut gateway, &mut node, &request, |answer| {
            assert!(!matches!(answer, Answer::Error(_)))
        });
    }
}

// A source of bytes that are the same each time.
struct Draws(u64);

impl Draws {
    fn next(&mut self) -> u64 {
        self.0 ^= self.0 << 13;
        self.0 ^= self.0 >> 7;
        self.0 ^= self.0 << 17;
        self.0
    }

    fn below(&mut self, end: usize) -> usize {
        (self.next() % end as u64) as usize
    }

    fn bytes(&mut self, most: usize) -> Vec<u8> {
        let count = self.below(most + 1);
        (0..count).map(|_| self.next() as u8).collect()
    }

    fn number(&mut self) -> usize {
        match self.below(12) {
            0 => self.next() as usize,
            1 => self.below(300),
            _ => self.below(9),
        }
    }
}

fn drawn<'a>(draws: &mut Draws, bytes: &'a [u8]) -> Request<'a> {
    let (number, block) = (draws.number(), draws.number());
    let (variable, group) = (VariableNumber(number), GroupNumber(number));
    let (curve, function) = (CurveNumber(number), FunctionNumber(number));
    let masking = Masking::ALL[draws.below(6)];
    match draws.below(20) {
        0 => Request::Version,
        1 => Request::ListVariables,
        2 => Request::ListGroups,
        3 => Request::ShowGroup(group),
        4 => Request::ListCurves,
        5 => Request::ReadSum(curve),
        6 => Request::ListFunctions,
        7 => Request::ReadVariable(variable),
        8 => Request::ReadGroup(group),
        9 => Request::WriteVariable(variable, bytes),
        10 => Request::WriteGroup(group, bytes),
        11 => Request::MaskVariable(variable, masking, bytes),
        12 => Request::MaskGroup(group, masking, bytes),
        13 => WriteReadOf(number, block).request(bytes),
        14 => Request::MakeGroup(bytes),
        15 => Request::RemoveGroups,
        16 => Request::ReadBlock { curve, block },
        17 => Request::WriteBlock {
            curve,
            block,
            bytes,
        },
        18 => Request::RenewSum(curve),
        _ => Request::RunFunction(function, bytes),
    }
}

// What is told of a list is what is known after it; of values, that they are all and no more.
fn look(request: &Request, answer: &Answer, reply: &[u8], learned: &Learned) {
    match answer {
        Answer::Variables(list) => {
            for (number, variable) in list.clone().enumerate() {
                let known = learned.writable >> number & 1 == 1;
                let known = (known, learned.sizes[number]);
                assert_eq!((variable.writable, variable.size), known);
            }
            assert_eq!(list.len() as u64, learned.variables);
        }
        Answer::Curves(list) => {
            assert_eq!(list.len() as u64, learned.curves);
            assert!(list.clone().zip(learned.shapes).all(|(a, b)| a == b));
        }
        Answer::Functions(list) => {
            assert_eq!(list.len() as u64, learned.functions);
            assert!(list.clone().zip(learned.calls).all(|(a, b)| a == b));
        }
        Answer::Values(values) => {
            let told: Vec<u8> = values
                .clone()
                .flat_map(|(_, bytes)| bytes.to_vec())
                .collect();
            assert_eq!(told, reply[4..reply.len() - 1], "{:?}", request);
        }
        _ => (),
    }
}

#[test]
fn anything_at_all_is_taken() {
    let mut draws = Draws(2026);
    let mut node = node_a();
    let fine = gateway_a(&mut node);
    let codes = [
        0x01, 0x03, 0x05, 0x07, 0x09, 0x0B, 0x0D, 0x11, 0x13, 0x41, 0x51, 0x53, 0xE0, 0xE3,
    ];
    let (mut heard, mut refused) = (0, 0);
    for _ in 0..30000 {
        let mut gateway = fine.clone();
        if draws.below(3) == 0 {
            gateway.destination = draws.next() as u8;
            gateway.learned.variables = draws.number() as u64;
            gateway.learned.groups = draws.number() as u64;
            gateway.learned.curves = draws.number() as u64;
            gateway.learned.functions = draws.number() as u64;
            gateway.learned.writable = draws.next();
            gateway.learned.sets = [0; 5].map(|_: u64| draws.next() & 7);
            let place = draws.below(64);
            gateway.learned.sizes[place] = draws.next() as u8;
            gateway.learned.shapes[place / 8].blocks = draws.next() as u32;
        }
        let bytes = draws.bytes(8);
        let request = drawn(&mut draws, &bytes);
        let _ = asked(&gateway, &request);
        let mut reply = vec![0x00, codes[draws.below(codes.len())], 0x00, 0x00];
        if draws.below(3) > 0 {
            // The answer's code, mostly.
            reply[1] = match request.code() {
                0x20..=0x26 | 0x30 | 0x32 | 0x41 | 0x42 => 0xE0,
                0x28 => 0x11,
                code => code + 1,
            };
        }
        if let Request::ReadBlock { curve, block } = request {
            reply.extend([curve.0 as u8, (block >> 8) as u8, block as u8]);
        }
        reply.extend(draws.bytes(17));
        reply[3] = (reply.len() - 4) as u8;
        let mut reply = closed(&reply);
        if draws.below(20) == 0 {
            reply = draws.bytes(12);
        }
        let before = gateway.learned;
        match gateway.hear(&request, &reply) {
            Ok(answer) => {
                heard += 1;
                look(&request, &answer, &reply, &gateway.learned);
            }
            Err(_) => {
                refused += 1;
                assert_eq!(gateway.learned, before);
            }
        }
        let variable = VariableNumber(draws.number());
        let number = gateway.number(variable, &bytes);
        let mut buffer = bytes.clone();
        if let Ok(number) = number {
            buffer.fill(0xAA);
            assert_eq!(gateway.write_number(variable, number, &mut buffer), Ok(()));
            assert_eq!(buffer, bytes);
        }
    }
    assert!(heard > 1000 && refused > 1000, "{} {}", heard, refused);
}
