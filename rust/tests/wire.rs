//! The wire codes: each is met in a reply.
use cruachvel::{wire, Address, Board, Curve, Kind, Node, Outcome, Variable, REPLY_ROOM};

const READ_ONLY: u8 = 0;
const WRITABLE: u8 = 1;

fn node() -> Node {
    Node::new(Board {
        variables: vec![
            Variable::read_only(1, Kind::Plain),
            Variable::writable(1, Kind::Plain),
        ],
        curves: vec![Curve::writable(4, 2)],
        functions: vec![],
        address: Address {
            own: 5,
            multicast: 0x01,
        },
    })
}

// The code that the node answers to this command with this payload.
fn answered(node: &mut Node, command: u8, payload: &[u8]) -> u8 {
    let mut packet = vec![node.board.address.own, command, 0, payload.len() as u8];
    packet.extend(payload);
    closed_and_sent(node, packet)
}

fn closed_and_sent(node: &mut Node, mut packet: Vec<u8>) -> u8 {
    let sum = packet.iter().fold(0u8, |sum, byte| sum.wrapping_add(*byte));
    packet.push(0u8.wrapping_sub(sum));
    match node.packet(&packet, &mut [0; REPLY_ROOM]) {
        Outcome::Reply(reply) => reply[1],
        other => panic!("{:02X?} ended in {:?}", packet, other),
    }
}

#[test]
fn each_code_is_met() {
    let mut node = node();
    let own = node.board.address.own;
    assert_eq!(answered(&mut node, 0x20, &[WRITABLE, 9]), wire::OK);
    assert_eq!(closed_and_sent(&mut node, vec![own]), wire::MALFORMED);
    assert_eq!(answered(&mut node, 0x7F, &[]), wire::UNSUPPORTED);
    assert_eq!(answered(&mut node, 0x10, &[2]), wire::BAD_ID);
    assert_eq!(answered(&mut node, 0x40, &[0, 0, 2]), wire::BAD_VALUE);
    assert_eq!(answered(&mut node, 0x20, &[WRITABLE, 9, 9]), wire::BAD_SIZE);
    assert_eq!(answered(&mut node, 0x20, &[READ_ONLY, 9]), wire::READ_ONLY);
    for _ in 0..5 {
        assert_eq!(answered(&mut node, 0x30, &[WRITABLE]), wire::OK);
    }
    assert_eq!(answered(&mut node, 0x30, &[WRITABLE]), wire::FULL);
    node.busy = 1 << WRITABLE;
    assert_eq!(answered(&mut node, 0x20, &[WRITABLE, 9]), wire::BUSY);
    assert_eq!(answered(&mut node, 0x10, &[WRITABLE]), wire::BUSY);
}
