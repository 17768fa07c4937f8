//! Board A of 01 answers its first packet: read variable 0, whose bytes mean -3.
use cruachvel::{
    Address, Board, Curve, Function, Kind, Node, Outcome, Refusal, Variable, VariableNumber,
    REPLY_ROOM,
};

fn main() -> Result<(), Refusal> {
    let mut node = Node::new(Board {
        variables: vec![
            Variable::read_only(4, Kind::SignedBig),
            Variable::writable(1, Kind::Plain),
            Variable::writable(2, Kind::UnsignedLittle),
        ],
        curves: vec![Curve::writable(4, 2)],
        functions: vec![Function {
            input: 1,
            output: 2,
        }],
        address: Address {
            own: 5,
            multicast: 0x81,
        },
    });
    let probe = VariableNumber(0);
    node.store_signed(probe, -3)?;
    node.store(VariableNumber(1), &[0x5A])?;
    node.store_unsigned(VariableNumber(2), 0x1234)?;

    let packet = [0x05, 0x10, 0x00, 0x01, 0x00, 0xEA];
    let mut reply = [0; REPLY_ROOM];
    if let Outcome::Reply(reply) = node.packet(&packet, &mut reply) {
        println!("reply {:02X?}", reply);
        let value = &reply[4..reply.len() - 1]; // after destination, 11 and SIZE; before the checksum
        println!("variable 0 is {}", node.read_signed(probe, value)?);
    }
    Ok(())
}
